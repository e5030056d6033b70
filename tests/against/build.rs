//! Links the functions of the earlier commit, which tools/against has built and renamed, and finds out which marks its
//! removal takes.

use std::env;
use std::path::Path;

fn main() {
    let earlier =
        env::var("EARLIER").expect("tools/against names the folder of the earlier commit");
    println!("cargo:rerun-if-env-changed=EARLIER");
    println!("cargo:rerun-if-changed={earlier}/libearlier.a");
    println!("cargo:rustc-link-search=native={earlier}");
    println!("cargo:rustc-link-lib=static=earlier");
    println!("cargo:rustc-check-cfg=cfg(marks_in_bits)");
    if Path::new(&earlier)
        .join("crates/changes/src/bits.rt")
        .exists()
    {
        println!("cargo:rustc-cfg=marks_in_bits");
    }
}
