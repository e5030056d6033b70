//! Proves and builds the Rattle crate `entry_c` as a static library, and links it.

use std::path::{Path, PathBuf};
use std::process::Command;
use std::{env, fs};

fn main() {
    let package = env::var("CARGO_MANIFEST_DIR").expect("cargo names the package");
    let root = Path::new(&package).ancestors().nth(2);
    let crates = root.expect("a repository above").join("crates");
    let folder = crates.join("entry_c");
    let status = Command::new("rt").arg("lib").current_dir(&folder).status();
    assert!(status.expect("rt starts").success(), "rt lib in entry_c");
    // a copy, so that what another run of rt puts in its place is not linked
    let out = PathBuf::from(env::var("OUT_DIR").expect("cargo names a folder"));
    let built = folder.join("out/libentry_c.a");
    fs::copy(built, out.join("libentry_c.a")).expect("the archive is there");
    println!("cargo:rustc-link-search=native={}", out.display());
    println!("cargo:rustc-link-lib=static=entry_c");
    println!(
        "cargo:rerun-if-changed={}",
        crates.with_extension("txt").display()
    );
    for folder in fs::read_dir(crates).expect("a folder of crates") {
        // not the whole folder: rt writes into out/ there
        let folder = folder.expect("it can be read").path();
        for part in ["src", "specs", "proofs"].map(|part| folder.join(part)) {
            if part.exists() {
                println!("cargo:rerun-if-changed={}", part.display());
            }
        }
    }
}
