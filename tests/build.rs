//! Proves and builds the Rattle crates `test_exports` and `entry_c` as static
//! libraries, and links them; each defines its exported names alone. Proves and
//! builds the programs `tablet`, `holders` and `join`, which the tests start.

use std::path::{Path, PathBuf};
use std::process::{Command, Stdio};
use std::{env, fs};

fn main() {
    let package = env::var("CARGO_MANIFEST_DIR").expect("cargo names the package");
    let root = Path::new(&package).parent().expect("a repository above");
    let out = PathBuf::from(env::var("OUT_DIR").expect("cargo names a folder"));
    for library in ["test_exports", "entry_c"] {
        built(root, &out, library, "lib", &format!("lib{library}.a"));
        println!("cargo:rustc-link-lib=static={library}");
    }
    println!("cargo:rustc-link-search=native={}", out.display());
    for (program, name) in [
        ("tablet", "TABLET"),
        ("holders", "HOLDERS"),
        ("join", "JOIN"),
    ] {
        // it is run too, of no input
        let path = built(root, &out, program, "run", program);
        println!("cargo:rustc-env={name}={}", path.display());
    }
    println!(
        "cargo:rerun-if-changed={}",
        root.join("crates.txt").display()
    );
    let crates = fs::read_dir(root.join("crates")).expect("a folder of crates");
    for folder in crates.map(|c| c.expect("it can be read").path()) {
        // not the whole folder: rt writes into out/ there
        for part in ["src", "specs", "proofs"].map(|part| folder.join(part)) {
            if part.exists() {
                println!("cargo:rerun-if-changed={}", part.display());
            }
        }
    }
}

/// Has rt write a file of a crate, and copies it, so that what another run of rt puts in its place is not linked.
fn built(root: &Path, out: &Path, name: &str, word: &str, file: &str) -> PathBuf {
    let folder = root.join("crates").join(name);
    let mut rt = Command::new("rt");
    let rt = rt.arg(word).current_dir(&folder).stdin(Stdio::null());
    let status = rt.status().expect("rt starts");
    assert!(status.success(), "rt {word} in {}", folder.display());
    let to = out.join(file);
    fs::copy(folder.join("out").join(file), &to).expect("the file is there");
    to
}
