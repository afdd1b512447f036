//! Makes the static library of the Rattle crate `greystroke` and links it.
//! The archive is copied because a crate's `out` may be removed at any time.

use std::path::{Path, PathBuf};
use std::process::Command;
use std::{env, fs};

const ARCHIVE: &str = "libgreystroke.a";
/// What a library is made of: the folders of a crate. Beside them stands `out`, which each run of `rt` writes.
const PARTS: [&str; 3] = ["src", "specs", "proofs"];

fn main() {
    let root = Path::new(env!("CARGO_MANIFEST_DIR")).join("../..");
    let out = PathBuf::from(env::var_os("OUT_DIR").expect("cargo sets OUT_DIR"));
    watch(&root);
    let made = make(&root.join("crates/greystroke"));
    fs::copy(&made, out.join(ARCHIVE))
        .unwrap_or_else(|error| panic!("cannot copy {}: {error}", made.display()));
    println!("cargo:rustc-link-search=native={}", out.display());
    println!("cargo:rustc-link-lib=static=greystroke");
}

/// A path that does not exist would make cargo run this script on every build.
fn watch(root: &Path) {
    let crates = fs::read_dir(root.join("crates")).expect("the repository has crates");
    let folders = crates.map(|entry| entry.expect("a folder of crates can be read").path());
    let parts = folders.flat_map(|folder| PARTS.map(|part| folder.join(part)));
    for path in parts.chain([root.join("crates.txt")]) {
        if path.exists() {
            println!("cargo:rerun-if-changed={}", path.display());
        }
    }
    println!("cargo:rerun-if-changed=build.rs");
    println!("cargo:rerun-if-env-changed=RT");
}

/// Makes the archive in the folder of its crate; hands back where it stands.
fn make(folder: &Path) -> PathBuf {
    let rt = env::var_os("RT").unwrap_or_else(|| "rt".into());
    let mut command = Command::new(&rt);
    command.arg("lib").current_dir(folder);
    match command.status() {
        Ok(status) if status.success() => folder.join("out").join(ARCHIVE),
        outcome => panic!("`rt lib` of greystroke failed ({outcome:?}); RT may name another rt"),
    }
}
