//! Links the archive that `bin/build lens` makes, or the one that `LENS_ARCHIVE` names.

use std::env;
use std::fs;
use std::path::{Path, PathBuf};

fn main() {
    println!("cargo:rerun-if-changed=build.rs");
    println!("cargo:rerun-if-env-changed=LENS_ARCHIVE");
    let made = Path::new(&env::var_os("CARGO_MANIFEST_DIR").unwrap()).join("../target/staticlib/liblens.a");
    let archive = env::var_os("LENS_ARCHIVE").map_or(made, PathBuf::from);
    println!("cargo:rerun-if-changed={}", archive.display());
    // A copy of our own, so that an archive of any name can be linked.
    let copy = PathBuf::from(env::var_os("OUT_DIR").unwrap());
    if let Err(error) = fs::copy(&archive, copy.join("liblens.a")) {
        eprintln!("\nThe archive {} cannot be read: {error}.", archive.display());
        eprintln!("Run `bin/build lens` in the repository's root to make it, or name another in LENS_ARCHIVE (a full path).\n");
        std::process::exit(1);
    }
    println!("cargo:rustc-link-search=native={}", copy.display());
    println!("cargo:rustc-link-lib=static=lens");
}
