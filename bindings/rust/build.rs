//! Finds the archive `libnearby_c.a`: in the folder that `NEARBY_ARCHIVE` names, or where `./build archive` puts it.

use std::env;
use std::path::{Path, PathBuf};

const ARCHIVE: &str = "libnearby_c.a";

fn folder() -> PathBuf {
    match env::var_os("NEARBY_ARCHIVE") {
        Some(named) => PathBuf::from(named),
        None => Path::new(env!("CARGO_MANIFEST_DIR")).join("../../target/staticlib"),
    }
}

fn main() {
    let folder = folder();
    let archive = folder.join(ARCHIVE);
    println!("cargo:rerun-if-env-changed=NEARBY_ARCHIVE");
    println!("cargo:rerun-if-changed={}", archive.display());
    if !archive.is_file() {
        eprintln!("there is no {}", archive.display());
        eprintln!("run `./build archive` at the repository's root, or set NEARBY_ARCHIVE to the folder that has {ARCHIVE}");
        std::process::exit(1);
    }
    println!("cargo:rustc-link-search=native={}", folder.display());
    println!("cargo:rustc-link-lib=static=nearby_c");
}
