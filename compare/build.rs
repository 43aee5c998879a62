//! Links the proved library's archive if it has been built, and sets `cfg(proved)` then.
//! Without it the project still builds: plain Rust is checked against the recorded answers alone.

use std::env;
use std::path::PathBuf;

/// Another archive to link, for one that was built elsewhere.
const OVERRIDE: &str = "PROVED_ARCHIVE_DIR";

fn main() {
    println!("cargo::rustc-check-cfg=cfg(proved)");
    println!("cargo::rerun-if-env-changed={OVERRIDE}");

    let folder = archive_folder();
    let archive = folder.join("liblibrary.a");
    println!("cargo::rerun-if-changed={}", archive.display());
    if archive.exists() {
        println!("cargo::rustc-cfg=proved");
        println!("cargo::rustc-link-search=native={}", folder.display());
        println!("cargo::rustc-link-lib=static=library");
    }
}

/// Where `rt lib` in `crates/library` writes.
fn archive_folder() -> PathBuf {
    match env::var_os(OVERRIDE) {
        Some(folder) => PathBuf::from(folder),
        None => {
            let here = PathBuf::from(env::var_os("CARGO_MANIFEST_DIR").expect("set by cargo"));
            here.join("../crates/library/out")
        }
    }
}
