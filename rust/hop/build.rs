//! Has the archive linked into whatever uses this crate. Uses std only.
//! The archive is HOP_ARCHIVE, or target/staticlib/libhop_c.a of the repository that this crate stands in.

use std::env;
use std::path::{Path, PathBuf};

fn main() {
    println!("cargo:rerun-if-env-changed=HOP_ARCHIVE");
    let root = Path::new(&env::var("CARGO_MANIFEST_DIR").expect("cargo sets it")).join("../..");
    let archive = match env::var_os("HOP_ARCHIVE") {
        Some(given) if !given.is_empty() => root.join(PathBuf::from(given)),
        _ => root.join("target/staticlib/libhop_c.a"),
    };
    println!("cargo:rerun-if-changed={}", archive.display());
    if !archive.is_file() {
        // Checking and documenting need no archive; only linking does.
        println!(
            "cargo:warning=no archive at {}: set HOP_ARCHIVE, or write it with 'make archive'",
            archive.display()
        );
        return;
    }
    let folder = archive.parent().expect("a file has a folder");
    let stem = archive.file_stem().and_then(|s| s.to_str()).unwrap_or_default();
    let name = stem.strip_prefix("lib").expect("an archive is named libNAME.a");
    println!("cargo:rustc-link-search=native={}", folder.display());
    println!("cargo:rustc-link-lib=static={name}");
}
