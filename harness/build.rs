//! Finds the archive and has it linked; without one everything but the core is built. Uses std only.
//! The archive is HOP_ARCHIVE, or target/staticlib/libhop_c.a of the repository; 'none' asks for no archive. HOP_BEFORE
//! names another one beside it, whose calls have 'before_' in front of their names and which may be older than some.

use std::env;
use std::path::{Path, PathBuf};

/// The calls that came with a request.
const LATER: [&str; 4] = ["worth", "why", "route", "notice"];

/// Says to the sources which of these an older archive has: their names stand in it, each with a zero behind.
fn tell_later(archive: &Path) {
    let bytes = std::fs::read(archive).unwrap_or_default();
    for call in LATER {
        let name = format!("before_hop_{call}\0");
        if bytes.windows(name.len()).any(|at| at == name.as_bytes()) {
            println!("cargo:rustc-cfg=before_{call}");
        }
    }
}

/// Has an archive linked where there is one, and says so to the sources.
fn link(archive: &Path, found: &str) {
    println!("cargo:rerun-if-changed={}", archive.display());
    if !archive.is_file() {
        return;
    }
    let folder = archive.parent().expect("a file has a folder");
    let stem = archive.file_stem().and_then(|s| s.to_str()).unwrap_or_default();
    let name = stem.strip_prefix("lib").expect("an archive is named libNAME.a");
    println!("cargo:rustc-cfg={found}");
    println!("cargo:rustc-link-search=native={}", folder.display());
    println!("cargo:rustc-link-lib=static={name}");
}

fn main() {
    println!("cargo:rustc-check-cfg=cfg(archive, before, before_worth, before_why, before_route, before_notice)");
    println!("cargo:rerun-if-env-changed=HOP_ARCHIVE");
    println!("cargo:rerun-if-env-changed=HOP_BEFORE");
    let root = Path::new(&env::var("CARGO_MANIFEST_DIR").expect("cargo sets it")).join("..");
    let archive = match env::var_os("HOP_ARCHIVE") {
        // Told so, there is no file whose coming would have this built again.
        Some(given) if given == "none" => return println!("cargo:rerun-if-changed=build.rs"),
        Some(given) if !given.is_empty() => root.join(PathBuf::from(given)),
        _ => root.join("target/staticlib/libhop_c.a"),
    };
    link(&archive, "archive");
    if let Some(given) = env::var_os("HOP_BEFORE") {
        let before = root.join(given);
        link(&before, "before");
        tell_later(&before);
    }
}
