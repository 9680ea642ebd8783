//! Finds and links the proved library, libaxml.a, which `tools/library` at the top of the repository writes for the machine at hand.
//!
//! Looked for in this order: the folder that AXML_LIB names (what `tools/library DIR` was given), what pkg-config knows as `axml`, and
//! target/library at the top of the repository, which `tools/library` writes when it is given no folder.

use std::path::{Path, PathBuf};
use std::process::Command;

const MISSING: &str = "run `tools/library` at the top of the repository first, or name the folder that `tools/library DIR` wrote by AXML_LIB=DIR";

fn told_by_pkg_config() -> Option<PathBuf> {
    let said = Command::new("pkg-config").args(["--variable=libdir", "axml"]).output().ok()?;
    let folder = String::from_utf8(said.stdout).ok()?;
    Some(PathBuf::from(folder.trim())).filter(|f| f.join("libaxml.a").exists())
}

fn main() {
    println!("cargo:rerun-if-env-changed=AXML_LIB");
    println!("cargo:rerun-if-env-changed=PKG_CONFIG_PATH");
    let own = Path::new(env!("CARGO_MANIFEST_DIR")).join("../../target/library/lib");
    let folder = match std::env::var_os("AXML_LIB") {
        Some(named) => PathBuf::from(named).join("lib"),
        None => told_by_pkg_config().unwrap_or(own),
    };
    let archive = folder.join("libaxml.a");
    println!("cargo:rerun-if-changed={}", archive.display());
    if !archive.exists() {
        panic!("there is no {}: {MISSING}", archive.display());
    }
    println!("cargo:rustc-link-search=native={}", folder.display());
    println!("cargo:rustc-link-lib=static=axml");
}
