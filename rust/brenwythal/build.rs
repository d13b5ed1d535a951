//! Links the proved library, and with the feature `plain` the plain engine. Their archives stand in the
//! repository's target/native, or in the folder that BRENWYTHAL_LIB names.
use std::path::{Path, PathBuf};

fn main() {
    println!("cargo:rerun-if-env-changed=BRENWYTHAL_LIB");
    let folder = match std::env::var_os("BRENWYTHAL_LIB") {
        Some(folder) => PathBuf::from(folder),
        None => PathBuf::from(std::env::var_os("CARGO_MANIFEST_DIR").unwrap()).join("../../target/native"),
    };
    println!("cargo:rustc-link-search=native={}", folder.display());
    link(&folder, "brenwythal", "capi");
    if std::env::var_os("CARGO_FEATURE_PLAIN").is_some() {
        link(&folder, "brenwythal_plain", "plaincapi");
    }
}

/// Links the archive of this name, which is made of this crate.
fn link(folder: &Path, name: &str, made_of: &str) {
    let archive = folder.join(format!("lib{name}.a"));
    println!("cargo:rerun-if-changed={}", archive.display());
    if !archive.is_file() {
        eprintln!("there is no {}", archive.display());
        eprintln!("make it with `tools/native-staticlib {made_of}` in the repository's root,");
        eprintln!("or let BRENWYTHAL_LIB name the folder that has lib{name}.a (an absolute path)");
        std::process::exit(1);
    }
    println!("cargo:rustc-link-lib=static={name}");
}
