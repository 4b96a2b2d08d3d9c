//! Links the static library: in the repository's target/staticlib, or in the directory that CSORVELIN_LIB names. Takes
//! the version from the C header.

use std::path::{Path, PathBuf};
use std::{env, fs};

fn main() {
    let manifest = PathBuf::from(env::var_os("CARGO_MANIFEST_DIR").expect("set by cargo"));
    link(&manifest);
    version(&manifest.join("../../include/csorvelin.h"));
}

fn link(manifest: &Path) {
    println!("cargo::rerun-if-env-changed=CSORVELIN_LIB");
    let directory = match env::var_os("CSORVELIN_LIB") {
        Some(directory) => PathBuf::from(directory),
        None => manifest.join("../../target/staticlib"),
    };
    let library = directory.join("libcsorvelin.a");
    println!("cargo::rerun-if-changed={}", library.display());
    if !library.exists() {
        println!("cargo::error=the static library {} is missing: run make lib", library.display());
        return;
    }
    println!("cargo::rustc-link-search=native={}", directory.display());
    println!("cargo::rustc-link-lib=static=csorvelin");
}

fn version(header: &Path) {
    println!("cargo::rerun-if-changed={}", header.display());
    let text = fs::read_to_string(header).unwrap_or_default();
    let macros = text.lines().filter_map(|line| line.strip_prefix("#define CSORVELIN_VERSION "));
    match macros.map(|value| value.trim().trim_matches('"')).next() {
        Some(version) => println!("cargo::rustc-env=CSORVELIN_VERSION={version}"),
        None => println!("cargo::error={} has no CSORVELIN_VERSION", header.display()),
    }
}
