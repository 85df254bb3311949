//! Finds the reference source and writes the modules of one of its crates.

use std::fmt::Write;
use std::path::{Path, PathBuf};
use std::{env, fs};

/// Where the environment names the reference source.
const VARIABLE: &str = "BUCKETBEACH_REFERENCE";

/// Where it is looked for otherwise, from the repository.
const BESIDE: &str = "../shared/docs/src";

/// Writes `modules.rs`: a `mod` item for each `(name, file)` of the crate, with the file where it is.
pub fn write_modules(krate: &str, modules: &[(&str, &str)]) {
    println!("cargo:rerun-if-env-changed={VARIABLE}");
    println!("cargo:rerun-if-changed=../locate.rs");
    let folder = source().join("crates").join(krate).join("src");
    let mut text = String::new();
    for (name, file) in modules {
        let path = folder.join(file);
        assert!(
            path.is_file(),
            "the reference source has no {}: set {VARIABLE} to its folder (the one with INDEX.md)",
            path.display()
        );
        println!("cargo:rerun-if-changed={}", path.display());
        writeln!(text, "#[path = {path:?}]\nmod {name};").expect("a string takes any text");
    }
    let out = PathBuf::from(env::var("OUT_DIR").expect("cargo sets OUT_DIR"));
    fs::write(out.join("modules.rs"), text).expect("OUT_DIR can be written");
}

/// The folder of the source, as an absolute path.
fn source() -> PathBuf {
    let named = env::var_os(VARIABLE).map(PathBuf::from);
    let folder = named.unwrap_or_else(|| repository().join(BESIDE));
    folder.canonicalize().unwrap_or(folder)
}

/// The repository: two folders above the crates of `host/reference`, and one more.
fn repository() -> PathBuf {
    let package = env::var("CARGO_MANIFEST_DIR").expect("cargo sets CARGO_MANIFEST_DIR");
    let above = Path::new(&package).ancestors().nth(3);
    above
        .expect("the package is host/reference/NAME")
        .to_path_buf()
}
