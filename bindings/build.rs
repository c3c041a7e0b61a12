//! Finds the archive of the proved library: in the folder that PROVED_LIBRARY names in full, else in `target/library` beside this file.
//!
//! Without the archive this crate can be checked and documented, and not built: a warning then says what to run.

use std::env;
use std::path::PathBuf;

fn main() {
    println!("cargo::rerun-if-env-changed=PROVED_LIBRARY");
    let here = PathBuf::from(env::var_os("CARGO_MANIFEST_DIR").expect("cargo names this folder"));
    let named = env::var_os("PROVED_LIBRARY").map(PathBuf::from);
    let folder = named.unwrap_or_else(|| here.join("target/library"));
    let archive = folder.join("libshaydhoqel.a");
    println!("cargo::rerun-if-changed={}", archive.display());
    println!("cargo::rustc-link-search=native={}", folder.display());
    println!("cargo::rustc-link-lib=static=shaydhoqel");
    if !archive.is_file() {
        let (archive, script) = (archive.display(), here.join("library"));
        let script = script.display();
        println!("cargo::warning=there is no {archive}; to make one, run: bash {script}");
    }
}
