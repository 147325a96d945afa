//! Links the proved library, a static archive built beforehand.

use std::env;
use std::path::PathBuf;

fn main() {
    let here = PathBuf::from(env::var_os("CARGO_MANIFEST_DIR").unwrap_or_default());
    let folder = here.join("../target/staticlib");
    let archive = folder.join("libtolmupung.a");

    println!("cargo::rerun-if-changed=build.rs");
    println!("cargo::rerun-if-changed={}", archive.display());
    if !archive.is_file() {
        let name = archive.display();
        println!("cargo::error=no library at {name}: build it first, as .ci/run does");
        return;
    }
    println!("cargo::rustc-link-search=native={}", folder.display());
    println!("cargo::rustc-link-lib=static=tolmupung");
}
