//! Compiles the walk and the notes in C, and links them.

use std::env;
use std::path::PathBuf;
use std::process::Command;

const SOURCES: [&str; 3] = ["placing", "walk", "note"];
const HEADERS: [&str; 2] = ["src/placing.h", "../include/tolmupung.h"];
const FLAGS: [&str; 7] = [
    "-std=c99",
    "-O2",
    "-Wall",
    "-Wextra",
    "-Werror",
    "-pedantic",
    "-I../include",
];

fn main() {
    for needed in ["build.rs"].iter().chain(&HEADERS) {
        println!("cargo::rerun-if-changed={needed}");
    }
    for name in SOURCES {
        compile(name);
    }
}

fn compile(name: &str) {
    let source = format!("src/{name}.c");
    println!("cargo::rerun-if-changed={source}");
    let folder = PathBuf::from(env::var_os("OUT_DIR").unwrap_or_default());
    let object = folder.join(name).with_extension("o");
    let compiled = Command::new("cc")
        .args(FLAGS)
        .args(["-c", &source, "-o"])
        .arg(&object)
        .status();
    if compiled.is_ok_and(|status| status.success()) {
        println!("cargo::rustc-link-arg={}", object.display());
    } else {
        println!("cargo::error=cc does not compile {source}");
    }
}
