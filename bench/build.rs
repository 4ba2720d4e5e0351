//! Links libdigest.a, which `tools/archives` writes, and the measure of the stack, which is in C.

use std::env;
use std::process::Command;

fn main() {
    let here = env::var("CARGO_MANIFEST_DIR").expect("cargo sets it");
    let out = env::var("OUT_DIR").expect("cargo sets it");
    println!("cargo:rerun-if-changed=src/stack.c");
    println!("cargo:rerun-if-changed={here}/../target/staticlib/libdigest.a");
    println!("cargo:rustc-link-search=native={here}/../target/staticlib");
    println!("cargo:rustc-link-lib=static=digest");
    run("cc", &["-O1", "-Wall", "-Wextra", "-Werror", "-c", "src/stack.c", "-o", &format!("{out}/stack.o")]);
    run("ar", &["rcs", &format!("{out}/libstack.a"), &format!("{out}/stack.o")]);
    println!("cargo:rustc-link-search=native={out}");
    println!("cargo:rustc-link-lib=static=stack");
}

fn run(command: &str, words: &[&str]) {
    let status = Command::new(command).args(words).status().expect("the command runs");
    assert!(status.success(), "{command} {words:?}");
}
