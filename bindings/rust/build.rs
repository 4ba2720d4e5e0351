//! Links libfront.a, which `tools/archives` writes to target/staticlib; PERDIGOLH_ARCHIVE names another folder, with it or with
//! the libperdigolh.a of `make install`.

use std::env;
use std::path::{Path, PathBuf};

fn main() {
    println!("cargo:rerun-if-env-changed=PERDIGOLH_ARCHIVE");
    let here = env::var("CARGO_MANIFEST_DIR").expect("cargo sets it");
    let folder =
        env::var_os("PERDIGOLH_ARCHIVE").map_or_else(|| Path::new(&here).join("../../target/staticlib"), PathBuf::from);
    let name = if folder.join("libperdigolh.a").is_file() { "perdigolh" } else { "front" };
    let archive = folder.join(format!("lib{}.a", name));
    println!("cargo:rerun-if-changed={}", archive.display());
    if !archive.is_file() {
        println!("cargo:warning=no {}: run `tools/archives`, or set PERDIGOLH_ARCHIVE", archive.display());
    }
    println!("cargo:rustc-link-search=native={}", folder.display());
    println!("cargo:rustc-link-lib=static={}", name);
}
