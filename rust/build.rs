//! Tells the linker where libsymphedra.a is: the folder SYMPHEDRA_LIB_DIR, or else the folder of the
//! repository where `scripts/archive` writes it.

use std::{env, path::PathBuf};

fn main() {
    let folder = env::var_os("SYMPHEDRA_LIB_DIR").map_or_else(
        || PathBuf::from(env::var_os("CARGO_MANIFEST_DIR").unwrap()).join("../target/staticlib"),
        PathBuf::from,
    );
    println!("cargo:rerun-if-env-changed=SYMPHEDRA_LIB_DIR");
    let archive = folder.join("libsymphedra.a");
    println!("cargo:rerun-if-changed={}", archive.display());
    if !archive.exists() {
        println!("cargo:warning={} isn't there: run `scripts/archive` first", archive.display());
    }
    println!("cargo:rustc-link-search=native={}", folder.display());
    println!("cargo:rustc-link-lib=static=symphedra");
}
