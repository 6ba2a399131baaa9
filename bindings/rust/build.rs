//! Links libjdr_c.a: from the folder that JDR_C_DIR names, else from target/library of the repository, where tools/library puts it.

use std::env;
use std::path::PathBuf;

fn main() {
    println!("cargo:rerun-if-env-changed=JDR_C_DIR");
    let here = env::var_os("CARGO_MANIFEST_DIR").map(PathBuf::from).unwrap_or_default();
    let folder = env::var_os("JDR_C_DIR").map_or_else(|| here.join("../../target/library"), PathBuf::from);
    let archive = folder.join("libjdr_c.a");
    if !archive.exists() {
        let missing = archive.display();
        println!("cargo:warning={missing} is missing: tools/library makes it, or JDR_C_DIR names its folder");
    }
    println!("cargo:rerun-if-changed={}", archive.display());
    println!("cargo:rustc-link-search=native={}", folder.display());
    println!("cargo:rustc-link-lib=static=jdr_c");
}
