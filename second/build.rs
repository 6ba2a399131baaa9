//! With the feature `linked`, links libjdr_c.a from the folder that the variable JDR_C_DIR names.

use std::env;

fn main() {
    println!("cargo:rerun-if-env-changed=JDR_C_DIR");
    if env::var_os("CARGO_FEATURE_LINKED").is_none() {
        return;
    }
    if let Ok(folder) = env::var("JDR_C_DIR") {
        println!("cargo:rustc-link-search=native={folder}");
        println!("cargo:rerun-if-changed={folder}/libjdr_c.a");
    }
}
