//! Names the proved static library to the linker.
//!
//! HORNBILLRUG_LIB is the folder with libexports.a. Without it, it is where `rt lib` in crates/exports
//! writes to.

use std::env;
use std::path::Path;

fn main() {
    println!("cargo::rerun-if-env-changed=HORNBILLRUG_LIB");
    let here = env::var("CARGO_MANIFEST_DIR").expect("cargo names the package's folder");
    let folder = match env::var("HORNBILLRUG_LIB") {
        Ok(folder) => folder,
        Err(_) => format!("{here}/../../crates/exports/out"),
    };
    let library = format!("{folder}/libexports.a");
    assert!(Path::new(&library).is_file(), "{library} is missing: run `rt lib` in crates/exports");
    println!("cargo::rerun-if-changed={library}");
    println!("cargo::rustc-link-search=native={folder}");
    println!("cargo::rustc-link-lib=static=exports");
}
