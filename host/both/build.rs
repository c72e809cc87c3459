//! Compiles `c/through.c`, which calls the library as the header declares it, and `c/mode.c`, which
//! sets the floating-point mode. CC names the compiler.

use std::env;
use std::process::Command;

fn main() {
    println!("cargo::rerun-if-env-changed=CC");
    println!("cargo::rerun-if-changed=../include/hornbillrug.h");
    let out = env::var("OUT_DIR").expect("cargo names a folder to write to");
    let library = format!("{out}/libthrough.a");
    let objects = ["through", "mode"].map(|name| compile(&out, name));
    run(Command::new("ar").args(["rcs", &library]).args(objects));
    println!("cargo::rustc-link-search=native={out}");
    println!("cargo::rustc-link-lib=static=through");
}

/// The object of a file of `c/`.
fn compile(out: &str, name: &str) -> String {
    let source = format!("c/{name}.c");
    let object = format!("{out}/{name}.o");
    println!("cargo::rerun-if-changed={source}");
    let compiler = env::var("CC").unwrap_or("cc".to_string());
    run(Command::new(compiler).args([
        "-std=c11",
        "-O2",
        "-Wall",
        "-Wextra",
        "-Wconversion",
        "-pedantic",
        "-Werror",
        "-fPIC",
        "-I../include",
        "-c",
        &source,
        "-o",
        &object,
    ]));
    object
}

fn run(command: &mut Command) {
    let status = command.status().unwrap_or_else(|error| panic!("{command:?}: {error}"));
    assert!(status.success(), "{command:?}: {status}");
}
