//! Build script of the three packages that hold given files.
//!
//! It writes one `mod` line for each given file, with the file's path, so that the files are
//! compiled where they stand and unchanged. LEXICAL_SRC names the folder that holds them.

use std::{env, fs, path::Path};

/// The given files of a package. `shared` comes first: its macro is used by the later ones.
fn given_files(package: &str) -> &'static [&'static str] {
    match package {
        "lexical-util" => &["num"],
        "lexical-write-integer" => {
            &["decimal", "digit_count", "jeaiii", "options", "radix", "write"]
        }
        "lexical-write-float" => &["shared", "options", "binary", "hex"],
        other => panic!("no given files are known for {other}"),
    }
}

fn main() {
    println!("cargo::rerun-if-env-changed=LEXICAL_SRC");
    let package = env::var("CARGO_PKG_NAME").unwrap();
    let package_folder = env::var("CARGO_MANIFEST_DIR").unwrap();
    let compare_folder = Path::new(&package_folder).parent().unwrap();
    let source = env::var("LEXICAL_SRC").unwrap_or("../../shared/docs/src".to_string());
    // A relative path counts from the folder compare/, whatever package is built.
    let folder = compare_folder.join(source).join(&package).join("src");

    let mut lines = String::new();
    for name in given_files(&package) {
        let path = folder.join(format!("{name}.rs"));
        let path = path.canonicalize().unwrap_or_else(|_| panic!("LEXICAL_SRC: no file {path:?}"));
        println!("cargo::rerun-if-changed={}", path.display());
        lines += &format!("#[macro_use]\n#[path = {path:?}]\npub mod {name};\n");
    }
    let out = env::var("OUT_DIR").unwrap();
    fs::write(Path::new(&out).join("given.rs"), lines).unwrap();
}
