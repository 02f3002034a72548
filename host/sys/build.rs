//! Finds the library's archive and has it linked.

use std::env;
use std::path::PathBuf;

fn main() {
    println!("cargo:rerun-if-env-changed=COTELARK_ARCHIVE");
    let crate_folder = PathBuf::from(env::var_os("CARGO_MANIFEST_DIR").expect("cargo names the crate's folder"));
    let folder = match env::var_os("COTELARK_ARCHIVE") {
        Some(folder) => PathBuf::from(folder),
        None => crate_folder.join("../../target/staticlib"),
    };
    let archive = folder.join("libcotelark.a");
    println!("cargo:rerun-if-changed={}", archive.display());
    if !archive.is_file() {
        eprintln!("There is no {}: `make archive`, run in the repository's root, makes it.", archive.display());
        std::process::exit(1);
    }
    println!("cargo:rustc-link-search=native={}", folder.display());
    println!("cargo:rustc-link-lib=static=cotelark");
}
