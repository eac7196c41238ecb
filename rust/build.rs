//! Finds libsulyterom.a: in the folder that the variable names, else in the repository's target/staticlib.
use std::env;
use std::path::{Path, PathBuf};

const FOLDER: &str = "SULYTEROM_LIBRARY_FOLDER";

fn main() {
    println!("cargo::rerun-if-env-changed={FOLDER}");
    let folder = env::var_os(FOLDER).map_or_else(in_repository, PathBuf::from);
    let library = folder.join("libsulyterom.a");
    println!("cargo::rerun-if-changed={}", library.display());
    if library.is_file() {
        println!("cargo::rustc-link-search=native={}", folder.display());
    } else {
        println!("cargo::error=there is no {}", library.display());
        println!("cargo::error=make it by `./sulyterom build` in the repository, or let {FOLDER} name its folder");
    }
}

fn in_repository() -> PathBuf {
    let package = env::var_os("CARGO_MANIFEST_DIR").expect("cargo says where the package is");
    Path::new(&package).with_file_name("target").join("staticlib")
}
