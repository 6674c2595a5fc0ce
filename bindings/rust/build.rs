//! Links libpage_index.a, which `tools/archive` writes to target/staticlib. The variable
//! PAGE_INDEX_LIB names another folder. Where the archive is missing, the build ends with one sentence.
use std::env;
use std::path::PathBuf;

fn main() {
    println!("cargo:rerun-if-env-changed=PAGE_INDEX_LIB");
    let here = PathBuf::from(env::var("CARGO_MANIFEST_DIR").expect("cargo sets CARGO_MANIFEST_DIR"));
    let folder = env::var("PAGE_INDEX_LIB").map(PathBuf::from).unwrap_or_else(|_| here.join("../../target/staticlib"));
    let archive = folder.join("libpage_index.a");
    println!("cargo:rerun-if-changed={}", archive.display());
    if !archive.is_file() {
        println!(
            "cargo::error=there is no {}: make it by `tools/archive` in the repository, or set \
             PAGE_INDEX_LIB to the folder that has libpage_index.a",
            archive.display()
        );
        return;
    }
    println!("cargo:rustc-link-search=native={}", folder.display());
    println!("cargo:rustc-link-lib=static=page_index");
}
