//! Links the proved library, `target/hosts/libnonseq.a` of the repository, or that of the folder NONSEQ_LIB.
use std::path::PathBuf;

fn main() {
    println!("cargo:rerun-if-env-changed=NONSEQ_LIB");
    let here = PathBuf::from(std::env::var("CARGO_MANIFEST_DIR").unwrap());
    let folder = match std::env::var("NONSEQ_LIB") {
        Ok(folder) => PathBuf::from(folder),
        Err(_) => here.join("../../target/hosts"),
    };
    let library = folder.join("libnonseq.a");
    println!("cargo:rerun-if-changed={}", library.display());
    if !library.exists() {
        panic!("{} is not there: run hosts/build in the repository first", library.display());
    }
    println!("cargo:rustc-link-search=native={}", folder.display());
    println!("cargo:rustc-link-lib=static=nonseq");
}
