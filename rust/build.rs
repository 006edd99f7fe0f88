//! Links the static library that `build.sh` writes; SHEPARD_LIB_DIR names another folder that has it.
use std::env;
use std::path::{Path, PathBuf};

fn main() {
    let manifest = env::var("CARGO_MANIFEST_DIR").expect("cargo sets it");
    let beside = Path::new(&manifest).parent().expect("the crate lies in a folder").join("target/staticlib");
    let folder = env::var("SHEPARD_LIB_DIR").map_or(beside, PathBuf::from);
    let library = folder.join("libshepard.a");
    println!("cargo:rerun-if-env-changed=SHEPARD_LIB_DIR");
    println!("cargo:rerun-if-changed={}", library.display());
    // no error: checks and documentation are made without the library, and only linking needs it
    if !library.is_file() {
        println!("cargo:warning=libshepard.a is not in {}: run 'bash build.sh' first", folder.display());
    }
    println!("cargo:rustc-link-search=native={}", folder.display());
    println!("cargo:rustc-link-lib=static=shepard");
}
