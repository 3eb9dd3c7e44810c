//! Finds libstrip.a, which `tools/staticlib.py strip` writes: in the folder that STRIP_LIB names, or else in target/staticlib of the
//! repository that this crate stands in.
use std::env;
use std::path::{Path, PathBuf};

fn main() {
    println!("cargo:rerun-if-env-changed=STRIP_LIB");
    let folder = match env::var_os("STRIP_LIB") {
        Some(folder) => PathBuf::from(folder),
        None => Path::new(&env::var_os("CARGO_MANIFEST_DIR").unwrap()).join("../../target/staticlib"),
    };
    let archive = folder.join("libstrip.a");
    println!("cargo:rerun-if-changed={}", archive.display());
    if !archive.is_file() {
        eprintln!("{} is not there: run `tools/staticlib.py strip` at the repository's root, or set STRIP_LIB", archive.display());
        std::process::exit(1);
    }
    println!("cargo:rustc-link-search=native={}", folder.canonicalize().unwrap().display());
    println!("cargo:rustc-link-lib=static=strip");
}
