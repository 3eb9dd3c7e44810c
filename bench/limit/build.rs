//! Compiles src/limit.c, by the C compiler of the machine.
use std::process::Command;
use std::{env, path::Path};

fn main() {
    println!("cargo:rerun-if-changed=src/limit.c");
    let out = env::var("OUT_DIR").unwrap();
    let object = Path::new(&out).join("limit.o");
    let status = Command::new("cc").args(["-O3", "-Wall", "-c", "src/limit.c", "-o"]).arg(&object).status().unwrap();
    assert!(status.success(), "cc: {status}");
    println!("cargo:rustc-link-arg={}", object.display());
}
