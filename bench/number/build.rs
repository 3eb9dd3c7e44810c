// Links the archive that `tools/staticlib.py number_c` writes at the repository's root.
fn main() {
    let root = std::path::Path::new(env!("CARGO_MANIFEST_DIR")).join("../../target/staticlib");
    println!("cargo:rustc-link-search=native={}", root.display());
    println!("cargo:rustc-link-lib=static=number_c");
    println!("cargo:rerun-if-changed={}", root.join("libnumber_c.a").display());
}
