//! Says where the proved static library stands: crates/reviewer/out of the repository, or the folder that TANNENLAUT_LIB names.

fn main() {
    let here = std::env::var("CARGO_MANIFEST_DIR").expect("cargo sets it");
    let folder = std::env::var("TANNENLAUT_LIB").unwrap_or_else(|_| format!("{here}/../../crates/reviewer/out"));
    println!("cargo:rustc-link-search=native={folder}");
    println!("cargo:rustc-link-lib=static=reviewer");
    println!("cargo:rerun-if-env-changed=TANNENLAUT_LIB");
    println!("cargo:rerun-if-changed={folder}/libreviewer.a");
}
