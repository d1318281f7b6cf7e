//! Links the archive that `bench/archive` writes.

use std::env;
use std::path::Path;

fn main() {
    let manifest = env::var("CARGO_MANIFEST_DIR").expect("cargo sets it");
    let folder = Path::new(&manifest).join("../target/staticlib");
    println!("cargo:rustc-link-search=native={}", folder.display());
    println!("cargo:rustc-link-lib=static=exported");
    let archive = folder.join("libexported.a");
    println!("cargo:rerun-if-changed={}", archive.display());
}
