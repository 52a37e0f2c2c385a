//! Links the proved library, `target/staticlib/libcobbletwill.a` of the repository.

use std::env;
use std::path::Path;

fn main() {
    let package = env::var("CARGO_MANIFEST_DIR").expect("cargo names the package's folder");
    let folder = Path::new(&package).join("../target/staticlib");
    let library = folder.join("libcobbletwill.a");
    println!("cargo::rustc-link-search=native={}", folder.display());
    println!("cargo::rustc-link-lib=static=cobbletwill");
    println!("cargo::rerun-if-changed={}", library.display());
    println!("cargo::rerun-if-changed=build.rs");
}
