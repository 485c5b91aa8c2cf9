//! Links the static library: from the directory that `VEMPALDI_LIB` names, else from `build/` of this repository.

use std::env;
use std::path::PathBuf;

fn main() {
    // A relative directory counts from this package, not from the place where cargo was started.
    let package = PathBuf::from(env::var("CARGO_MANIFEST_DIR").expect("cargo sets this"));
    let named = env::var("VEMPALDI_LIB").unwrap_or_else(|_| "../../build".to_string());
    let directory = package.join(named);
    let library = directory.join("libvempaldi.a");

    println!("cargo:rustc-link-search=native={}", directory.display());
    println!("cargo:rustc-link-lib=static=vempaldi");
    println!("cargo:rerun-if-env-changed=VEMPALDI_LIB");
    println!("cargo:rerun-if-changed={}", library.display());
    println!("cargo:rerun-if-changed=build.rs");
}
