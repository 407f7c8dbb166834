//! Says where libtransfer_list.a stands: TL_LIB_DIR, or ../target/staticlib beside this crate.

use std::env;
use std::path::{Path, PathBuf};

fn main() {
    let dir = library_dir();
    println!("cargo:rustc-link-search=native={}", dir.display());
    println!("cargo:rerun-if-env-changed=TL_LIB_DIR");
    println!("cargo:rerun-if-changed=build.rs");
    println!("cargo:rerun-if-changed={}", dir.join("libtransfer_list.a").display());
}

fn library_dir() -> PathBuf {
    match env::var_os("TL_LIB_DIR") {
        Some(dir) => PathBuf::from(dir),
        None => Path::new(&env::var_os("CARGO_MANIFEST_DIR").unwrap()).join("../target/staticlib"),
    }
}
