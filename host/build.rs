//! With the feature `proved`: links the proved library's two archives. Only the
//! exported functions are global symbols of either, so the two do not clash.

use std::path::Path;

fn main() {
    println!("cargo:rerun-if-changed=build.rs");
    if std::env::var_os("CARGO_FEATURE_PROVED").is_none() {
        return;
    }
    let folder = Path::new(env!("CARGO_MANIFEST_DIR")).join("../target/staticlib");
    println!("cargo:rustc-link-search=native={}", folder.display());
    for archive in ["firmware", "test_exports"] {
        let file = folder.join(format!("lib{archive}.a"));
        println!("cargo:rerun-if-changed={}", file.display());
        println!("cargo:rustc-link-lib=static={archive}");
    }
}
