//! Links the static library where the feature `library` is on. FIRMWARE_FOLDER names another folder to take it from.

use std::env;
use std::path::PathBuf;

fn main() {
    println!("cargo:rerun-if-env-changed=FIRMWARE_FOLDER");
    println!("cargo:rerun-if-changed=build.rs");
    if env::var_os("CARGO_FEATURE_LIBRARY").is_none() {
        return;
    }
    let built = || PathBuf::from(env!("CARGO_MANIFEST_DIR")).join("../target/staticlib");
    let folder = env::var_os("FIRMWARE_FOLDER").map_or_else(built, PathBuf::from);
    let library = folder.join("libfirmware.a");
    assert!(library.exists(), "{} is missing: `tools/staticlib` makes it", library.display());
    println!("cargo:rerun-if-changed={}", library.display());
    println!("cargo:rustc-link-search=native={}", folder.display());
    println!("cargo:rustc-link-lib=static=firmware");
}
