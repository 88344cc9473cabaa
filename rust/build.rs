//! Finds the proved static library `libcapi.a` and links it.

use std::env;
use std::path::PathBuf;
use std::process::exit;

fn main() {
    println!("cargo:rerun-if-env-changed=RLC8681_LIB_DIR");
    let folder = match env::var_os("RLC8681_LIB_DIR") {
        Some(folder) => PathBuf::from(folder),
        None => PathBuf::from(env::var_os("CARGO_MANIFEST_DIR").unwrap_or_default()).join("../target/staticlib"),
    };
    if folder.is_relative() {
        eprintln!("rlc8681: RLC8681_LIB_DIR is {}; it must be an absolute path.", folder.display());
        exit(1);
    }
    let library = folder.join("libcapi.a");
    println!("cargo:rerun-if-changed={}", library.display());
    if !library.is_file() {
        eprintln!("rlc8681: {} is not there.", library.display());
        eprintln!(
            "Run `rt lib` in crates/capi and copy out/libcapi.a there, or set RLC8681_LIB_DIR to the absolute path of the folder that holds \
             libcapi.a."
        );
        exit(1);
    }
    println!("cargo:rustc-link-search=native={}", folder.display());
    println!("cargo:rustc-link-lib=static=capi");
}
