//! Links libcapi.a: from the folder in LOMUVERAN_LIB_DIR, or else from ../target/staticlib, where `tools/library` puts it.

use std::{env, path::PathBuf, process::exit};

fn main() {
    println!("cargo:rerun-if-env-changed=LOMUVERAN_LIB_DIR");
    let here = PathBuf::from(env::var_os("CARGO_MANIFEST_DIR").expect("cargo sets it"));
    let folder = env::var_os("LOMUVERAN_LIB_DIR").map_or_else(|| here.join("../target/staticlib"), PathBuf::from);
    let library = folder.join("libcapi.a");
    if !library.is_file() {
        eprintln!("no library at {}: run tools/library, or name its folder in LOMUVERAN_LIB_DIR", library.display());
        exit(1);
    }
    println!("cargo:rerun-if-changed={}", library.display());
    println!("cargo:rustc-link-search=native={}", folder.display());
    println!("cargo:rustc-link-lib=static=capi");
}
