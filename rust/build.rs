//! Links `libexport.a`, from the folder named by BRIDGE_LIB or from where `tools/build export` puts it.

use std::path::PathBuf;

fn main() {
    println!("cargo:rerun-if-env-changed=BRIDGE_LIB");
    let folder = match std::env::var_os("BRIDGE_LIB") {
        Some(folder) => PathBuf::from(folder),
        None => PathBuf::from(std::env::var_os("CARGO_MANIFEST_DIR").unwrap()).join("../target/staticlib"),
    };
    let library = folder.join("libexport.a");
    println!("cargo:rerun-if-changed={}", library.display());
    // The linker takes a relative name from its own folder, not from the caller's.
    let Ok(folder) = folder.canonicalize() else {
        panic!("no folder {}: run `tools/build export`, or name another in BRIDGE_LIB", folder.display());
    };
    if !library.exists() {
        panic!("no {}: run `tools/build export`, or name its folder in BRIDGE_LIB", library.display());
    }
    println!("cargo:rustc-link-search=native={}", folder.display());
    println!("cargo:rustc-link-lib=static=export");
}
