//! Links `libdalecolander.a`, from the folder that `DALECOLANDER_LIBRARY_FOLDER` names, or from `out/` of the checkout.
use std::env;
use std::path::PathBuf;

fn main() {
    println!("cargo:rerun-if-env-changed=DALECOLANDER_LIBRARY_FOLDER");
    let folder = match env::var_os("DALECOLANDER_LIBRARY_FOLDER") {
        Some(folder) => PathBuf::from(folder),
        None => PathBuf::from(env!("CARGO_MANIFEST_DIR")).join("../../../out"),
    };
    println!("cargo:rerun-if-changed={}", folder.join("libdalecolander.a").display());
    println!("cargo:rustc-link-search=native={}", folder.display());
    println!("cargo:rustc-link-lib=static=dalecolander");
}
