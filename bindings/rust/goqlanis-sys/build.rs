//! Finds `libgoqlanis.a`: in the folder that `GOQLANIS_LIB_DIR` names, or in the folder of the target's
//! processor in `lib` beside the folder `rust`.
use std::env::var_os;
use std::path::PathBuf;

fn main() {
    println!("cargo:rerun-if-env-changed=GOQLANIS_LIB_DIR");
    let lib = PathBuf::from(var_os("CARGO_MANIFEST_DIR").unwrap()).join("../../lib");
    let beside = lib.join(var_os("CARGO_CFG_TARGET_ARCH").unwrap());
    let folder = var_os("GOQLANIS_LIB_DIR").map_or(beside, PathBuf::from);
    if !folder.join("libgoqlanis.a").exists() {
        println!("cargo:warning=no libgoqlanis.a in {}: run `bindings/c/build FOLDER` and set GOQLANIS_LIB_DIR to it", folder.display());
    }
    println!("cargo:rustc-link-search=native={}", folder.display());
    println!("cargo:rustc-link-lib=static=goqlanis");
}
