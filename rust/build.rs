//! Tells the linker where the archives are: in the folder that ZOGHVARI_LIB_DIR names, else in this repository's
//! target/staticlib, where `tools/build` puts them.
use std::path::PathBuf;

fn main() {
    let here = PathBuf::from(std::env::var_os("CARGO_MANIFEST_DIR").expect("cargo sets CARGO_MANIFEST_DIR"));
    let folder = match std::env::var_os("ZOGHVARI_LIB_DIR") {
        Some(named) => PathBuf::from(named),
        None => here.join("../target/staticlib"),
    };
    println!("cargo:rerun-if-env-changed=ZOGHVARI_LIB_DIR");
    println!("cargo:rustc-link-search=native={}", folder.display());
    for name in ["kernel", "sweep"] {
        let archive = folder.join(format!("lib{name}.a"));
        println!("cargo:rerun-if-changed={}", archive.display());
        if !archive.exists() {
            panic!("{} is not there; `tools/build {name}` makes it", archive.display());
        }
        println!("cargo:rustc-link-lib=static={name}");
    }
}
