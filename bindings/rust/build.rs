//! Says where libgco.a is: in `GCO_LIB_DIR`, else in `../dist/lib`, where `make -C bindings` puts
//! it.
use std::env;
use std::path::PathBuf;

fn main() {
    println!("cargo:rerun-if-env-changed=GCO_LIB_DIR");
    let folder = match env::var_os("GCO_LIB_DIR") {
        Some(folder) => PathBuf::from(folder),
        None => PathBuf::from(env::var_os("CARGO_MANIFEST_DIR").unwrap()).join("../dist/lib"),
    };
    let archive = folder.join("libgco.a");
    println!("cargo:rerun-if-changed={}", archive.display());
    if !archive.exists() {
        println!(
            "cargo:warning={} is missing: run `make -C bindings`, or set GCO_LIB_DIR",
            archive.display()
        );
    }
    println!("cargo:rustc-link-search=native={}", folder.display());
    println!("cargo:rustc-link-lib=static=gco");
}
