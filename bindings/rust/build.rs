//! Links `libwairepomuro.a`, which `make archive` writes. `WAIREPOMURO_LIB` names another folder to find it in.
use std::{env, path::Path};

fn main() {
    println!("cargo:rerun-if-env-changed=WAIREPOMURO_LIB");
    let here = env::var("CARGO_MANIFEST_DIR").expect("cargo sets it");
    let folder = env::var("WAIREPOMURO_LIB").unwrap_or_else(|_| format!("{here}/../../target/staticlib"));
    let archive = Path::new(&folder).join("libwairepomuro.a");
    assert!(archive.exists(), "no {}: run `make archive` first", archive.display());
    println!("cargo:rerun-if-changed={}", archive.display());
    println!("cargo:rustc-link-search=native={folder}");
    println!("cargo:rustc-link-lib=static=wairepomuro");
}
