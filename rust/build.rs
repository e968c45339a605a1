//! Links the proved library, `libcapi.a`, from the folder in `HIRTXONDA_LIB`, else from
//! `../crates/capi/out`.

use std::env;
use std::path::PathBuf;

fn main() {
    let here = PathBuf::from(env::var_os("CARGO_MANIFEST_DIR").expect("cargo sets it"));
    let folder = match env::var_os("HIRTXONDA_LIB") {
        Some(folder) => here.join(folder),
        None => here.join("../crates/capi/out"),
    };
    let archive = folder.join("libcapi.a");

    println!("cargo::rerun-if-env-changed=HIRTXONDA_LIB");
    println!("cargo::rerun-if-changed={}", archive.display());
    if archive.is_file() {
        println!("cargo::rustc-link-search=native={}", folder.display());
        println!("cargo::rustc-link-lib=static=capi");
    } else {
        println!("cargo::error={} is missing: run `rt lib` in crates/capi", archive.display());
    }
}
