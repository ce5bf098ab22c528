//! Says which archive is linked and where it lies: in `HUQMERIS_LIB_DIR`, or where `c/build.py` puts it; `libhuqmeris.a`, or the one
//! that `HUQMERIS_ARCHIVE` names, as `libhuqmeris_unproved`.
use std::env::var;

fn main() {
    let dir = var("HUQMERIS_LIB_DIR").unwrap_or_else(|_| format!("{}/../out", var("CARGO_MANIFEST_DIR").unwrap()));
    let archive = var("HUQMERIS_ARCHIVE").unwrap_or_else(|_| "libhuqmeris".into());
    let name = archive.strip_prefix("lib").unwrap_or(&archive);
    println!("cargo::rustc-link-search=native={dir}");
    if name != "huqmeris" {
        println!("cargo::rustc-link-lib=static=huqmeris:{name}");
    }
    println!("cargo::rerun-if-changed={dir}/lib{name}.a");
    println!("cargo::rerun-if-env-changed=HUQMERIS_LIB_DIR");
    println!("cargo::rerun-if-env-changed=HUQMERIS_ARCHIVE");
}
