//! Links target/staticlib/librillarch.a, which `tools/build library` writes, and the crate's own code where bench/run has built it.
use std::path::Path;

fn main() {
    let target = concat!(env!("CARGO_MANIFEST_DIR"), "/../../target");
    println!("cargo:rustc-link-search=native={target}/staticlib");
    println!("cargo:rustc-link-lib=static=rillarch");
    println!("cargo:rerun-if-changed={target}/staticlib/librillarch.a");
    let excerpts = format!("{target}/bench/excerpts/lib");
    println!("cargo:rustc-check-cfg=cfg(excerpts)");
    println!("cargo:rerun-if-changed={excerpts}");
    if Path::new(&excerpts).join("libexcerpts.rlib").exists() {
        println!("cargo:rustc-cfg=excerpts");
        println!("cargo:rustc-link-search={excerpts}");
    }
}
