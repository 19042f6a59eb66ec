//! Links target/staticlib/librillarch.a of the repository, which `tools/build library` writes.
use std::path::Path;
use std::process::exit;

fn main() {
    let root = Path::new(env!("CARGO_MANIFEST_DIR")).join("../..");
    let root = root.canonicalize().unwrap_or(root);
    let folder = root.join("target/staticlib");
    let library = folder.join("librillarch.a");
    println!("cargo:rerun-if-changed={}", library.display());
    if !library.is_file() {
        eprintln!(
            "rillarch: {} is missing: `tools/build library` in {} proves and builds it",
            library.display(),
            root.display()
        );
        exit(1);
    }
    println!("cargo:rustc-link-search=native={}", folder.display());
    println!("cargo:rustc-link-lib=static=rillarch");
}
