//! Finds the product's static library, which the declarations for Rust link. Its folder is `target/staticlib` at the
//! repository root, or the one that CASTANETASH_LIB names, absolute or seen from the root. The tests of callers get it as
//! CASTANETASH_LIB_FOLDER.

use std::env;
use std::path::Path;

fn main() {
    let manifest = env::var("CARGO_MANIFEST_DIR").expect("cargo sets it");
    let root = Path::new(&manifest)
        .ancestors()
        .nth(2)
        .expect("this package lies two folders below the root");
    let folder = env::var("CASTANETASH_LIB").unwrap_or_else(|_| "target/staticlib".to_owned());
    let folder = root.join(folder);
    let archive = folder.join("libcastanetash.a");
    if !archive.exists() {
        println!(
            "cargo:warning=the product's library {} doesn't exist",
            archive.display()
        );
    }
    println!("cargo:rustc-link-search=native={}", folder.display());
    println!("cargo:rustc-env=CASTANETASH_LIB_FOLDER={}", folder.display());
    println!("cargo:rerun-if-changed={}", archive.display());
    println!("cargo:rerun-if-env-changed=CASTANETASH_LIB");
}
