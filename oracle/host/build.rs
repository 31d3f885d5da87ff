//! With the feature `built`, links the library that `make/staticlib.sh script` writes.

use std::env;
use std::path::Path;

/// Where the library lies, seen from this package.
const FOLDER: &str = "../../target/staticlib";

fn main() {
    if env::var_os("CARGO_FEATURE_BUILT").is_none() {
        return;
    }
    let package = env::var_os("CARGO_MANIFEST_DIR").expect("cargo sets this variable");
    let folder = Path::new(&package).join(FOLDER);
    let library = folder.join("libscript.a");
    println!("cargo::rerun-if-changed={}", library.display());
    println!("cargo::rustc-link-search=native={}", folder.display());
    println!("cargo::rustc-link-lib=static=script");
    if !library.exists() {
        println!(
            "cargo::error=there is no {}: `make/staticlib.sh script` writes it",
            library.display()
        );
    }
}
