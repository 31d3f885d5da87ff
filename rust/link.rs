//! Links static libraries of a folder, for the build scripts of this crate and of the bench.

use std::path::Path;

/// Links those that are there, and says of another which command writes it.
pub fn link(folder: &Path, libraries: &[&str]) {
    println!("cargo::rustc-link-search=native={}", folder.display());
    for name in libraries {
        let file = folder.join(format!("lib{name}.a"));
        println!("cargo::rerun-if-changed={}", file.display());
        if !file.exists() {
            println!(
                "cargo::error={} is missing: run `make/staticlib.sh {name}`",
                file.display()
            );
        }
        println!("cargo::rustc-link-lib=static={name}");
    }
}
