//! Links the static libraries that make/staticlib.sh writes: those of ../target/staticlib, or of the
//! directory that `WATERWAYS_LIB` names.

mod link;

use std::env;
use std::path::{Path, PathBuf};

const LIBRARIES: [&str; 4] = [
    "exportrows",
    "exportlists",
    "exportremovals",
    "exportdirectory",
];

fn main() {
    println!("cargo::rerun-if-env-changed=WATERWAYS_LIB");
    let here = env::var_os("CARGO_MANIFEST_DIR").expect("cargo sets this variable");
    let named = env::var_os("WATERWAYS_LIB").map(PathBuf::from);
    let folder = named.unwrap_or(Path::new(&here).join("../target/staticlib"));
    link::link(&folder, &LIBRARIES);
}
