//! Links the library's loops, which `make/staticlib.sh loops dirloops` writes.

#[path = "../rust/link.rs"]
mod link;

use std::env;
use std::path::Path;

fn main() {
    let here = env::var_os("CARGO_MANIFEST_DIR").expect("cargo sets this variable");
    let folder = Path::new(&here).join("../target/staticlib");
    link::link(&folder, &["loops", "dirloops"]);
}
