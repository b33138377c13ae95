//! Links the static libraries that `tools/build staticlib` makes: of the C interface, and of the lookups over a row of records.

use std::env;
use std::path::Path;

/// Names the libraries' folder to the linker, and asks for a new build when one of them changes.
fn main() {
    let here = env::var("CARGO_MANIFEST_DIR").expect("cargo gives the folder of this package");
    let folder = Path::new(&here).join("../target/staticlib");
    println!("cargo:rustc-link-search=native={}", folder.display());
    for name in ["clpi", "ep_entry_queries"] {
        let library = folder.join(format!("lib{name}.a"));
        if !library.is_file() {
            panic!("{} isn't there: run `tools/build staticlib {name}` in the repository first", library.display());
        }
        println!("cargo:rustc-link-lib=static={name}");
        println!("cargo:rerun-if-changed={}", library.display());
    }
    println!("cargo:rerun-if-changed=build.rs");
}
