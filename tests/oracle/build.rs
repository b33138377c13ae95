//! Declares the Rust's sources, where they stand, as modules of this crate. None of their text is copied.

use std::path::{Path, PathBuf};
use std::{env, fs};

/// The sources' folder: `$CLPI_ORACLE`, or `../shared/docs/src` beside the repository.
fn sources(here: &Path) -> PathBuf {
    let folder = match env::var("CLPI_ORACLE") {
        Ok(folder) => here.join(folder),
        Err(_) => here.join("../../../shared/docs/src"),
    };
    fs::canonicalize(folder.join("src")).unwrap_or_else(|why| panic!("the Rust isn't in {}: {why}", folder.display()))
}

/// A line that declares one module by its file.
fn module(sources: &Path, name: &str, file: &str) -> String {
    let path = sources.join(file);
    println!("cargo:rerun-if-changed={}", path.display());
    format!("#[path = {:?}]\npub mod {name};\n", path)
}

/// Writes the module declarations, with the stand-in for the one type that was not supplied.
fn main() {
    println!("cargo:rerun-if-env-changed=CLPI_ORACLE");
    println!("cargo:rerun-if-changed=build.rs");
    let here = PathBuf::from(env::var("CARGO_MANIFEST_DIR").expect("cargo gives the folder of this package"));
    let sources = sources(&here);
    let mut text = module(&sources, "error", "error.rs") + &module(&sources, "m2ts", "m2ts.rs");
    text += "pub mod bdmv {\n";
    for name in ["common", "extension", "mpls", "clpi"] {
        text += &module(&sources, name, &format!("bdmv/{name}.rs"));
    }
    text += "pub use crate::uo_mask;\n}\n";
    let out = env::var("OUT_DIR").expect("cargo gives a folder for what is made");
    fs::write(Path::new(&out).join("oracle.rs"), text).expect("the declarations can be written");
}
