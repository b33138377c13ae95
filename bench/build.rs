//! Links the proved library and libbluray; of libbluray's static library only its search, which the shared one hides.
fn main() {
    let here = std::env::var("CARGO_MANIFEST_DIR").unwrap();
    println!("cargo:rustc-link-search=native={here}/../target/staticlib");
    println!("cargo:rustc-link-lib=static=clpi");
    println!("cargo:rustc-link-lib=dylib=bluray");
    println!("cargo:rustc-link-arg=-l:libbluray.a");
    println!("cargo:rustc-link-arg=-ludfread");
    println!("cargo:rerun-if-changed={here}/../target/staticlib/libclpi.a");
}
