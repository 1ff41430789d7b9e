//! Links the proved static library. The archive is made beforehand; this neither makes
//! nor changes it, and stops with the command that does if it is absent.

use std::env;
use std::path::Path;

fn main() {
    let root = env::var("CARGO_MANIFEST_DIR").expect("cargo sets CARGO_MANIFEST_DIR");
    let folder = Path::new(&root).join("../../target/staticlib");
    let archive = folder.join("liblogwhisker.a");

    println!("cargo:rerun-if-changed=build.rs");
    println!("cargo:rerun-if-changed={}", archive.display());
    assert!(
        archive.is_file(),
        "\n\n{} is absent.\nMake it with `make library` in the root of the repository, then run this again.\n",
        archive.display()
    );
    println!("cargo:rustc-link-search=native={}", folder.display());
    println!("cargo:rustc-link-lib=static=logwhisker");
}
