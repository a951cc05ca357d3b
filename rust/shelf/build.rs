//! Links the proved engine, libengine.a. It is looked for in the folder that
//! SHELF_ENGINE_DIR names, or else in the folder out of the crate engine, where
//! `rt lib` writes it. Where it is missing this only warns: checking, linting
//! and documenting need no archive, and linking then ends with an error that
//! names the library.

use std::env;
use std::path::{Path, PathBuf};

const ARCHIVE: &str = "libengine.a";

fn main() {
    println!("cargo::rerun-if-env-changed=SHELF_ENGINE_DIR");
    println!("cargo::rerun-if-changed=build.rs");
    let folder = engine_folder();
    let archive = folder.join(ARCHIVE);
    println!("cargo::rerun-if-changed={}", archive.display());
    println!("cargo::rustc-link-search=native={}", folder.display());
    println!("cargo::rustc-link-lib=static=engine");
    if !archive.is_file() {
        println!(
            "cargo::warning=the proved engine is not built, so nothing can be linked: \
             there is no {}. Run `rt lib` in crates/engine, or name the folder that has \
             {ARCHIVE} in SHELF_ENGINE_DIR.",
            archive.display()
        );
    }
}

/// The folder of the archive. A folder named without its root is looked for
/// from the manifest's.
fn engine_folder() -> PathBuf {
    let manifest = env::var_os("CARGO_MANIFEST_DIR").expect("cargo names the manifest's folder");
    let manifest = Path::new(&manifest);
    match env::var_os("SHELF_ENGINE_DIR") {
        Some(named) => manifest.join(named),
        None => {
            let root = manifest.ancestors().nth(2);
            root.expect("the repository's root")
                .join("crates/engine/out")
        }
    }
}
