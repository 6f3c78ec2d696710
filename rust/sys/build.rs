//! Links the archive of the proved library.
//!
//! Its folder is crates/dimkhoros/out of the repository, or the one whose whole
//! path is in the variable DIMKHOROS_LIB.

use std::env;
use std::path::{Path, PathBuf};
use std::process::exit;

fn main() {
    println!("cargo:rerun-if-changed=build.rs");
    println!("cargo:rerun-if-env-changed=DIMKHOROS_LIB");
    let folder = folder();
    let archive = folder.join("libdimkhoros.a");
    println!("cargo:rerun-if-changed={}", archive.display());
    if !archive.is_file() {
        fail(&format!(
            "There is no archive {}. Run `rt lib` in crates/dimkhoros of the repository, or set \
             DIMKHOROS_LIB to the whole path of the folder that has libdimkhoros.a.",
            archive.display()
        ));
    }
    // The tests of the C interface link the same archive.
    println!("cargo:rustc-env=DIMKHOROS_ARCHIVE={}", archive.display());
    println!("cargo:rustc-link-search=native={}", folder.display());
    println!("cargo:rustc-link-lib=static=dimkhoros");
}

/// The archive's folder. Cargo runs this program in the crate's folder, where
/// a relative path would not mean what it means to the caller.
fn folder() -> PathBuf {
    let named = env::var_os("DIMKHOROS_LIB").filter(|folder| !folder.is_empty());
    let Some(folder) = named.map(PathBuf::from) else {
        let home = env::var_os("CARGO_MANIFEST_DIR").unwrap_or_default();
        return Path::new(&home).join("../../crates/dimkhoros/out");
    };
    if !folder.is_absolute() {
        fail(&format!(
            "DIMKHOROS_LIB must be the whole path of a folder, and is {}.",
            folder.display()
        ));
    }
    folder
}

fn fail(why: &str) -> ! {
    eprintln!("{why}");
    exit(1)
}
