//! A folder outside the repository, for what a test lays out with links or with a list of crates: the prover refuses both anywhere
//! in the repository. The tests of the crates `dimkhoros` and `dimkhoros-tool` have this file.

use std::os::unix::fs::MetadataExt;
use std::path::{Path, PathBuf};
use std::{env, fs};

/// The folder, of this user and this checkout.
pub fn outside() -> PathBuf {
    let root = Path::new(env!("CARGO_MANIFEST_DIR")).join("../..").canonicalize().unwrap();
    let user = fs::metadata("/proc/self").unwrap().uid();
    let folder = env::temp_dir().join(format!("dimkhoros-tests-{user}"));
    folder.join(root.to_str().unwrap().replace('/', "-"))
}
