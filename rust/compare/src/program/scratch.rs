//! A folder for files that are needed for a while.

use std::env;
use std::fs;
use std::io;
use std::path::{Path, PathBuf};
use std::process;
use std::sync::atomic::{AtomicUsize, Ordering};

/// A folder below the one for temporary files. It is removed with its contents
/// when this value is dropped.
pub struct Scratch(PathBuf);

impl Scratch {
    /// Makes a folder that was not there.
    pub fn new() -> io::Result<Scratch> {
        static MADE: AtomicUsize = AtomicUsize::new(0);
        let number = MADE.fetch_add(1, Ordering::Relaxed);
        let name = format!("dimkhoros-compare-{}-{number}", process::id());
        let path = env::temp_dir().join(name);
        fs::create_dir(&path)?;
        Ok(Scratch(path))
    }

    pub fn path(&self) -> &Path {
        &self.0
    }
}

impl Drop for Scratch {
    fn drop(&mut self) {
        // What cannot be removed stays where temporary files stand.
        let _ = fs::remove_dir_all(&self.0);
    }
}
