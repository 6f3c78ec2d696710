//! Every command prints what the stored transcripts say. With BLESS=1 they are stored anew, to be read before they are kept.

use crate::desk::Desk;
use std::env;
use std::fs;
use std::path::{Path, PathBuf};

/// The stored transcripts.
fn transcripts() -> Vec<PathBuf> {
    let folder = Path::new(env!("CARGO_MANIFEST_DIR")).join("tests/transcripts");
    let mut paths: Vec<PathBuf> =
        fs::read_dir(folder).unwrap().map(|entry| entry.unwrap().path()).collect();
    paths.sort();
    paths
}

#[test]
fn every_transcript_is_what_is_printed() {
    let bless = env::var_os("BLESS").is_some();
    let mut differ = Vec::new();
    for path in transcripts() {
        let stored = fs::read_to_string(&path).unwrap();
        let desk = Desk::new(path.file_stem().unwrap().to_str().unwrap());
        let printed = desk.replay(&stored);
        if printed != stored {
            differ.push(format!("{}:\n{printed}", path.display()));
        }
        if bless {
            fs::write(&path, printed).unwrap();
        }
    }
    assert!(bless || differ.is_empty(), "these print something else:\n{}", differ.join("\n"));
}
