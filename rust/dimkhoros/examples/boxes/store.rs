//! How a box stores its session: the file holds either what it held or all of the new bytes, wherever the box ends.

use super::base::Base;
use super::points::point;
use std::fs::{self, File, OpenOptions};
use std::io::{self, ErrorKind, Write};
use std::os::unix::fs::OpenOptionsExt;
use std::path::Path;

/// Writes a file that did not exist, for its owner's eyes alone, and waits until its bytes are on the disk.
fn write_new(path: &Path, bytes: &[u8]) -> io::Result<()> {
    if path.exists() {
        fs::remove_file(path)?;
    }
    let mut file = OpenOptions::new().write(true).create_new(true).mode(0o600).open(path)?;
    file.write_all(bytes)?;
    file.sync_all()
}

impl Base {
    /// Puts the bytes of a session in the place of the stored ones. When this returns, they are on the disk.
    pub fn store(&self, bytes: &[u8]) -> io::Result<()> {
        let folder = Path::new(&self.folder);
        point("before a write");
        write_new(&folder.join("session.new"), bytes)?;
        point("before a rename");
        fs::rename(folder.join("session.new"), folder.join("session.bin"))?;
        File::open(folder)?.sync_all()?;
        point("after a write");
        Ok(())
    }

    /// The bytes that are stored, none where nothing ever was.
    pub fn stored(&self) -> io::Result<Option<Vec<u8>>> {
        match fs::read(Path::new(&self.folder).join("session.bin")) {
            Ok(bytes) => Ok(Some(bytes)),
            Err(error) if error.kind() == ErrorKind::NotFound => Ok(None),
            Err(error) => Err(error),
        }
    }
}
