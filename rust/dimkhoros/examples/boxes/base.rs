//! What a box has from the start: a name, a folder for its files, the sheet, and its two ends of the wire.

use dimkhoros::{Header, Instance};
use std::error::Error;
use std::fs::{self, File};
use std::io;
use std::os::fd::AsFd;
use std::path::Path;

/// Why a box cannot go on.
pub type Failure = Box<dyn Error>;

pub struct Base {
    /// What the box calls itself in what it prints.
    pub name: &'static str,
    pub folder: String,
    pub sheet: Instance,
    pub input: File,
    pub output: File,
}

impl Base {
    /// Opens a box on a folder that has sheet.bin. Standard input and output are taken as files, which keep nothing back: a
    /// stream would read lines ahead that the box that is started next has to hear.
    pub fn open(name: &'static str, folder: String) -> Result<Base, Failure> {
        let sheet = Instance::load(&fs::read(Path::new(&folder).join("sheet.bin"))?)?;
        let input = File::from(io::stdin().as_fd().try_clone_to_owned()?);
        let output = File::from(io::stdout().as_fd().try_clone_to_owned()?);
        Ok(Base { name, folder, sheet, input, output })
    }

    /// The fixed fields of the sheet.
    pub fn header(&self) -> &Header {
        &self.sheet.values().header
    }

    /// How many numbers a commitment has.
    pub fn rows(&self) -> usize {
        self.header().rows as usize
    }

    /// How many numbers a response has.
    pub fn columns(&self) -> usize {
        self.header().columns as usize
    }
}
