//! Reading and writing files.

use crate::command_line::failure::{Failure, Outcome};
use crate::command_line::words::Words;
use crate::command_line::wrap::{self, NARROWEST, WIDEST};
use crate::command_line::{colour, output};
use std::ffi::OsStr;
use std::fmt::Display;
use std::fs::{self, File, OpenOptions};
use std::io::{self, ErrorKind, Read, Write};
use std::path::{Path, PathBuf};
use std::process;
use std::str::Utf8Chunk;

/// The most bytes that are read of a file. No file of ours has as many.
const MOST: u64 = 1 << 20;

/// The bytes of a file, or of standard input if it is called `-`.
pub fn read(path: &Path) -> Outcome<Vec<u8>> {
    let read = if is_standard(path) {
        read_all(io::stdin().lock())
    } else {
        File::open(path).and_then(read_all)
    };
    let bytes = read.map_err(|error| failure(path, "read", &error))?;
    match too_long(&bytes) {
        Some(why) => Err(Failure::failed(format!("{} {why}", name(path)))),
        None => Ok(bytes),
    }
}

/// The bytes of a file, of one with more than the most only as many as tell that it has more, if the file is there.
pub fn read_if_there(path: &Path) -> Outcome<Option<Vec<u8>>> {
    let read = match fs::metadata(path) {
        Ok(found) if !found.is_file() => Err(io::Error::other("it is not a file")),
        _ => File::open(path).and_then(read_all),
    };
    match read {
        Err(error) if error.kind() == ErrorKind::NotFound => Ok(None),
        read => read.map(Some).map_err(|error| failure(path, "read", &error)),
    }
}

/// What is said of a file that was not read to its end.
pub fn too_long(bytes: &[u8]) -> Option<String> {
    (bytes.len() as u64 > MOST).then(|| format!("has more than {MOST} bytes"))
}

/// How many bytes a file has, all of them.
pub fn length(path: &Path) -> Outcome<usize> {
    let found = fs::metadata(path).map_err(|error| failure(path, "read", &error))?;
    Ok(usize::try_from(found.len()).unwrap_or(usize::MAX))
}

/// All bytes up to one more than the most.
fn read_all(file: impl Read) -> io::Result<Vec<u8>> {
    let mut bytes = Vec::new();
    file.take(MOST + 1).read_to_end(&mut bytes)?;
    Ok(bytes)
}

/// Where a command writes its file: to the one after `-o`, or to standard output if that is `-`. With `--force` it may be there already.
pub struct Target {
    path: PathBuf,
    how: How,
}

/// How a file is written.
#[derive(PartialEq)]
enum How {
    /// Where none is there.
    New,
    /// Over one that may be there.
    Over,
    /// In the place of one that is there, which stays as it is until the whole new one is on the disk.
    InPlace,
}

impl Target {
    /// What the words say.
    pub fn of(words: &Words) -> Outcome<Target> {
        let path =
            words.option("-o").ok_or(Failure::words("-o FILE is missing: the file to write"))?;
        Target::named(PathBuf::from(path), words.flag("--force"))
    }

    /// The file that is read, of which nothing gets lost.
    pub fn in_place(path: &Path) -> Outcome<Target> {
        if is_standard(path) {
            return Err(Failure::words("-o FILE is missing: the file to write, since ROUNDS is -"));
        }
        Ok(Target { path: path.to_path_buf(), how: How::InPlace })
    }

    /// A file of this name, which may be there already if it is forced.
    pub fn named(path: PathBuf, force: bool) -> Outcome<Target> {
        let how = if force { How::Over } else { How::New };
        if path.is_dir() && !is_standard(&path) {
            return Err(failure(&path, "written", &ErrorKind::IsADirectory.into()));
        }
        Ok(Target { path, how })
    }

    /// The file's name as it is printed.
    pub fn name(&self) -> String {
        name(&self.path)
    }

    /// Whether the bytes go to standard output.
    pub fn is_standard(&self) -> bool {
        is_standard(&self.path)
    }

    /// Writes the bytes, and a line that says so unless the bytes themselves went there.
    pub fn write(&self, bytes: &[u8], out: &mut dyn Write) -> Outcome {
        self.write_saying(bytes, "", out)
    }

    /// Writes the bytes, and a line that says so and more unless the bytes themselves went there.
    pub fn write_saying(&self, bytes: &[u8], more: &str, out: &mut dyn Write) -> Outcome {
        let line = format!("{} has {} bytes{more}", name(&self.path), bytes.len());
        self.write_answering(bytes, &line, out)
    }

    /// Writes the bytes, and this line unless the bytes themselves went there.
    pub fn write_answering(&self, bytes: &[u8], line: &str, out: &mut dyn Write) -> Outcome {
        if is_standard(&self.path) {
            return Ok(out.write_all(bytes)?);
        }
        let written = match self.how {
            How::New => write_new(&self.path, bytes),
            How::Over => File::create(&self.path).and_then(|mut file| file.write_all(bytes)),
            How::InPlace => replace(&self.path, bytes),
        };
        match written {
            Ok(()) => Ok(writeln!(out, "{}", wrap::lines(line, 4, WIDEST))?),
            Err(error) if error.kind() == ErrorKind::AlreadyExists && self.how == How::New => {
                Err(Failure::failed(format!(
                    "{} is there already; --force writes over it",
                    name(&self.path)
                )))
            }
            Err(error) => Err(failure(&self.path, "written", &error)),
        }
    }
}

/// Writes a file where none is there.
fn write_new(path: &Path, bytes: &[u8]) -> io::Result<()> {
    OpenOptions::new().write(true).create_new(true).open(path)?.write_all(bytes)
}

/// Puts a file with these bytes in the place of one that is there: written whole beside it, and then renamed.
fn replace(path: &Path, bytes: &[u8]) -> io::Result<()> {
    let there = fs::metadata(path)?;
    if !there.is_file() {
        return Err(io::Error::other("it is not a plain file, and -o FILE is missing"));
    }
    let path = fs::canonicalize(path)?;
    let mut beside = path.clone().into_os_string();
    beside.push(format!(".{}", process::id()));
    let beside = PathBuf::from(beside);
    let mut file = OpenOptions::new().write(true).create_new(true).open(&beside)?;
    let written = file.write_all(bytes).and_then(|()| file.sync_all());
    let written = written.and_then(|()| fs::set_permissions(&beside, there.permissions()));
    let renamed = written.and_then(|()| fs::rename(&beside, &path));
    if renamed.is_err() {
        let _ = fs::remove_file(&beside);
    }
    renamed
}

/// A file's name as it is printed.
pub fn name(path: &Path) -> String {
    if is_standard(path) { "standard input".to_string() } else { one_line(path.as_os_str()) }
}

/// A name in one line: a control character is escaped, and so is a byte that is not UTF-8.
pub fn one_line(name: &OsStr) -> String {
    let part = |part: Utf8Chunk<'_>| {
        let bytes: String = part.invalid().iter().map(|byte| format!("\\x{byte:02x}")).collect();
        escaped(part.valid()) + &bytes
    };
    name.as_encoded_bytes().utf8_chunks().map(part).collect()
}

/// A text with its control characters and line ends escaped.
fn escaped(text: &str) -> String {
    let breaks = |letter: char| letter.is_control() || letter.is_whitespace() && letter != ' ';
    let written = |letter: char| {
        if breaks(letter) { letter.escape_default().to_string() } else { letter.to_string() }
    };
    text.chars().map(written).collect()
}

/// Says which file cannot be read or written, and why.
fn failure(path: &Path, what: &str, error: &io::Error) -> Failure {
    let why = match error.kind() {
        ErrorKind::BrokenPipe => return Failure::ReaderGone,
        ErrorKind::NotFound if what == "read" => "there is no such file".to_string(),
        ErrorKind::NotFound | ErrorKind::NotADirectory => "there is no such folder".to_string(),
        ErrorKind::IsADirectory => "it is a folder".to_string(),
        ErrorKind::PermissionDenied => "that is not permitted".to_string(),
        _ => error.to_string(),
    };
    Failure::failed(format!("{} cannot be {what}: {why}", name(path)))
}

/// Whether a file's name means standard input or output.
fn is_standard(path: &Path) -> bool {
    path.as_os_str() == "-"
}

/// A line on standard error, in as many lines as its columns ask for. If it is closed, there is nobody to tell.
pub fn note(line: &dyn Display) {
    let width = output::columns(io::stderr()).unwrap_or(WIDEST).clamp(NARROWEST, WIDEST);
    let line = format!("{NAME} {}", escaped(&line.to_string()));
    let lines = wrap::lines(&line, 4, width);
    let _ = writeln!(io::stderr(), "{}", lines.replacen(NAME, &colour::name(NAME), 1));
}

/// What a line on standard error begins with.
const NAME: &str = "dimkhoros:";
