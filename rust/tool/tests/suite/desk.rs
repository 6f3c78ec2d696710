//! A fresh folder in which the program is on PATH, and transcripts: lines `$ command`, each with what it prints below it.

use crate::outside::outside;

use std::env;
use std::fs;
use std::path::{Path, PathBuf};
use std::process::{Command, Stdio};

/// A folder to run commands in.
pub struct Desk {
    /// The folder.
    pub folder: PathBuf,
}

impl Desk {
    /// Makes the folder anew.
    pub fn new(name: &str) -> Desk {
        let folder = outside().join("desk").join(name);
        if folder.exists() {
            fs::remove_dir_all(&folder).unwrap();
        }
        fs::create_dir_all(&folder).unwrap();
        Desk { folder }
    }

    /// What a command in the shell prints, on standard output and error alike, and below it its exit status in brackets where
    /// that is not 0.
    pub fn print(&self, command: &str) -> String {
        let tool = Path::new(env!("CARGO_BIN_EXE_dimkhoros")).parent().unwrap();
        let mut path = vec![tool.to_path_buf()];
        path.extend(env::split_paths(&env::var_os("PATH").unwrap()));
        let ended = Command::new("sh")
            .args(["-c", &format!("exec 2>&1\n{command}")])
            .current_dir(&self.folder)
            .env("PATH", env::join_paths(path).unwrap())
            .stdin(Stdio::null())
            .output()
            .unwrap();
        let mut printed = String::from_utf8(ended.stdout).unwrap();
        match ended.status.code() {
            Some(0) => {}
            Some(status) => printed += &format!("[{status}]\n"),
            None => printed += &format!("[{}]\n", ended.status),
        }
        printed
    }

    /// The transcript with what its commands print here.
    pub fn replay(&self, transcript: &str) -> String {
        let commands = transcript.lines().filter(|line| is_command(line) || line.starts_with('#'));
        commands.map(|line| self.replayed(line)).collect()
    }

    /// A line of a transcript, and what it prints where it is a command.
    fn replayed(&self, line: &str) -> String {
        match line.strip_prefix("$ ") {
            Some(command) => format!("{line}\n{}", self.print(command)),
            None => format!("{line}\n"),
        }
    }
}

/// Whether a line of a transcript is a command.
fn is_command(line: &str) -> bool {
    line.starts_with("$ ")
}
