//! A folder of a test's own that is laid out as the repository is. A script of the repository's root runs in it, with nothing on PATH
//! but the tools that the script needs, so that no test starts the prover.

use crate::cc;
use crate::outside::outside;

use std::env;
use std::fs::{self, File, Permissions};
use std::os::unix::fs::{PermissionsExt, symlink};
use std::path::{Path, PathBuf};
use std::process::{Command, Stdio};
use std::time::{Duration, SystemTime};

/// The programs that the scripts build.
const PROGRAMS: [&str; 3] = ["marker", "reason", "game"];

/// The folder, and the name of the script that stands in it.
pub struct Home(pub PathBuf, &'static str);

/// How a command ended, and what it wrote.
#[derive(Debug, PartialEq)]
pub struct Ended {
    pub status: Option<i32>,
    pub stdout: String,
    pub stderr: String,
}

impl Home {
    /// Makes the folder anew for a test of this name, with the script and what it reads, these tools and this list of crates.
    pub fn new(script: &'static str, test: &str, tools: &[&str], crates: &str) -> Home {
        let home = outside().join(script).join(test);
        if home.exists() {
            fs::remove_dir_all(&home).unwrap();
        }
        for folder in ["crates/dimkhoros/out", "scripts", "tools"] {
            fs::create_dir_all(home.join(folder)).unwrap();
        }
        for program in PROGRAMS {
            fs::create_dir_all(home.join("crates").join(program).join("out")).unwrap();
        }
        fs::write(home.join("crates.txt"), crates).unwrap();
        let home = Home(home, script);
        home.put(script);
        home.put("scripts/build.sh");
        home.link_tools(tools);
        home
    }

    /// Puts links to these tools in the folder that is on PATH.
    fn link_tools(&self, tools: &[&str]) {
        for tool in tools {
            symlink(on_path(tool).unwrap(), self.0.join("tools").join(tool)).unwrap();
        }
    }

    /// Puts the programs `marker`, `reason` and `game` here, which are then newer than all that stands here.
    pub fn put_programs(&self) {
        for program in PROGRAMS {
            copy(&built(program), &self.0.join("crates").join(program).join("out").join(program));
        }
    }

    /// Puts a file of the repository in its place here.
    pub fn put(&self, file: &str) {
        let place = self.0.join(file);
        fs::create_dir_all(place.parent().unwrap()).unwrap();
        copy(&cc::root().join(file), &place);
    }

    /// The script with these words.
    pub fn command(&self, words: &[&str]) -> Command {
        let mut command = Command::new(self.0.join(self.1));
        self.prepared(command.args(words));
        command
    }

    /// Makes a command run in this folder, with the tools alone on PATH and without the variable that `./install` reads. A tool
    /// that is put there can write what it is asked to the file that the variable ASKED names.
    pub fn prepared<'a>(&self, command: &'a mut Command) -> &'a mut Command {
        command.env("PATH", self.0.join("tools")).env_remove("DESTDIR");
        command.env("ASKED", self.0.join("asked"));
        command.current_dir(&self.0).stdin(Stdio::null())
    }

    /// Runs the script with these words.
    pub fn run(&self, words: &[&str]) -> Ended {
        ended(&mut self.command(words))
    }

    /// Puts a command on PATH that does this. A link of this name is taken away first, so that nothing is written to what it
    /// points to.
    pub fn put_tool(&self, name: &str, does: &str) {
        let (text, tool) = (self.0.join("tool.txt"), self.0.join("tools").join(name));
        if tool.symlink_metadata().is_ok() {
            fs::remove_file(&tool).unwrap();
        }
        fs::write(&text, format!("#!/bin/sh\n{does}\n")).unwrap();
        copy(&text, &tool);
        fs::set_permissions(&tool, Permissions::from_mode(0o755)).unwrap();
    }

    /// Gives a file or folder a time that lies an hour ahead, or an hour back.
    pub fn date(&self, path: &str, ahead: bool) {
        let (now, hour) = (SystemTime::now(), Duration::from_secs(3600));
        let file = File::open(self.0.join(path)).unwrap();
        file.set_modified(if ahead { now + hour } else { now - hour }).unwrap();
    }

    /// What is in a file here, which is a text.
    pub fn text(&self, file: &str) -> String {
        fs::read_to_string(self.0.join(file)).unwrap()
    }
}

/// A program as `rt run` builds it.
pub fn built(name: &str) -> PathBuf {
    let program = cc::root().join("crates").join(name).join("out").join(name);
    assert!(program.exists(), "there is no {program:?}; `rt run` in crates/{name} builds it");
    program
}

/// Where a command is on PATH.
pub fn on_path(command: &str) -> Option<PathBuf> {
    let path = env::var_os("PATH").unwrap();
    env::split_paths(&path).map(|folder| folder.join(command)).find(|command| command.exists())
}

/// Copies a file by a program of its own: a file that this one has open to write cannot be run, and each program that another
/// test starts has it open for a moment too.
pub fn copy(from: &Path, to: &Path) {
    cc::succeed(Command::new("cp").arg(from).arg(to));
}

/// Runs a command and answers how it ended. What it writes to another place than a pipe is not in it.
pub fn ended(command: &mut Command) -> Ended {
    let output = command.output().unwrap();
    let text = |bytes| String::from_utf8(bytes).unwrap();
    Ended { status: output.status.code(), stdout: text(output.stdout), stderr: text(output.stderr) }
}
