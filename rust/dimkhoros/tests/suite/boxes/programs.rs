//! The programs of the boxes: where they are, what is left out of them, and how one is started.

use crate::{cc, examples};
use dimkhoros_sys::ARCHIVE;
use std::collections::BTreeSet;
use std::env;
use std::fs::{self, OpenOptions};
use std::os::fd::OwnedFd;
use std::os::unix::net::UnixStream;
use std::path::{Path, PathBuf};
use std::process::{Child, Command, ExitStatus, Stdio};
use std::sync::Mutex;
use std::thread::sleep;
use std::time::{Duration, Instant};

/// How long a box may take for anything before a test gives it up.
pub const PATIENCE: Duration = Duration::from_secs(60);

/// How a box exits that is ended at a point.
pub const DIED: Option<i32> = Some(99);

/// The language that a box is written in.
#[derive(Clone, Copy, Debug)]
pub enum Language {
    C,
    Rust,
}

/// Both languages.
pub const LANGUAGES: [Language; 2] = [Language::C, Language::Rust];

/// A rule of docs/BOXES.md that a Peggy can be built without: the name of the switch.
pub const ANSWER_FOUND_SESSION: &str = "ANSWER_FOUND_SESSION";
pub const SEND_BEFORE_STORING: &str = "SEND_BEFORE_STORING";

/// The program of this name, as the repository builds it.
pub fn program(language: Language, name: &str) -> PathBuf {
    match language {
        Language::C => examples::in_c().join(name),
        Language::Rust => examples::in_rust().join(name),
    }
}

/// A Peggy without these rules. Each is built once.
pub fn careless_peggy(language: Language, left_out: &[&str]) -> PathBuf {
    static BUILT: Mutex<BTreeSet<PathBuf>> = Mutex::new(BTreeSet::new());
    let folder = Path::new(env!("CARGO_TARGET_TMPDIR")).join("careless");
    let peggy = folder.join(format!("{language:?}_{}", left_out.join("_")));
    let mut built = BUILT.lock().unwrap();
    if built.insert(peggy.clone()) {
        fs::create_dir_all(&folder).unwrap();
        match language {
            Language::C => compile_in_c(left_out, &peggy),
            Language::Rust => compile_in_rust(left_out, &folder, &peggy),
        }
    }
    peggy
}

/// Compiles Peggy in C with these names defined.
fn compile_in_c(left_out: &[&str], built: &Path) {
    let mut command = Command::new("cc");
    command.args(["-std=c99", "-O2", "-I"]).arg(cc::root().join("include"));
    command.args(left_out.iter().map(|name| format!("-D{name}")));
    command.arg(cc::root().join("examples/c/boxes/peggy.c")).arg(ARCHIVE).arg("-o").arg(built);
    cc::succeed(&mut command);
}

/// Compiles Peggy in Rust with these names, in small letters, set. Cargo knows the libraries that the program needs.
fn compile_in_rust(left_out: &[&str], folder: &Path, built: &Path) {
    let cargo = env::var_os("CARGO").unwrap_or_else(|| "cargo".into());
    let mut command = Command::new(cargo);
    command.current_dir(env!("CARGO_MANIFEST_DIR"));
    command.args(["rustc", "--offline", "--quiet", "--example", "peggy", "--target-dir"]);
    command.arg(folder).arg("--");
    for name in left_out {
        command.args(["--cfg".to_string(), name.to_lowercase()]);
    }
    cc::succeed(&mut command);
    // A program that this process wrote itself could not be run while another test starts one.
    cc::succeed(Command::new("cp").arg(folder.join("debug/examples/peggy")).arg(built));
}

/// A box that runs. It is ended where a test gives up.
pub struct Running {
    child: Child,
}

impl Running {
    /// Starts a box on a folder. It ends at the point of this number, if there is one. What it says goes to the folder's log.
    pub fn start(
        program: &Path,
        folder: &Path,
        count: Option<u32>,
        (input, output): (UnixStream, UnixStream),
        dies_at: Option<u32>,
    ) -> Running {
        let log = OpenOptions::new().create(true).append(true).open(folder.join("log")).unwrap();
        let mut command = Command::new(program);
        command.arg(folder).args(count.map(|count| count.to_string()));
        command.stdin(Stdio::from(OwnedFd::from(input))).stdout(OwnedFd::from(output)).stderr(log);
        command.env_remove("BOX_DIES_AT");
        command.envs(dies_at.map(|number| ("BOX_DIES_AT", number.to_string())));
        let child =
            command.spawn().unwrap_or_else(|error| panic!("{program:?} cannot be run: {error}"));
        Running { child }
    }

    /// Waits until the box has ended.
    pub fn wait(&mut self) -> ExitStatus {
        let start = Instant::now();
        loop {
            if let Some(status) = self.child.try_wait().unwrap() {
                return status;
            }
            assert!(start.elapsed() < PATIENCE, "a box does not end");
            sleep(Duration::from_millis(1));
        }
    }
}

impl Drop for Running {
    fn drop(&mut self) {
        let _ = self.child.kill();
        let _ = self.child.wait();
    }
}
