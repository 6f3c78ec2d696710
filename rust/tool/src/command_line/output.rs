//! Standard output, and whether it can be written to.

#![allow(unsafe_code)]

use std::ffi::{c_int, c_ulong};
use std::fs;
use std::io::{self, Write};
use std::os::fd::{AsFd, AsRawFd};
use std::sync::atomic::{AtomicBool, Ordering};

/// Whether standard output was closed, or open for reading alone, when the program began.
static CLOSED: AtomicBool = AtomicBool::new(false);

/// The loader calls this before `main`. By then Rust has opened /dev/null in the place of a standard output that is closed, and
/// what is printed would get lost without an error.
#[used]
#[unsafe(link_section = ".init_array")]
static BEFORE_MAIN: extern "C" fn() = look;

/// Sees what standard output is.
extern "C" fn look() {
    let closed = match fs::read_to_string("/proc/self/fdinfo/1") {
        Ok(told) => is_for_reading(&told),
        // Without /proc nothing is known.
        Err(_) => fs::metadata("/proc/self/fdinfo").is_ok(),
    };
    CLOSED.store(closed, Ordering::Relaxed);
}

/// Whether the system tells of a file that is open for reading alone: the last two bits of its flags, in octal, are 0.
fn is_for_reading(told: &str) -> bool {
    let flags = told.lines().find_map(|line| line.strip_prefix("flags:"));
    let flags = flags.and_then(|flags| u32::from_str_radix(flags.trim(), 8).ok());
    flags.is_some_and(|flags| flags & 3 == 0)
}

/// The size of a terminal, as the system tells it.
#[repr(C)]
#[derive(Default)]
struct Size {
    rows: u16,
    columns: u16,
    width: u16,
    height: u16,
}

/// The call by which Linux tells the size of a terminal.
const TELL_SIZE: c_ulong = 0x5413;

unsafe extern "C" {
    fn ioctl(file: c_int, call: c_ulong, ...) -> c_int;
}

/// How many columns a file has, if it is a terminal that tells.
pub fn columns(file: impl AsFd) -> Option<usize> {
    let mut size = Size::default();
    // SAFETY: the file is open, and the call writes a size and nothing else.
    let told = unsafe { ioctl(file.as_fd().as_raw_fd(), TELL_SIZE, &raw mut size) };
    (told == 0 && size.columns > 0).then_some(size.columns.into())
}

/// Standard output, which answers an error if it cannot be written to.
pub struct Output(io::StdoutLock<'static>);

impl Output {
    /// The standard output of this program.
    pub fn new() -> Output {
        Output(io::stdout().lock())
    }
}

impl Write for Output {
    fn write(&mut self, bytes: &[u8]) -> io::Result<usize> {
        if CLOSED.load(Ordering::Relaxed) {
            Err(io::Error::other("standard output is closed"))
        } else {
            self.0.write(bytes)
        }
    }

    fn flush(&mut self) -> io::Result<()> {
        self.0.flush()
    }
}
