//! How far the marking is, on a standard error that is a terminal.

use std::io::{self, IsTerminal, Write};
use std::time::{Duration, Instant};

/// How often the line is written anew.
const PAUSE: Duration = Duration::from_millis(100);

/// A line that is written over and over, and wiped at the end.
pub struct Progress<W> {
    to: W,
    total: usize,
    /// When the line may be written next: never where nobody sees it.
    next: Option<Instant>,
    written: bool,
}

/// The progress over so many folders, on standard error.
pub fn of(total: usize) -> Progress<io::Stderr> {
    let start = io::stderr().is_terminal().then(Instant::now);
    Progress::new(io::stderr(), total, start)
}

impl<W: Write> Progress<W> {
    /// The progress over so many folders that begins at a time, or that nobody sees.
    fn new(to: W, total: usize, start: Option<Instant>) -> Progress<W> {
        Progress { to, total, next: start.map(|start| start + PAUSE), written: false }
    }

    /// Says that so many folders are marked, where the last time is long enough ago.
    pub fn show(&mut self, done: usize) {
        self.show_at(Instant::now(), done);
    }

    /// Says at a time that so many folders are marked, where the last time is long enough ago.
    fn show_at(&mut self, now: Instant, done: usize) {
        if self.next.is_some_and(|next| next <= now) {
            let _ = write!(self.to, "\r{done} of {} folders are marked", self.total);
            self.next = Some(now + PAUSE);
            self.written = true;
        }
    }

    /// Wipes the line.
    pub fn end(&mut self) {
        if self.written {
            let _ = write!(self.to, "\r\x1b[K");
        }
    }
}

#[cfg(test)]
mod tests {
    use super::{PAUSE, Progress};
    use std::time::{Duration, Instant};

    /// What is written where folders are marked so many milliseconds behind the start.
    fn written(seen: bool, times: &[u64]) -> String {
        let (start, mut bytes) = (Instant::now(), Vec::new());
        let mut progress = Progress::new(&mut bytes, 40, seen.then_some(start));
        for (done, time) in times.iter().enumerate() {
            progress.show_at(start + Duration::from_millis(*time), done);
        }
        progress.end();
        String::from_utf8(bytes).unwrap()
    }

    #[test]
    fn the_line_is_written_after_each_pause_and_wiped() {
        assert_eq!(PAUSE, Duration::from_millis(100));
        assert_eq!(
            written(true, &[0, 99, 100, 150, 199, 200, 350]),
            "\r2 of 40 folders are marked\r5 of 40 folders are marked\r6 of 40 folders are marked\r\x1b[K"
        );
    }

    #[test]
    fn nothing_is_written_where_it_is_quick_or_nobody_sees_it() {
        assert_eq!(written(true, &[0, 50, 99]), "");
        assert_eq!(written(false, &[0, 100, 1000]), "");
    }
}
