//! Why a command ends without having done what it was asked for.

use dimkhoros::Refusal;
use std::fmt;
use std::io;

/// Why a command fails, in one line.
#[derive(Debug)]
pub enum Failure {
    /// The words of the command are wrong.
    Words(String),
    /// The library refused something, or it cannot be had, read or written.
    Failed(String),
    /// Nobody reads any more what is written to a pipe, as in `dimkhoros ... | head`. That is told to nobody.
    ReaderGone,
}

/// What a command answers.
pub type Outcome<T = ()> = Result<T, Failure>;

impl Failure {
    /// The words are wrong.
    pub fn words(why: impl fmt::Display) -> Failure {
        Failure::Words(why.to_string())
    }

    /// Something else went wrong.
    pub fn failed(why: impl fmt::Display) -> Failure {
        Failure::Failed(why.to_string())
    }

    /// The library refuses something, by what is said here.
    pub fn refused(refusal: Refusal, by: impl fmt::Display) -> Failure {
        Failure::failed(refused(refusal, by))
    }

    /// The library refuses something, and this is what is wrong.
    pub fn cause(refusal: Refusal, what: impl fmt::Display) -> Failure {
        Failure::failed(numbered(refusal, what))
    }

    /// The exit status: 2 for wrong words, else 1.
    pub fn status(&self) -> u8 {
        match self {
            Failure::Words(_) => 2,
            Failure::Failed(_) | Failure::ReaderGone => 1,
        }
    }
}

/// A refusal in a line: what it is by, the rule, and its number in brackets.
pub fn refused(refusal: Refusal, by: impl fmt::Display) -> String {
    numbered(refusal, format!("{by}: {}", rule(refusal)))
}

/// What is wrong, with the refusal's number in brackets.
pub fn numbered(refusal: Refusal, what: impl fmt::Display) -> String {
    format!("{what} ({})", refusal.number())
}

/// The rule of a refusal, if a value is named before it: of a number with several causes, the one that a value can be.
pub fn rule(refusal: Refusal) -> &'static str {
    match refusal {
        Refusal::Entry | Refusal::Statement | Refusal::Commitment => {
            "the value lies outside the group"
        }
        Refusal::Challenge => "the challenge must be below K",
        Refusal::Coordinate => "the value lies outside the domain",
        Refusal::RoundRejected => "both rounds must be accepted",
        Refusal::File => "this is not a round file of the sheet",
        _ => refusal.sentence(),
    }
}

impl fmt::Display for Failure {
    fn fmt(&self, f: &mut fmt::Formatter<'_>) -> fmt::Result {
        match self {
            Failure::Words(why) | Failure::Failed(why) => f.write_str(why),
            Failure::ReaderGone => f.write_str("the reader has gone away"),
        }
    }
}

impl From<Refusal> for Failure {
    fn from(refusal: Refusal) -> Failure {
        Failure::cause(refusal, rule(refusal))
    }
}

/// Only what is printed is written by way of `?`; a file names itself.
impl From<io::Error> for Failure {
    fn from(error: io::Error) -> Failure {
        match error.kind() {
            io::ErrorKind::BrokenPipe => Failure::ReaderGone,
            _ => Failure::failed(format!("the text cannot be written: {error}")),
        }
    }
}
