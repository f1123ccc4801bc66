//! Why a command ended without doing what it was asked: a status and a line.

use skimdral::Answer;
use std::ffi::OsStr;
use std::io;
use std::path::Path;

/// Bad usage.
const USAGE: u8 = 64;
/// An input can't be read.
const UNREADABLE: u8 = 66;
/// The tour didn't go as it must.
const ASTRAY: u8 = 70;
/// An output can't be made.
const UNWRITABLE: u8 = 73;

/// An exit status that is not 0, and what is said about it.
#[derive(Debug)]
pub struct Stop {
    pub status: u8,
    pub line: String,
}

impl Stop {
    /// The command line can't be understood, or asks for what makes no sense.
    pub fn usage(line: impl Into<String>) -> Stop {
        Stop { status: USAGE, line: line.into() }
    }

    /// The file can't be read, by the system's reason.
    pub fn unreadable(file: &OsStr, reason: &io::Error) -> Stop {
        Stop { status: UNREADABLE, line: format!("{} can't be read: {reason}", shown(file)) }
    }

    /// The file can't be made, by the system's reason or the tool's own.
    pub fn unwritable(file: &Path, reason: impl std::fmt::Display) -> Stop {
        Stop { status: UNWRITABLE, line: format!("{} can't be made: {reason}", shown(file.as_os_str())) }
    }

    /// The library's refusal, and what was wrong.
    pub fn refused(answer: Answer, why: &str) -> Stop {
        Stop { status: answer.number() as u8, line: format!("refused, {}: {why}", answer.number()) }
    }

    /// Steps of the tour had other answers than they must have.
    pub fn astray(line: impl Into<String>) -> Stop {
        Stop { status: ASTRAY, line: line.into() }
    }
}

/// A word of the command line as it may be shown: on one line, and with nothing that steers a terminal.
pub fn shown(word: &OsStr) -> String {
    word.to_string_lossy().chars().map(|c| if c.is_control() { '?' } else { c }).collect()
}
