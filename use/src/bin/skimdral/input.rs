//! Reading inputs, none further than a legal one can reach.

use crate::stop::Stop;
use skimdral::MESSAGE_LIMIT;
use std::ffi::OsStr;
use std::fs::File;
use std::io::{self, Read};

/// No key, seed or seal is longer than a message may be, so a longer input is as illegal as its beginning.
pub const LIMIT: usize = MESSAGE_LIMIT;

/// Stands for standard input or output in the place of a file.
pub const STANDARD: &str = "-";

/// The bytes of a file, or of standard input for `-`, but at most one more than the limit.
pub fn read(file: &OsStr) -> Result<Vec<u8>, Stop> {
    let bytes = if file == STANDARD { bounded(io::stdin()) } else { File::open(file).and_then(bounded) };
    bytes.map_err(|reason| Stop::unreadable(file, &reason))
}

fn bounded(source: impl Read) -> io::Result<Vec<u8>> {
    let mut bytes = Vec::new();
    source.take(LIMIT as u64 + 1).read_to_end(&mut bytes)?;
    Ok(bytes)
}

/// Standard input can be read once.
pub fn one_standard(files: &[&OsStr]) -> Result<(), Stop> {
    match files.iter().filter(|file| **file == STANDARD).count() {
        0 | 1 => Ok(()),
        _ => Err(Stop::usage("only one input can be -, standard input")),
    }
}
