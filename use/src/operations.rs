//! The operations with outputs of their own.

use crate::{face, Answer, Set};
use std::fmt;
use std::ops::Range;

/// A key pair.
#[derive(Clone, PartialEq, Eq)]
pub struct Keys {
    /// Public seed and root.
    pub public: Vec<u8>,
    /// Secret seed, prf seed, public seed and root.
    pub secret: Vec<u8>,
}

/// Shows the public key alone.
impl fmt::Debug for Keys {
    fn fmt(&self, f: &mut fmt::Formatter<'_>) -> fmt::Result {
        f.debug_struct("Keys").field("public", &self.public).finish_non_exhaustive()
    }
}

/// What a check found.
#[derive(Clone, Copy, Debug, PartialEq, Eq)]
pub struct Verdict {
    /// `Done` is accepted and `RootDiffers` rejected; every other answer is a refusal.
    pub answer: Answer,
    /// How many F calls the check made; 0 with a refusal.
    pub f_calls: u32,
}

/// Makes a key pair from its three seeds.
pub fn make_keys(set: u32, secret_seed: &[u8], prf_seed: &[u8], public_seed: &[u8]) -> Result<Keys, Answer> {
    let row = Set::of(set);
    let mut public = vec![0; row.map_or(0, |row| row.public_key)];
    let mut secret = vec![0; row.map_or(0, |row| row.secret_key)];
    done(face::make_keys(set, secret_seed, prf_seed, public_seed, &mut public, &mut secret))?;
    Ok(Keys { public, secret })
}

/// Seals a message. `random` is mixed into the seal's randomizer; with no bytes the public seed stands in, and the same
/// key and message give the same seal.
pub fn seal(set: u32, secret_key: &[u8], message: &[u8], random: &[u8]) -> Result<Vec<u8>, Answer> {
    let mut seal = vec![0; Set::of(set).map_or(0, |row| row.seal)];
    done(face::seal(set, secret_key, message, random, &mut seal))?;
    Ok(seal)
}

/// Checks a seal of a message under a public key.
pub fn check(set: u32, public_key: &[u8], message: &[u8], seal: &[u8]) -> Verdict {
    let mut f_calls = 0;
    let answer = answer(face::check(set, public_key, message, seal, &mut f_calls));
    Verdict { answer, f_calls }
}

/// A part of a seal as it lies there: 0 is the randomizer, 1 the forest, 2 + j layer j.
pub fn part(set: u32, seal: &[u8], number: u32) -> Result<&[u8], Answer> {
    Ok(&seal[part_range(set, seal, number)?])
}

/// Where a part of a seal lies.
pub fn part_range(set: u32, seal: &[u8], number: u32) -> Result<Range<usize>, Answer> {
    let (mut start, mut length) = (0, 0);
    done(face::part(set, seal, number, &mut start, &mut length))?;
    Ok(start..start + length)
}

/// The chain digits of a value, checksum digits last.
pub fn digits(set: u32, value: &[u8]) -> Result<Vec<u32>, Answer> {
    let mut digits = vec![0; Set::of(set).map_or(0, |row| row.digits)];
    done(face::digits(set, value, &mut digits))?;
    Ok(digits)
}

fn done(number: u32) -> Result<(), Answer> {
    match answer(number) {
        Answer::Done => Ok(()),
        refusal => Err(refusal),
    }
}

/// The library is proved to give a number of the table, so another one means that another library was linked.
fn answer(number: u32) -> Answer {
    Answer::of(number).unwrap_or_else(|| panic!("the library answered {number}, which no operation does"))
}
