//! The answers of the operations, with the numbers that the scope gives them.

use std::fmt;

/// An answer. Where several apply, the library gives the one with the smallest number.
#[derive(Clone, Copy, Debug, PartialEq, Eq)]
#[repr(u32)]
pub enum Answer {
    /// The outputs are written in full; for a check: the seal is accepted.
    Done = 0,
    /// There is no set of that number.
    UnknownSet = 1,
    /// A seed, key, value or randomizer input has a length that the set doesn't allow.
    InputLength = 2,
    /// The message is longer than [`MESSAGE_LIMIT`](crate::MESSAGE_LIMIT).
    MessageLength = 3,
    /// An output buffer or list, or a presented seal, hasn't exactly its length.
    SealLength = 4,
    /// Of a check alone: the recomputed root differs from the key's.
    RootDiffers = 5,
    /// Of part reading alone: the seal has no part of that number.
    UnknownPart = 6,
}

impl Answer {
    /// All answers; each stands at its number.
    pub const ALL: [Answer; 7] = [
        Answer::Done,
        Answer::UnknownSet,
        Answer::InputLength,
        Answer::MessageLength,
        Answer::SealLength,
        Answer::RootDiffers,
        Answer::UnknownPart,
    ];

    /// The answer of that number.
    pub fn of(number: u32) -> Option<Answer> {
        Answer::ALL.get(usize::try_from(number).ok()?).copied()
    }

    /// The answer's number.
    pub fn number(self) -> u32 {
        self as u32
    }

    /// What the answer says, in words.
    pub fn sentence(self) -> &'static str {
        match self {
            Answer::Done => "done, or accepted",
            Answer::UnknownSet => "there is no set of that number",
            Answer::InputLength => "a seed, key, value or randomizer input has a length that the set doesn't allow",
            Answer::MessageLength => "the message is longer than 65,536 bytes",
            Answer::SealLength => "an output, or the seal presented, hasn't exactly the set's length",
            Answer::RootDiffers => "the recomputed root differs from the key's",
            Answer::UnknownPart => "the seal has no part of that number",
        }
    }
}

impl fmt::Display for Answer {
    fn fmt(&self, f: &mut fmt::Formatter<'_>) -> fmt::Result {
        write!(f, "{}: {}", self.number(), self.sentence())
    }
}

impl std::error::Error for Answer {}
