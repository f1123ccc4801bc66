//! Why the byte-level functions refuse an input.

use std::fmt;

/// A refused input. Nothing is computed for a refused input, and no input makes this library panic.
#[derive(Clone, Copy, Debug, PartialEq, Eq)]
pub enum Error {
    /// The set number is outside 1 to 12.
    UnknownSet,
    /// A caller's own row breaks the relations that `Params::check` demands.
    Row,
    /// SK.seed, SK.prf or PK.seed is not n bytes.
    SeedLength,
    /// The secret key is not 4n bytes.
    SecretKeyLength,
    /// The public key is not 2n bytes.
    PublicKeyLength,
    /// The additional randomness, or the randomizer R, is not n bytes.
    RandomizerLength,
    /// The context is longer than 255 bytes.
    ContextLength,
    /// The pre-hash digest does not have its hash's length, or the message digest is not m bytes.
    DigestLength,
    /// The pre-hash function is too weak for the set's n (FIPS 205, section 10.2.2).
    HashTooWeak,
    /// The seal does not have the set's length.
    SealLength,
    /// The chain value is not n bytes.
    ValueLength,
    /// The bytes are fewer than the digits need, or the digit width is outside 1 to 24.
    Digits,
    /// The seal has no part of that number.
    NoSuchPart,
    /// A caller's own hash family answered with a wrong number of bytes.
    FamilyLength,
}

impl fmt::Display for Error {
    fn fmt(&self, f: &mut fmt::Formatter<'_>) -> fmt::Result {
        f.write_str(match self {
            Error::UnknownSet => "set number outside 1 to 12",
            Error::Row => "parameter row breaks the standard's relations",
            Error::SeedLength => "seed length is not n",
            Error::SecretKeyLength => "secret key length is not 4n",
            Error::PublicKeyLength => "public key length is not 2n",
            Error::RandomizerLength => "randomizer length is not n",
            Error::ContextLength => "context longer than 255 bytes",
            Error::DigestLength => "digest length is not its hash's",
            Error::HashTooWeak => "pre-hash too weak for the set",
            Error::SealLength => "seal length is not the set's",
            Error::ValueLength => "chain value length is not n",
            Error::Digits => "too few bytes for the digits, or width outside 1 to 24",
            Error::NoSuchPart => "seal part number above d + 1",
            Error::FamilyLength => "hash family answered with a wrong length",
        })
    }
}

impl std::error::Error for Error {}
