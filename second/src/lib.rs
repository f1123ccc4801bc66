//! SLH-DSA (FIPS 205) in ordinary Rust, written from the standard alone.
//!
//! This is a second opinion: it is what another implementation of the same standard is compared with, so it follows the
//! standard's pseudocode line by line and does nothing to be fast. It is for tests only. It takes secrets in the open,
//! clears no memory, and draws no randomness.
//!
//! Most users need the functions by set number (`keygen`, `sign`, `check`, ...). `Scheme` offers the same over a log of
//! calls, and over a caller's own parameter row and hash family. The modules below stand in reading order.

#![forbid(unsafe_code)]
#![warn(missing_docs)]

// What is refused, and the hash functions.
pub mod error;

pub mod keccak;

pub mod sha2;

pub mod hmac;

pub mod mgf1;

// What the standard calls parameters, integers and addresses.
mod digits;

pub mod sets;

pub mod address;

// The six functions, and the log of their calls.
pub mod family;

pub mod calls;

// The standard's algorithms from the chains up.
mod wots;

mod xmss;

mod hypertree;

mod fors;

mod internal;

// The doors for users.
pub mod scheme;

pub mod external;

pub mod bytes;

// Stored cases, for whoever is compared with this.
pub mod cases;

pub use bytes::*;
pub use calls::{Call, Kind, Log, Tally};
pub use error::Error;
pub use external::{plain_frame, pre_hash_frame, PreHash};
pub use family::Family;
pub use internal::Place;
pub use scheme::{digits, Scheme, Verdict};
pub use sets::{Params, Set, SETS};
