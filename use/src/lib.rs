//! Seals of SLH-DSA (FIPS 205) from the proved library `crates/face`, for Rust programs.
//!
//! Every decision is the library's: which set numbers and lengths are legal, which refusal comes first, what is
//! written. This crate lends it buffers of the lengths in [`SETS`] and gives back its answers. `include/skimdral.h` is
//! the same library for C, and the program `skimdral` is the same for the command line.
//!
//! ```
//! use skimdral::{check, make_keys, seal, Answer};
//!
//! let keys = make_keys(2, &[1; 16], &[2; 16], &[3; 16])?;
//! let sealed = seal(2, &keys.secret, b"observations", &[])?;
//! assert_eq!(check(2, &keys.public, b"observations", &sealed).answer, Answer::Done);
//! assert_eq!(check(2, &keys.public, b"", &sealed).answer, Answer::RootDiffers);
//! # Ok::<(), Answer>(())
//! ```

#![deny(unsafe_code)]
#![warn(missing_docs)]

mod answer;

mod sets;

#[allow(unsafe_code)]
pub mod face;

mod operations;

pub use answer::Answer;
pub use operations::{check, digits, make_keys, part, part_range, seal, Keys, Verdict};
pub use sets::{Set, MESSAGE_LIMIT, SETS};
