//! What `crates/vectors` must write when it is run: its operations, in its order, worked out here.

mod common;

use common::hex;
use second::keccak::shake256;
use second::{chain_digits, check, keygen, seal_part, sign};

/// A line of the program: the answer, a number, and SHAKE256 of bytes.
fn line(answer: u32, number: usize, bytes: &[u8]) -> String {
    format!("{answer} {number} {}\n", hex(&shake256(bytes, 32)))
}

/// What an operation wrote, or handed out.
fn written(bytes: &[u8]) -> String {
    line(0, bytes.len(), bytes)
}

/// A check of a seal of the right length, whose verdict must be this one.
fn checked(accepted: bool, public: &[u8], seal: &[u8]) -> String {
    let verdict = check(2, b"abc", seal, b"", public).expect("legal lengths");
    assert_eq!(verdict.accepted, accepted);
    line(if accepted { 0 } else { 5 }, verdict.tally.f as usize, seal)
}

fn expected() -> String {
    let [first, (public, secret)] = [1, 2].map(|set| keygen(set, &[1; 16], &[2; 16], &[3; 16]).expect("legal seeds"));
    let seal = |random: Option<&[u8]>| sign(2, b"abc", b"", &secret, random).expect("legal lengths");
    let (plain, hedged) = (seal(None), seal(Some(&[4; 16])));
    let (start, length) = seal_part(2, 1).expect("a part");
    let mut flipped = hedged.clone();
    flipped[0] ^= 255;
    let value = [0x57; 16];
    let digits = chain_digits(2, &value).expect("a value");
    [
        written(&first.0),
        written(&first.1),
        written(&public),
        written(&secret),
        written(&plain),
        checked(true, &public, &plain),
        written(&hedged),
        checked(true, &public, &hedged),
        written(&hedged[start..start + length]),
        line(4, 0, &hedged[..hedged.len() / 2]),
        checked(false, &public, &flipped),
        line(0, digits[33] as usize, &value),
        line(1, 0, &value),
    ]
    .concat()
}

#[test]
fn what_the_desk_writes_as_a_program() {
    assert_eq!(include_str!("../../crates/vectors/stdout"), expected());
}
