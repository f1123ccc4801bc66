//! A row small enough to be worked out by a proof checker, with a stand-in hash: the numbers below stand in
//! `crates/sample/proofs/Sample.antt` too, where the definitions are proved to give them.

mod common;

use common::ByLetter;
use second::sets::Params;
use second::{plain_frame, Call, Kind, Log, Scheme};

static STAND_IN: ByLetter = ByLetter(hash);

/// Each byte is stirred into a number below 2^31 - 1.
fn stir(bytes: &[u8]) -> u64 {
    bytes.iter().fold(1, |acc, byte| (acc * 48_271 + u64::from(*byte) + 1) % 2_147_483_647)
}

/// The last bytes of the stirred number times itself, times a constant, big-endian.
fn hash(letter: u8, parts: &[&[u8]], length: usize) -> Vec<u8> {
    let stirred = u128::from(stir(&[&[letter][..], &parts.concat()].concat()));
    let bytes = (stirred * stirred * 16_777_619).to_be_bytes();
    bytes[bytes.len() - length..].to_vec()
}

/// A list of calls as bytes: of each its letter, its address and its input.
fn told(calls: &[Call]) -> Vec<u8> {
    let letter = |kind| match kind {
        Kind::F => b'F',
        Kind::H => b'H',
        Kind::T => b'T',
        Kind::SecretValue => b'S',
        Kind::Randomizer => b'R',
        Kind::Digest => b'D',
    };
    calls.iter().flat_map(|call| [&[letter(call.kind)][..], &call.address, &call.input].concat()).collect()
}

#[test]
fn a_small_row_gives_the_numbers_of_the_definitions() {
    // n, h, d, h', a, k, m: n = 9 is the least n whose checksum needs three digits.
    let scheme = Scheme::of_row(Params::new(9, 4, 2, 2, 2, 3, 3), &STAND_IN).unwrap();
    let mut made = Log::counting();
    let (public, secret) = scheme.keygen(&mut made, &[1; 9], &[2; 9], &[3; 9]).unwrap();
    let message = plain_frame(b"Ski", b"").unwrap();
    let mut sealing = Log::recording();
    let seal = scheme.sign_internal(&mut sealing, &message, &secret, None).unwrap();
    let hedged = scheme.sign_internal(&mut made, &message, &secret, Some(&[4; 9])).unwrap();
    let mut checking = Log::recording();
    let verdict = scheme.check_internal(&mut checking, &message, &seal, &public).unwrap();
    assert!(verdict.accepted);
    let tally = verdict.tally;
    let got = [
        stir(&public),
        stir(&secret),
        stir(&seal),
        stir(&hedged),
        stir(&told(sealing.calls())),
        stir(&told(checking.calls())),
        sealing.calls().len() as u64,
        tally.f,
        tally.h,
        tally.t,
        tally.digest,
    ];
    let definitions = [1654757209, 1356366303, 805950077, 1807314371, 575780735, 526781948, 2555, 348, 10, 3, 1];
    assert_eq!(got, definitions);
}
