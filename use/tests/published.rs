//! Published cases, with `stored.rs` all that can be run with an empty context: NIST's key pairs and its seals of
//! another length than their set's, and keys and seals by OpenSSL. Where they come from: `second/vectors/README.md`.

mod common;

use common::emulated;
use second::cases::hex;
use second::sha2::sha256;
use skimdral::{check, make_keys, seal, Answer, Set, Verdict};

const CHECKING: [&str; 2] =
    [include_str!("../../second/vectors/checking-01.txt"), include_str!("../../second/vectors/checking-02.txt")];
const KEYS: &str = include_str!("../../second/vectors/keygen.txt");
const OPENSSL: &str = include_str!("../../second/vectors/openssl.txt");

/// The bytes of a field; `-` is none.
fn bytes(field: &str) -> Vec<u8> {
    let digits = if field == "-" { "" } else { field };
    (0..digits.len()).step_by(2).map(|i| u8::from_str_radix(&digits[i..i + 2], 16).expect("hex")).collect()
}

/// A key pair from three seeds, in hex.
fn pair(set: u32, seeds: &[u8]) -> [String; 2] {
    let keys = make_keys(set, &seeds[..16], &seeds[16..32], &seeds[32..]).expect("legal seeds");
    [hex(&keys.public), hex(&keys.secret)]
}

/// An emulator makes those of set 2 alone: `stored.rs` has pairs of set 1.
#[test]
fn key_pairs() {
    let mut count = 0;
    for line in KEYS.lines() {
        let [set, seeds, public, secret] = line.split(' ').collect::<Vec<_>>()[..] else { panic!("four fields") };
        let set = set.parse().expect("a number");
        if set == 2 || set == 1 && !emulated() {
            assert_eq!(pair(set, &bytes(seeds)), [public, secret], "set {set}");
            count += 1;
        }
    }
    assert_eq!(count, if emulated() { 5 } else { 10 });
}

/// Their length is tested before anything else of them, so whatever the context is the answer is 4.
#[test]
fn seals_of_another_length() {
    let mut count = 0;
    for line in CHECKING.iter().flat_map(|text| text.lines()) {
        let [set, _, public, _, message, sealed, verdict] = line.split(' ').collect::<Vec<_>>()[..] else {
            panic!("seven fields")
        };
        let (set, sealed) = (set.parse().expect("a number"), bytes(sealed));
        if sealed.len() != Set::of(set).expect("a set").seal {
            assert_eq!(verdict, "reject");
            let refused = Verdict { answer: Answer::SealLength, f_calls: 0 };
            assert_eq!(check(set, &bytes(public), &bytes(message), &sealed), refused);
            count += 1;
        }
    }
    assert_eq!(count, 9);
}

/// Keys from OpenSSL's seeds are OpenSSL's, and so is the deterministic seal, which is accepted.
#[test]
fn keys_and_seals_of_openssl() {
    let mut sealed = 0;
    for line in OPENSSL.lines() {
        let [set, seeds, public, secret, message, digest] = line.split(' ').collect::<Vec<_>>()[..] else {
            panic!("six fields")
        };
        let (set, seeds, message) = (set.parse().expect("a number"), bytes(seeds), bytes(message));
        assert_eq!(pair(set, &seeds), [public, secret], "set {set}");
        if set == 2 || !emulated() {
            let seal = seal(set, &bytes(secret), &message, &[]).expect("legal arguments");
            assert_eq!(hex(&sha256(&seal)), digest, "set {set}");
            assert_eq!(check(set, &bytes(public), &message, &seal).answer, Answer::Done, "set {set}");
            sealed += 1;
        }
    }
    assert_eq!(sealed, if emulated() { 1 } else { 2 });
}
