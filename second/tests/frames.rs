//! The plain and the pre-hash frame.

mod common;

use common::{unhex, Random};
use second::*;

#[test]
fn plain_frames() {
    assert_eq!(plain_frame(b"abc", b"").unwrap(), b"\x00\x00abc");
    assert_eq!(plain_frame(b"abc", b"xy").unwrap(), b"\x00\x02xyabc");
    assert_eq!(plain_frame(b"", b"").unwrap(), b"\x00\x00");
    let longest = plain_frame(b"m", &[7; 255]).unwrap();
    assert_eq!((longest.len(), longest[1], longest[256], longest[257]), (258, 255, 7, b'm'));
}

/// The digests of "abc" come from Python's hashlib, the identifiers from algorithm 23.
#[test]
fn pre_hash_frames() {
    let digests = [
        "ba7816bf8f01cfea414140de5dae2223b00361a396177a9cb410ff61f20015ad",
        "ddaf35a193617abacc417349ae20413112e6fa4e89a97ea20a9eeee64b55d39a\
         2192992a274fc1a836ba3c23a3feebbd454d4423643ce80e2a9ac94fa54ca49f",
        "5881092dd818bf5cf8a3ddb793fbcba74097d5c526a6d35f97b83351940f2cc8",
        "483366601360a8771c6863080cc4114d8db44530f8f1e1ee4f94ea37e78b5739\
         d5a15bef186a5386c75744c0527e1faa9f8726e462a12a4feb06bd8801e751e4",
    ];
    let identifiers =
        ["0609608648016503040201", "0609608648016503040203", "060960864801650304020b", "060960864801650304020c"];
    for ((ph, digest), identifier) in PreHash::ALL.into_iter().zip(digests).zip(identifiers) {
        assert_eq!(ph.digest(b"abc"), unhex(digest), "{ph:?}");
        assert_eq!(ph.digest_length(), unhex(digest).len());
        let expected = [unhex("0102"), b"xy".to_vec(), unhex(identifier), unhex(digest)].concat();
        assert_eq!(pre_hash_frame(&ph.digest(b"abc"), b"xy", ph).unwrap(), expected, "{ph:?}");
    }
}

/// The pre-hash functions are the internal ones over the frame, and a seal of one frame is not one of another.
#[test]
fn pre_hashed_seals() {
    let mut random = Random(50);
    for set in [2, 8] {
        let [a, b, c] = [0; 3].map(|_| random.bytes(16));
        let (public, secret) = keygen(set, &a, &b, &c).unwrap();
        for ph in PreHash::ALL {
            let seal = hash_sign(set, b"message", b"ctx", ph, &secret, Some(&a)).unwrap();
            let framed = pre_hash_frame(&ph.digest(b"message"), b"ctx", ph).unwrap();
            assert_eq!(sign_internal(set, &framed, &secret, Some(&a)).unwrap(), seal, "{ph:?}");
            assert_eq!(hash_verify(set, b"message", &seal, b"ctx", ph, &public), Ok(true), "{ph:?}");
            assert_eq!(hash_verify(set, b"messagE", &seal, b"ctx", ph, &public), Ok(false), "{ph:?}");
            assert_eq!(hash_verify(set, b"message", &seal, b"ct", ph, &public), Ok(false), "{ph:?}");
            assert_eq!(verify(set, b"message", &seal, b"ctx", &public), Ok(false), "{ph:?}");
            for other in PreHash::ALL.into_iter().filter(|other| *other != ph) {
                assert_eq!(hash_verify(set, b"message", &seal, b"ctx", other, &public), Ok(false), "{ph:?}");
            }
        }
    }
}

#[test]
fn a_pre_hashed_seal_of_a_larger_set() {
    for (set, ph) in [(4, PreHash::Shake256), (10, PreHash::Sha512)] {
        let (public, secret) = keygen(set, &[1; 24], &[2; 24], &[3; 24]).unwrap();
        let seal = hash_sign(set, b"message", b"", ph, &secret, None).unwrap();
        assert_eq!(hash_verify(set, b"message", &seal, b"", ph, &public), Ok(true));
    }
}
