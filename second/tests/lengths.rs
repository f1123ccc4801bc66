//! Every public function refuses every wrong length and every unknown set, and none panics.

mod common;

use common::Random;
use second::address::Address;
use second::*;

/// Unknown on both sides of the known ones.
const NUMBERS: std::ops::RangeInclusive<u32> = 0..=14;

/// Lengths of seeds and keys of all sets, one off them, and some far off.
const LENGTHS: [usize; 26] =
    [0, 1, 15, 16, 17, 23, 24, 25, 31, 32, 33, 47, 48, 49, 63, 64, 65, 95, 96, 97, 127, 128, 129, 255, 256, 1000];

const CONTEXTS: [usize; 4] = [0, 255, 256, 1000];

/// The row of a number, and a row of the smallest set to choose lengths by where there is none.
fn row(set: u32) -> (bool, &'static Set) {
    match SETS.iter().find(|row| row.number == set) {
        Some(row) => (true, row),
        None => (false, &SETS[0]),
    }
}

fn zeros(length: usize) -> Vec<u8> {
    vec![0; length]
}

#[test]
fn keygen_lengths() {
    for set in NUMBERS {
        let (known, row) = row(set);
        for a in LENGTHS {
            for b in LENGTHS {
                for c in LENGTHS {
                    if known && [a, b, c] == [row.params.n; 3] {
                        continue; // a legal request, run elsewhere
                    }
                    let expected = if known { Error::SeedLength } else { Error::UnknownSet };
                    assert_eq!(keygen(set, &zeros(a), &zeros(b), &zeros(c)), Err(expected), "{set} {a} {b} {c}");
                }
            }
        }
    }
}

fn is_refusal<T: std::fmt::Debug>(answer: Result<T, Error>, known: bool, expected: &[Error], what: &str) {
    let error = answer.expect_err(what);
    let expected = if known { expected } else { &[Error::UnknownSet] };
    assert!(expected.contains(&error), "{what}: {error:?}");
}

#[test]
fn signing_lengths() {
    for set in NUMBERS {
        let (known, row) = row(set);
        for secret in LENGTHS {
            for random in LENGTHS.map(Some).into_iter().chain([None]) {
                let right_random = random.is_none_or(|length| length == row.params.n);
                let both_right = secret == row.secret_key && right_random;
                let what = format!("set {set}, secret key {secret}, randomizer {random:?}");
                let expected = [Error::SecretKeyLength, Error::RandomizerLength];
                let (sk, random) = (zeros(secret), random.map(zeros));
                let addrnd = random.as_deref();
                if !known || !both_right {
                    is_refusal(sign_internal(set, b"m", &sk, addrnd), known, &expected, &what);
                    is_refusal(sign(set, b"m", b"c", &sk, addrnd), known, &expected, &what);
                    let hashed = hash_sign(set, b"m", b"c", PreHash::Sha512, &sk, addrnd);
                    is_refusal(hashed, known, &expected, &what);
                }
                if !known || !both_right || addrnd.is_none() {
                    let r = addrnd.unwrap_or(b"");
                    is_refusal(sign_with_randomizer(set, b"m", &sk, r), known, &expected, &what);
                }
            }
        }
        let sk = zeros(row.secret_key);
        for context in [256, 257, 65_536] {
            let ctx = zeros(context);
            is_refusal(sign(set, b"m", &ctx, &sk, None), known, &[Error::ContextLength], "context");
            let hashed = hash_sign(set, b"m", &ctx, PreHash::Shake256, &sk, None);
            is_refusal(hashed, known, &[Error::ContextLength], "context");
        }
    }
}

/// All checking functions on one choice of lengths: right ones give a verdict, which is a rejection here.
fn checking_answers(set: u32, seal: usize, public: usize, context: usize) -> [Result<bool, Error>; 6] {
    let (s, pk, ctx) = (zeros(seal), zeros(public), zeros(context));
    [
        verify(set, b"m", &s, &ctx, &pk),
        check(set, b"m", &s, &ctx, &pk).map(|verdict| verdict.accepted),
        hash_verify(set, b"m", &s, &ctx, PreHash::Sha512, &pk),
        hash_check(set, b"m", &s, &ctx, PreHash::Shake256, &pk).map(|verdict| verdict.accepted),
        verify_internal(set, b"m", &s, &pk),
        check_internal_with_calls(set, b"m", &s, &pk).map(|(verdict, _)| verdict.accepted),
    ]
}

#[test]
fn checking_lengths() {
    for set in NUMBERS {
        let (known, row) = row(set);
        let mut seals = vec![0, 1, row.params.n, row.seal - 1, row.seal, row.seal + 1, 2 * row.seal, 65_536];
        seals.extend(SETS.iter().map(|other| other.seal));
        for &seal in &seals {
            for public in LENGTHS {
                for context in CONTEXTS {
                    let answers = checking_answers(set, seal, public, context);
                    let right = seal == row.seal && public == row.public_key;
                    for (i, answer) in answers.into_iter().enumerate() {
                        let what = format!("function {i}, set {set}, {seal}, {public}, {context}");
                        let takes_context = i < 4;
                        if known && right && (!takes_context || context <= 255) {
                            assert_eq!(answer, Ok(false), "{what}");
                        } else {
                            let expected = [Error::SealLength, Error::PublicKeyLength, Error::ContextLength];
                            is_refusal(answer, known, &expected, &what);
                        }
                    }
                }
            }
        }
    }
}

/// With everything else right, a wrong seal length is the seal's error, before any call.
#[test]
fn a_wrong_seal_length_is_named() {
    for set in &SETS {
        for length in [0, set.seal - 1, set.seal + 1] {
            let mut log = Log::recording();
            let scheme = Scheme::of_set(set.number).unwrap();
            let answer = scheme.check_internal(&mut log, b"m", &zeros(length), &zeros(set.public_key));
            assert_eq!(answer, Err(Error::SealLength), "{}", set.name);
            assert_eq!((log.tally(), log.calls().len()), (Tally::default(), 0), "{}", set.name);
        }
    }
}

#[test]
fn weak_pre_hashes() {
    for set in NUMBERS {
        let (known, row) = row(set);
        for ph in [PreHash::Sha256, PreHash::Shake128] {
            let sealed = hash_sign(set, b"m", b"", ph, &zeros(row.secret_key - 1), None);
            let checked = hash_verify(set, b"m", &zeros(row.seal), b"", ph, &zeros(row.public_key));
            match (known, row.params.n) {
                (false, _) => {
                    assert_eq!((sealed, checked), (Err(Error::UnknownSet), Err(Error::UnknownSet)));
                }
                (true, 16) => assert_eq!((sealed, checked), (Err(Error::SecretKeyLength), Ok(false))),
                (true, _) => assert_eq!((sealed, checked), (Err(Error::HashTooWeak), Err(Error::HashTooWeak))),
            }
        }
    }
}

#[test]
fn readings() {
    for set in NUMBERS.chain([255, 256, u32::MAX]) {
        let (known, row) = row(set);
        for length in 0..=130 {
            let (value, found) = (zeros(length), chain_digits(set, &zeros(length)));
            if known && length == row.params.n {
                assert_eq!(found.map(|digits| digits.len()), Ok(2 * length + 3));
            } else {
                is_refusal(found, known, &[Error::ValueLength], "chain digits");
            }
            if known && length == row.params.m {
                assert!(place(set, &value).is_ok());
            } else {
                is_refusal(place(set, &value), known, &[Error::DigestLength], "place");
            }
            if known && length < row.params.d + 2 {
                assert!(seal_part(set, length).is_ok());
            } else {
                is_refusal(seal_part(set, length), known, &[Error::NoSuchPart], "part");
            }
        }
        assert_eq!(seal_parts(set).is_ok(), known);
        assert_eq!(Scheme::of_set(set).is_ok(), known);
    }
}

#[test]
fn digit_demands() {
    for width in (0..=70).chain([u32::MAX]) {
        for count in [0, 1, 2, 7, 8, 9, 100, usize::MAX] {
            for length in 0..=20 {
                let enough = (1..=24).contains(&width) && count <= 100 && width as usize * count <= 8 * length;
                let found = digits(&zeros(length), width, count);
                let expected = if enough { Ok(vec![0; count]) } else { Err(Error::Digits) };
                assert_eq!(found, expected, "width {width}, count {count}, {length} bytes");
            }
        }
    }
}

#[test]
fn frame_demands() {
    for context in 0..=300 {
        assert_eq!(plain_frame(b"m", &zeros(context)).is_ok(), context <= 255, "context {context}");
        for ph in PreHash::ALL {
            for digest in [0, 31, 32, 33, 63, 64, 65] {
                let expected = context <= 255 && digest == ph.digest_length();
                assert_eq!(pre_hash_frame(&zeros(digest), &zeros(context), ph).is_ok(), expected);
            }
        }
    }
}

/// A family whose answers all have one length, whatever is asked.
struct Constant(usize);

impl Family for Constant {
    fn h_msg(&self, _: &Params, _: &[u8], _: &[u8], _: &[u8], _: &[u8]) -> Vec<u8> {
        zeros(self.0)
    }
    fn prf(&self, _: &Params, _: &[u8], _: &[u8], _: &Address) -> Vec<u8> {
        zeros(self.0)
    }
    fn prf_msg(&self, _: &Params, _: &[u8], _: &[u8], _: &[u8]) -> Vec<u8> {
        zeros(self.0)
    }
    fn f(&self, _: &Params, _: &[u8], _: &Address, _: &[u8]) -> Vec<u8> {
        zeros(self.0)
    }
    fn h(&self, _: &Params, _: &[u8], _: &Address, _: &[u8]) -> Vec<u8> {
        zeros(self.0)
    }
    fn t(&self, _: &Params, _: &[u8], _: &Address, _: &[u8]) -> Vec<u8> {
        zeros(self.0)
    }
}

#[test]
fn a_family_of_a_wrong_length_is_refused() {
    // n = m = 3, so that a family of one length can be right: 2 + 2 bits of place and 3 bits of forest.
    let params = Params::new(3, 4, 2, 2, 3, 1, 3);
    for length in [0, 1, 2, 3, 4, 100] {
        let family = Constant(length);
        let scheme = Scheme::of_row(params, &family).unwrap();
        let mut log = Log::counting();
        let right = length == 3;
        let sealed = scheme.sign_internal(&mut log, b"m", &zeros(12), None);
        let keys = scheme.keygen(&mut log, &zeros(3), &zeros(3), &zeros(3));
        let checked = scheme.check_internal(&mut log, b"m", &zeros(scheme.seal_length()), &zeros(6));
        assert_eq!(sealed.err(), if right { None } else { Some(Error::FamilyLength) }, "length {length}");
        assert_eq!(keys.err(), if right { None } else { Some(Error::FamilyLength) }, "length {length}");
        assert_eq!(checked.err(), if right { None } else { Some(Error::FamilyLength) }, "length {length}");
    }
}

/// Lengths and bytes at random, on the functions that are quick whatever comes.
#[test]
fn random_requests_never_panic() {
    let mut random = Random(7);
    for _ in 0..2000 {
        let set = random.below(16) as u32;
        let (_, row) = row(set);
        let lengths = [row.seal, row.seal + 1, 0, random.below(60_000)];
        let seal_length = lengths[random.below(4)];
        let seal = random.bytes(seal_length);
        let public_length = [row.public_key, random.below(100)][random.below(2)];
        let public = random.bytes(public_length);
        let context_length = random.below(300);
        let context = random.bytes(context_length);
        let message_length = random.below(500);
        let message = random.bytes(message_length);
        let answer = check(set, &message, &seal, &context, &public);
        assert!(answer.is_err() || !answer.unwrap().accepted, "random bytes were accepted");
        let _ = chain_digits(set, &public);
        let _ = place(set, &public);
        let _ = digits(&public, random.below(40) as u32, random.below(200));
    }
}

#[test]
fn errors_say_what_is_wrong() {
    let errors = [
        Error::UnknownSet,
        Error::Row,
        Error::SeedLength,
        Error::SecretKeyLength,
        Error::PublicKeyLength,
        Error::RandomizerLength,
        Error::ContextLength,
        Error::DigestLength,
        Error::HashTooWeak,
        Error::SealLength,
        Error::ValueLength,
        Error::Digits,
        Error::NoSuchPart,
        Error::FamilyLength,
    ];
    let mut texts = errors.map(|error| error.to_string()).to_vec();
    texts.sort();
    texts.dedup();
    assert_eq!(texts.len(), errors.len(), "no two errors read alike");
}
