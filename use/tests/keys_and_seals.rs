//! Keys and seals equal the second program's byte for byte, and are accepted.

mod common;

use common::{emulated, soak, thin, Random};
use skimdral::{check, make_keys, seal, Answer, Keys, Set, Verdict, MESSAGE_LIMIT};

/// Framed, a message has two bytes more. R's hash has 32 bytes before it and the digest's has 48, so these lengths lie
/// around the edges of the first and second block of 136 bytes of each.
const EDGES: [usize; 12] = [84, 85, 86, 87, 100, 101, 102, 103, 221, 222, 237, 238];

/// A key pair by the library, which must be the second program's.
fn keys(set: u32, seeds: [&[u8]; 3]) -> Keys {
    let keys = make_keys(set, seeds[0], seeds[1], seeds[2]).expect("legal seeds");
    let (public, secret) = second::keygen(set, seeds[0], seeds[1], seeds[2]).expect("legal seeds");
    assert!(keys.public == public && keys.secret == secret, "set {set}: another key pair");
    keys
}

/// Three seeds of 16 bytes at random.
fn seeds(random: &mut Random) -> [Vec<u8>; 3] {
    [0; 3].map(|_| random.bytes(16))
}

/// Seals by the library, which must write what the second program writes and accept it, with as many F calls.
fn compare(set: u32, keys: &Keys, message: &[u8], random: &[u8]) {
    let sealed = seal(set, &keys.secret, message, random).expect("legal arguments");
    let addrnd = if random.is_empty() { None } else { Some(random) };
    let expected = second::sign(set, message, &[], &keys.secret, addrnd).expect("legal arguments");
    let what = format!("set {set}, {} bytes of message, {} of randomizer input", message.len(), random.len());
    assert!(sealed == expected, "{what}: another seal");
    let tally = second::check(set, message, &expected, &[], &keys.public).expect("legal arguments").tally;
    let accepted = Verdict { answer: Answer::Done, f_calls: tally.f as u32 };
    assert_eq!(check(set, &keys.public, message, &sealed), accepted, "{what}");
}

fn random_keys(set: u32, random: &mut Random) -> Keys {
    let [a, b, c] = seeds(random);
    keys(set, [&a, &b, &c])
}

/// Hedged and deterministic seals by turns, so that each set meets both at both ends of the lengths.
fn seals_of(set: u32, lengths: &[usize], random: &mut Random) {
    for _ in 0..soak() {
        let keys = random_keys(set, random);
        for (i, &length) in lengths.iter().step_by(thin()).enumerate() {
            let message = random.bytes(length);
            let hedge = random.bytes(if i % 2 == 0 { 0 } else { 16 });
            compare(set, &keys, &message, &hedge);
        }
    }
}

/// Sealing under set 1 takes seconds, so few lengths are there, each once.
#[test]
fn seals_of_set_1() {
    let lengths: &[usize] = if emulated() { &[] } else { &[0, 86, MESSAGE_LIMIT] };
    seals_of(1, lengths, &mut Random::of_test(1));
}

#[test]
fn seals_of_set_2() {
    let random = &mut Random::of_test(2);
    let lengths = [&[0, 0, 1, 1], &EDGES[..], &EDGES[1..], &[1000, MESSAGE_LIMIT - 1, MESSAGE_LIMIT, MESSAGE_LIMIT]];
    seals_of(2, &lengths.concat(), random);
}

/// Sixteen zero bytes are an input like any other: not the public seed, which stands in for none.
#[test]
fn zeros_and_the_public_seed_as_randomizer_input() {
    let random = &mut Random::of_test(3);
    let keys = random_keys(2, random);
    let public_seed = keys.public[..16].to_vec();
    compare(2, &keys, b"m", &[0; 16]);
    compare(2, &keys, b"m", &public_seed);
    let sealed = |random: &[u8]| seal(2, &keys.secret, b"m", random).expect("legal arguments");
    assert!(sealed(&[0; 16]) != sealed(&[]));
    assert!(sealed(&public_seed) == sealed(&[]));
}

#[test]
fn key_pairs() {
    let random = &mut Random::of_test(4);
    for (set, count) in [(1, 3), (2, 30)] {
        for _ in 0..(count * soak()).div_ceil(thin()) {
            random_keys(set, random);
        }
        for same in [[0; 16], [0xff; 16]] {
            keys(set, [&same; 3]);
        }
    }
}

/// Sealing doesn't test the root in a secret key, and a key carries no set number: any 64 bytes are a legal input.
#[test]
fn any_secret_key() {
    let random = &mut Random::of_test(5);
    let of_set_1 = random_keys(1, random).secret;
    for secret in [random.bytes(64), vec![0; 64], of_set_1] {
        let sealed = seal(2, &secret, b"m", &[]).expect("legal arguments");
        assert!(sealed == second::sign(2, b"m", &[], &secret, None).expect("legal arguments"));
        let public = &secret[32..];
        let verdict = second::check(2, b"m", &sealed, &[], public).expect("legal arguments");
        assert!(!verdict.accepted);
        let expected = Verdict { answer: Answer::RootDiffers, f_calls: verdict.tally.f as u32 };
        assert_eq!(check(2, public, b"m", &sealed), expected);
    }
}

/// The outputs' lengths come from the binding's table; a seal of each set is as long as it says.
#[test]
fn lengths_of_outputs() {
    let random = &mut Random::of_test(6);
    for set in [1, 2] {
        let keys = random_keys(set, random);
        let row = Set::of(set).expect("a set");
        assert_eq!((keys.public.len(), keys.secret.len()), (row.public_key, row.secret_key));
        assert!(!format!("{keys:?}").contains("secret: ["), "a secret key is shown");
    }
}
