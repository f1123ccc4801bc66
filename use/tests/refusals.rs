//! The whole matrix of sets and lengths of every operation: each answer is the scope's, and every byte of every buffer
//! and of the fences around it is what it must be. Legal keys and seals are compared in `keys_and_seals.rs`.

mod common;

use common::fenced::Fenced;
use common::paper::{answer, row, Wrong, CHAINS, MESSAGE_LIMIT, SETS};
use common::{emulated, Random};
use skimdral::face;

/// Around the lengths of seeds, values and randomizer inputs.
const SHORT: [usize; 7] = [0, 1, 15, 16, 17, 32, 48];
const PUBLIC: [usize; 5] = [0, 31, 32, 33, 64];
const SECRET: [usize; 5] = [0, 32, 63, 64, 65];
const MESSAGES: [usize; 5] = [0, 1, MESSAGE_LIMIT, MESSAGE_LIMIT + 1, 70_000];
/// Around the seals of both sets.
const SEALS: [usize; 8] = [0, 1, 7855, 7856, 7857, 17087, 17088, 17089];
const DIGITS: [usize; 6] = [0, 1, 32, CHAINS - 1, CHAINS, CHAINS + 1];
const PARTS: [u32; 13] = [0, 1, 2, 7, 8, 9, 10, 22, 23, 24, 25, 0x1_0000, u32::MAX];

type Buffer = Fenced<u8>;

/// A buffer of random bytes between fences.
fn buffer(random: &mut Random, length: usize) -> Buffer {
    Fenced::drawn(random, length, |random| random.next() as u8)
}

/// A buffer of each length, made once: a refusal changes none, so all calls may share them.
fn buffers<const N: usize>(random: &mut Random, lengths: [usize; N]) -> [Buffer; N] {
    lengths.map(|length| buffer(random, length))
}

fn all_unchanged<const N: usize>(buffers: &[&Buffer; N], what: &str) {
    for (i, buffer) in buffers.iter().enumerate() {
        assert!(buffer.is_unchanged(), "{what}: buffer {i} was changed, or a byte beside it");
    }
}

/// A key pair's outputs after the answer 0 are the second program's.
fn keys_are_the_seconds(set: u32, seeds: [&Buffer; 3], outputs: [&mut Buffer; 2]) {
    let [a, b, c] = seeds.map(Buffer::lent);
    let (public, secret) = second::keygen(set, a, b, c).expect("legal seeds");
    for (output, expected) in outputs.into_iter().zip([public, secret]) {
        assert!(output.is(&expected), "set {set}: another key, or a byte beside it was changed");
        let content = output.content.clone();
        output.lent_mut().copy_from_slice(&content);
    }
}

#[test]
fn make_keys() {
    let random = &mut Random::of_test(31);
    let seeds = [0; 3].map(|_| buffers(random, SHORT));
    let (mut publics, mut secrets) = (buffers(random, PUBLIC), buffers(random, SECRET));
    for set in SETS {
        for [a, b, c] in triples(&seeds) {
            for public in &mut publics {
                for secret in &mut secrets {
                    keys_case(set, [a, b, c], public, secret);
                }
            }
        }
    }
}

fn triples(seeds: &[[Buffer; 7]; 3]) -> impl Iterator<Item = [&Buffer; 3]> {
    let [first, second, third] = seeds;
    first.iter().flat_map(move |a| second.iter().flat_map(move |b| third.iter().map(move |c| [a, b, c])))
}

fn keys_case(set: u32, seeds: [&Buffer; 3], public: &mut Buffer, secret: &mut Buffer) {
    let lengths = (seeds.map(|seed| seed.content.len()), public.content.len(), secret.content.len());
    let expected = answer(set, |row| Wrong {
        input: lengths.0 != [row.n; 3],
        output_or_seal: lengths.1 != row.public_key || lengths.2 != row.secret_key,
        ..Wrong::default()
    });
    let [a, b, c] = seeds.map(Buffer::lent);
    let given = face::make_keys(set, a, b, c, public.lent_mut(), secret.lent_mut());
    let what = format!("make_keys, set {set}, lengths {lengths:?}");
    assert_eq!(given, expected, "{what}");
    if expected == 0 {
        keys_are_the_seconds(set, seeds, [public, secret]);
    }
    all_unchanged(&[seeds[0], seeds[1], seeds[2], public, secret], &what);
}

#[test]
fn seal() {
    let random = &mut Random::of_test(32);
    let (secrets, messages, randoms) = (buffers(random, SECRET), buffers(random, MESSAGES), buffers(random, SHORT));
    let mut seals = buffers(random, SEALS);
    for set in SETS {
        for secret in &secrets {
            for message in &messages {
                for hedge in &randoms {
                    for seal in &mut seals {
                        seal_case(set, secret, message, hedge, seal);
                    }
                }
            }
        }
    }
    for buffer in secrets.iter().chain(&messages).chain(&randoms) {
        assert!(buffer.is_unchanged(), "an input was changed");
    }
}

/// A refused sealing; one that is legal would take long, and `keys_and_seals.rs` has those. The message is long, so it
/// is compared once, after all cases.
fn seal_case(set: u32, secret: &Buffer, message: &Buffer, hedge: &Buffer, seal: &mut Buffer) {
    let lengths = [secret, message, hedge, seal].map(|buffer| buffer.content.len());
    let expected = answer(set, |row| Wrong {
        input: lengths[0] != row.secret_key || ![0, row.n].contains(&lengths[2]),
        message: lengths[1] > MESSAGE_LIMIT,
        output_or_seal: lengths[3] != row.seal,
        ..Wrong::default()
    });
    if expected == 0 {
        return;
    }
    let given = face::seal(set, secret.lent(), message.lent(), hedge.lent(), seal.lent_mut());
    let what = format!("seal, set {set}, lengths of key, message, randomizer input, seal {lengths:?}");
    assert_eq!(given, expected, "{what}");
    all_unchanged(&[secret, hedge, seal], &what);
}

/// Legal sealings between fences, at several alignments: the seal is the second program's. One under set 1, which takes
/// seconds.
#[test]
fn legal_seals_between_fences() {
    let random = &mut Random::of_test(33);
    let cases = [(2, 0, 0), (2, 1, 16), (2, 87, 0), (2, 103, 16), (2, 1000, 16), (2, MESSAGE_LIMIT, 0), (1, 300, 16)];
    for (set, message, hedge) in cases.into_iter().filter(|case| case.0 == 2 || !emulated()) {
        let row = row(set).expect("a set");
        let [secret, message, hedge] = [row.secret_key, message, hedge].map(|length| buffer(random, length));
        let mut seal = buffer(random, row.seal);
        assert_eq!(face::seal(set, secret.lent(), message.lent(), hedge.lent(), seal.lent_mut()), 0);
        let addrnd = if hedge.content.is_empty() { None } else { Some(&hedge.content[..]) };
        let expected = second::sign(set, &message.content, &[], &secret.content, addrnd).expect("legal");
        assert!(seal.is(&expected), "another seal, or a byte beside it was changed");
        all_unchanged(&[&secret, &message, &hedge], "a legal sealing");
    }
}

#[test]
fn check() {
    let random = &mut Random::of_test(34);
    let (publics, messages, seals) = (buffers(random, PUBLIC), buffers(random, MESSAGES), buffers(random, SEALS));
    for set in SETS {
        for public in &publics {
            for message in &messages {
                for seal in &seals {
                    check_case(set, public, message, seal);
                }
            }
        }
    }
}

/// Random bytes are rejected, so a legal check's answer is 5; its F calls are the second program's.
fn check_case(set: u32, public: &Buffer, message: &Buffer, seal: &Buffer) {
    let lengths = [public, message, seal].map(|buffer| buffer.content.len());
    let refusal = answer(set, |row| Wrong {
        input: lengths[0] != row.public_key,
        message: lengths[1] > MESSAGE_LIMIT,
        output_or_seal: lengths[2] != row.seal,
        ..Wrong::default()
    });
    let expected = match refusal {
        0 => (5, second::check(set, &message.content, &seal.content, &[], &public.content).expect("legal").tally.f),
        _ => (refusal, 0),
    };
    let mut f_calls = Fenced::new(0xdead_beef_u32, 0, &[u32::MAX]);
    let given = face::check(set, public.lent(), message.lent(), seal.lent(), &mut f_calls.lent_mut()[0]);
    let what = format!("check, set {set}, lengths of key, message, seal {lengths:?}");
    assert_eq!((given, u64::from(f_calls.lent()[0])), expected, "{what}");
    assert!(f_calls.is(&[expected.1 as u32]), "{what}: a number beside the count was changed");
    all_unchanged(&[public, message, seal], &what);
}

#[test]
fn part() {
    let random = &mut Random::of_test(35);
    let seals = buffers(random, SEALS);
    for set in SETS {
        for seal in &seals {
            for number in PARTS {
                part_case(set, seal, number);
            }
        }
    }
}

fn part_case(set: u32, seal: &Buffer, number: u32) {
    let refusal = answer(set, |row| Wrong {
        output_or_seal: seal.content.len() != row.seal,
        part: number > row.d + 1,
        ..Wrong::default()
    });
    let (start, length) = match refusal {
        0 => second::seal_part(set, number as usize).expect("a part"),
        _ => (0, 0),
    };
    let [mut starts, mut lengths] = [1, 2].map(|junk| Fenced::new(usize::MAX, 0, &[junk]));
    let given = face::part(set, seal.lent(), number, &mut starts.lent_mut()[0], &mut lengths.lent_mut()[0]);
    let what = format!("part {number}, set {set}, seal of {}", seal.content.len());
    assert_eq!((given, starts.lent()[0], lengths.lent()[0]), (refusal, start, length), "{what}");
    assert!(starts.is(&[start]) && lengths.is(&[length]), "{what}: a number beside the two was changed");
    all_unchanged(&[seal], &what);
}

#[test]
fn digits() {
    let random = &mut Random::of_test(36);
    let values = buffers(random, SHORT);
    for set in SETS {
        for value in &values {
            for count in DIGITS {
                digits_case(set, value, count, random);
            }
        }
    }
}

fn digits_case(set: u32, value: &Buffer, count: usize, random: &mut Random) {
    let expected = answer(set, |row| Wrong {
        input: value.content.len() != row.n,
        output_or_seal: count != CHAINS,
        ..Wrong::default()
    });
    let junk: Vec<u32> = (0..count).map(|_| random.next() as u32).collect();
    let mut list = Fenced::new(random.next() as u32, random.below(4), &junk);
    let given = face::digits(set, value.lent(), list.lent_mut());
    let what = format!("digits, set {set}, value of {}, list of {count}", value.content.len());
    assert_eq!(given, expected, "{what}");
    let held = match expected {
        0 => second::chain_digits(set, &value.content).expect("legal"),
        _ => junk,
    };
    assert!(list.is(&held), "{what}: another list, or a number beside it was changed");
    all_unchanged(&[value], &what);
}

/// The cases that the scope names.
#[test]
fn cases_of_the_scope() {
    let long = vec![0; MESSAGE_LIMIT + 1];
    assert_eq!(face::seal(1, &[0; 64], &long, &[], &mut [0; 7856]), 3);
    assert_eq!(face::seal(9, &[0; 64], &long, &[], &mut [0; 7856]), 1);
    assert_eq!(face::seal(1, &[0; 64], &[], &[0; 15], &mut [0; 7856]), 2);
    for length in [7855, 7857, 0] {
        assert_eq!(face::check(1, &[0; 32], &[], &vec![0; length], &mut 7), 4);
    }
}
