//! A caller's own row and hash family: the algorithms on a key small enough to be written out whole.

mod common;

use common::{ByLetter, Random};
use second::family::Shake;
use second::*;

/// A stand-in hash: a polynomial over the bytes, started with a letter for the function. Anyone can write it again.
static TOY: ByLetter = ByLetter(toy);

fn toy(letter: u8, parts: &[&[u8]], length: usize) -> Vec<u8> {
    let mut state = u64::from(letter);
    for byte in parts.concat() {
        state = (state * 257 + u64::from(byte) + 1) % 1_000_003;
    }
    (0..length as u64).map(|i| ((state * (2 * i + 3) + i) % 65_521 % 256) as u8).collect()
}

/// n = 1 and 2, with the standard's two checksum digits and with the three of the real sets; one layer; odd heights.
fn rows() -> Vec<Params> {
    let one = Params::new(1, 4, 2, 2, 2, 2, 3);
    let two = Params::new(2, 4, 2, 2, 2, 2, 3);
    let single = Params::new(2, 3, 1, 3, 3, 3, 3);
    let odd = Params::new(3, 9, 3, 3, 5, 3, 4);
    vec![one, Params { len2: 3, ..one }, two, Params { len2: 3, ..two }, single, odd]
}

#[test]
fn own_seals_are_accepted_at_every_place() {
    for params in rows() {
        let scheme = Scheme::of_row(params, &TOY).unwrap();
        let mut random = Random(60);
        let mut log = Log::counting();
        let seeds: [Vec<u8>; 3] = [0; 3].map(|_| random.bytes(params.n));
        let (public, secret) = scheme.keygen(&mut log, &seeds[0], &seeds[1], &seeds[2]).unwrap();
        let mut places = std::collections::HashSet::new();
        for i in 0..400u32 {
            let message = i.to_be_bytes();
            let r = random.bytes(params.n);
            let digest = TOY.h_msg(&params, &r, &public[..params.n], &public[params.n..], &message);
            let place = scheme.place(&digest).unwrap();
            places.insert((place.idx_tree, place.idx_leaf));
            let seal = scheme.sign_with_randomizer(&mut log, &message, &secret, &r).unwrap();
            assert_eq!(seal.len(), scheme.seal_length());
            let verdict = scheme.check_internal(&mut log, &message, &seal, &public).unwrap();
            assert!(verdict.accepted, "{params:?}, message {i}");
            let nodes = (params.k * params.a + params.h) as u64;
            assert_eq!((verdict.tally.h, verdict.tally.t, verdict.tally.digest), (nodes, params.d as u64 + 1, 1));
        }
        assert!(params.h > 4 || places.len() == 1 << params.h, "{params:?}: {} places", places.len());
    }
}

#[test]
fn chains_of_a_small_value() {
    let two = Params::new(2, 4, 2, 2, 2, 2, 3);
    let standard = Scheme::of_row(two, &TOY).unwrap();
    let as_real_sets = Scheme::of_row(Params { len2: 3, ..two }, &TOY).unwrap();
    // The checksum of 1, 2, 3, 4 is 60 - 10 = 50 = 3 * 16 + 2.
    assert_eq!(standard.chain_digits(&[0x12, 0x34]), Ok(vec![1, 2, 3, 4, 3, 2]));
    assert_eq!(as_real_sets.chain_digits(&[0x12, 0x34]), Ok(vec![1, 2, 3, 4, 0, 3, 2]));
    assert_eq!((standard.chains(), as_real_sets.chains()), (6, 7));
}

/// Every F, H and T call of a check of an own seal is one that sealing or key making made.
fn check_repeats_the_keys_own_calls(scheme: &Scheme, seed: u64) {
    let n = scheme.params().n;
    let mut random = Random(seed);
    let seeds: [Vec<u8>; 3] = [0; 3].map(|_| random.bytes(n));
    let mut own = Log::recording();
    let (public, secret) = scheme.keygen(&mut own, &seeds[0], &seeds[1], &seeds[2]).unwrap();
    let seal = scheme.sign_internal(&mut own, b"message", &secret, None).unwrap();
    let mut log = Log::recording();
    assert!(scheme.check_internal(&mut log, b"message", &seal, &public).unwrap().accepted);
    let mut known: Vec<(&[u8], &[u8], Kind)> = key_of(own.calls());
    known.sort_unstable_by_key(|(address, input, _)| (*address, *input));
    for (address, input, kind) in key_of(log.calls()) {
        let found = known.partition_point(|(a, i, _)| (*a, *i) < (address, input));
        assert_eq!(known[found], (address, input, kind));
    }
}

fn key_of(calls: &[Call]) -> Vec<(&[u8], &[u8], Kind)> {
    calls.iter().map(|call| (&call.address[..], &call.input[..], call.kind)).collect()
}

#[test]
fn checks_repeat_the_keys_own_calls() {
    for params in rows() {
        check_repeats_the_keys_own_calls(&Scheme::of_row(params, &Shake).unwrap(), 70);
    }
    check_repeats_the_keys_own_calls(&Scheme::of_set(2).unwrap(), 71);
    check_repeats_the_keys_own_calls(&Scheme::of_set(8).unwrap(), 72);
}

/// The root of a key, written out from the definition with the toy hash: a tree of four leaves, six chains each.
#[test]
fn a_root_written_out() {
    let params = Params::new(2, 4, 2, 2, 2, 2, 3);
    let (sk_seed, sk_prf, pk_seed) = ([1, 2], [3, 4], [5, 6]);
    let address = |words: [u8; 4]| {
        // Layer 1, tree 0; type and three words, all below 256.
        let mut bytes = [0u8; 32];
        bytes[3] = 1;
        for (i, word) in words.into_iter().enumerate() {
            bytes[19 + 4 * i] = word;
        }
        bytes
    };
    let hash = |letter: u8, words: [u8; 4], input: &[u8]| toy(letter, &[&pk_seed, &address(words), input], 2);
    let leaf = |pair: u8| {
        let mut ends = Vec::new();
        for chain in 0..6 {
            let secret = hash(b'S', [5, pair, chain, 0], &sk_seed);
            ends.extend((0..15).fold(secret, |value, step| hash(b'F', [0, pair, chain, step], &value)));
        }
        hash(b'T', [1, pair, 0, 0], &ends)
    };
    let left = hash(b'H', [2, 0, 1, 0], &[leaf(0), leaf(1)].concat());
    let right = hash(b'H', [2, 0, 1, 1], &[leaf(2), leaf(3)].concat());
    let root = hash(b'H', [2, 0, 2, 0], &[left, right].concat());
    let scheme = Scheme::of_row(params, &TOY).unwrap();
    let (public, _) = scheme.keygen(&mut Log::counting(), &sk_seed, &sk_prf, &pk_seed).unwrap();
    assert_eq!(public, [&pk_seed[..], &root].concat());
}
