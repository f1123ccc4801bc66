//! The calls of a check, of sealing and of key making, counted and listed.

mod common;

use common::{read, Random};
use second::address::Address;
use second::family::family_of;
use second::{chain_digits, check_internal, check_internal_with_calls, keygen, plain_frame, sign_internal};
use second::{Call, Kind, Log, Scheme, Set, Tally, Verdict, SETS};

/// The F counts that any check of the set lies between: k + d * 45 and k + d * (greatest cost of a value).
fn bounds(set: &Set) -> (u64, u64) {
    let p = &set.params;
    let greatest = match p.n {
        16 => 510,
        24 => 750,
        _ => 990,
    };
    ((p.k + 45 * p.d) as u64, (p.k + greatest * p.d) as u64)
}

#[test]
fn bounds_of_sets_1_and_2() {
    assert_eq!(bounds(&SETS[0]), (329, 3584));
    assert_eq!(bounds(&SETS[1]), (1023, 11253));
}

fn assert_tally(set: &Set, verdict: &Verdict, what: &str) {
    let p = &set.params;
    let (least, greatest) = bounds(set);
    let Tally { f, h, t, digest } = verdict.tally;
    assert!((least..=greatest).contains(&f), "{what}: {f} F calls");
    assert_eq!((h, t, digest), ((p.k * p.a + p.h) as u64, p.d as u64 + 1, 1), "{what}");
}

#[test]
fn h_and_t_of_sets_1_and_2() {
    for (set, h, t) in [(1, 231, 8), (2, 264, 23)] {
        let row = &SETS[set as usize - 1];
        let verdict = check_internal(set, b"", &vec![0; row.seal], &vec![0; row.public_key]).unwrap();
        assert!(!verdict.accepted);
        assert_eq!((verdict.tally.h, verdict.tally.t, verdict.tally.digest), (h, t, 1));
    }
}

fn count(calls: &[Call], kind: Kind) -> u64 {
    calls.iter().filter(|call| call.kind == kind).count() as u64
}

/// The list of a check has the counted numbers, and F = k + the sum of (15 - digit) over the values that the layers
/// sign, which are hashed again here from the listed calls.
fn assert_list(set: &Set, verdict: &Verdict, calls: &[Call], pk_seed: &[u8], what: &str) {
    let p = &set.params;
    let counted = Tally {
        f: count(calls, Kind::F),
        h: count(calls, Kind::H),
        t: count(calls, Kind::T),
        digest: count(calls, Kind::Digest),
    };
    assert_eq!(verdict.tally, counted, "{what}");
    assert_eq!(calls.len() as u64, counted.f + counted.h + counted.t + counted.digest, "{what}: no other kind");
    let family = family_of(set);
    let address = |call: &Call| Address::from_bytes(call.address[..].try_into().expect("32 bytes"));
    let last = |kind: Kind, layer: usize, address_type: u8| {
        let found = calls
            .iter()
            .rev()
            .find(|call| call.kind == kind && call.address[3] as usize == layer && call.address[19] == address_type);
        found.unwrap_or_else(|| panic!("{what}: no {kind:?} in layer {layer}"))
    };
    let forest_roots = last(Kind::T, 0, 4);
    let mut value = family.t(p, pk_seed, &address(forest_roots), &forest_roots.input);
    let mut expected = p.k as u64;
    for layer in 0..p.d {
        let digits = chain_digits(set.number, &value).expect(what);
        expected += digits.iter().map(|digit| u64::from(15 - digit)).sum::<u64>();
        let top = last(Kind::H, layer, 2);
        value = family.h(p, pk_seed, &address(top), &top.input);
    }
    assert_eq!(verdict.tally.f, expected, "{what}");
}

fn framed(line: &common::Line) -> Vec<u8> {
    match line.text(1) {
        "pure" => plain_frame(&line.bytes(4), &line.bytes(3)).expect(&line.place),
        _ => line.bytes(4),
    }
}

/// Every published case of a right length, accepted or rejected.
#[test]
fn checks_of_published_seals() {
    let lines = [9, 9, 4, 2, 3, 2, 7, 5, 4, 2, 3, 2];
    let mut checked = 0;
    for (set, count) in SETS.iter().zip(lines) {
        for line in read(&format!("checking-{:02}.txt", set.number), count, 7) {
            let (public, seal) = (line.bytes(2), line.bytes(5));
            if seal.len() != set.seal {
                continue;
            }
            let framed = framed(&line);
            let verdict = check_internal(set.number, &framed, &seal, &public).expect(&line.place);
            assert_tally(set, &verdict, &line.place);
            let (again, calls) = check_internal_with_calls(set.number, &framed, &seal, &public).expect(&line.place);
            assert_eq!(again, verdict, "{}", line.place);
            assert_list(set, &verdict, &calls, &public[..set.params.n], &line.place);
            checked += 1;
        }
    }
    assert_eq!(checked, 37, "cases of a right length");
}

/// Seals and keys of random bytes are checked to the end as well.
#[test]
fn checks_of_random_seals() {
    let mut random = Random(3);
    for set in &SETS {
        for _ in 0..3 {
            let (seal, public) = (random.bytes(set.seal), random.bytes(set.public_key));
            let message = random.bytes(20);
            let (verdict, calls) = check_internal_with_calls(set.number, &message, &seal, &public).unwrap();
            assert!(!verdict.accepted, "{}", set.name);
            assert_tally(set, &verdict, set.name);
            assert_list(set, &verdict, &calls, &public[..set.params.n], set.name);
        }
    }
}

/// What a check's list begins with: the digest over R, both key halves and the message, then the first forest leaf.
#[test]
fn the_list_of_a_check_begins_with_the_digest() {
    let mut random = Random(4);
    let (seal, public) = (random.bytes(17088), random.bytes(32));
    let (_, calls) = check_internal_with_calls(2, b"message", &seal, &public).unwrap();
    assert_eq!(calls[0].kind, Kind::Digest);
    assert_eq!(calls[0].address, []);
    assert_eq!(calls[0].input, [&seal[..16], &public, b"message"].concat());
    assert_eq!((calls[1].kind, &calls[1].input[..]), (Kind::F, &seal[16..32]));
    assert_eq!((calls[2].kind, calls[2].input.len()), (Kind::H, 32));
}

/// Key making: 2^h' leaves of len chains, one secret value and 15 F each, and 2^h' - 1 nodes.
#[test]
fn calls_of_key_making() {
    let mut random = Random(5);
    for set in [2, 6, 8, 12] {
        let p = SETS[set as usize - 1].params;
        let scheme = Scheme::of_set(set).unwrap();
        let mut log = Log::recording();
        let [a, b, c] = [0; 3].map(|_| random.bytes(p.n));
        let keys = scheme.keygen(&mut log, &a, &b, &c).unwrap();
        assert_eq!(keys, keygen(set, &a, &b, &c).unwrap());
        let leaves = 1u64 << p.hp;
        let chains = leaves * (2 * p.n as u64 + 3);
        assert_eq!(log.tally(), Tally { f: 15 * chains, h: leaves - 1, t: leaves, digest: 0 });
        assert_eq!((log.count(Kind::SecretValue), log.count(Kind::Randomizer)), (chains, 0));
        for kind in [Kind::F, Kind::H, Kind::T, Kind::SecretValue] {
            assert_eq!(count(log.calls(), kind), log.count(kind));
        }
        assert!(log.calls().iter().all(|call| call.address.len() == 32));
        assert_no_address_twice(log.calls());
    }
}

fn assert_no_address_twice(calls: &[Call]) {
    let mut addresses: Vec<&[u8]> = calls.iter().map(|call| &call.address[..]).collect();
    addresses.sort_unstable();
    assert!(addresses.windows(2).all(|pair| pair[0] != pair[1]), "an address was used twice");
}

/// Sealing: R once, then the digest; secret values of k chosen leaves, of k (2^a - 1) leaves on paths, of d (2^h' - 1)
/// one-time keys on paths, and of d shown ones.
#[test]
fn calls_of_sealing() {
    let mut random = Random(6);
    for set in [2, 8] {
        let p = SETS[set as usize - 1].params;
        let scheme = Scheme::of_set(set).unwrap();
        let secret = random.bytes(4 * p.n);
        let mut log = Log::recording();
        let seal = scheme.sign_internal(&mut log, b"message", &secret, None).unwrap();
        assert_eq!(seal, sign_internal(set, b"message", &secret, None).unwrap());
        assert_eq!((log.calls()[0].kind, log.calls()[1].kind), (Kind::Randomizer, Kind::Digest));
        assert_eq!(log.calls()[0].input, [&secret[p.n..2 * p.n], &secret[2 * p.n..3 * p.n], b"message"].concat());
        let forest = p.k * (1 << p.a);
        let layers = p.d * (1 << p.hp) * (2 * p.n + 3);
        assert_eq!(log.count(Kind::SecretValue) as usize, forest + layers);
        assert_eq!((log.count(Kind::Randomizer), log.count(Kind::Digest)), (1, 1));
        assert_eq!(log.calls()[2].kind, Kind::SecretValue, "the first tree's secret value comes first");
        assert_eq!(log.calls()[2].input, secret[..p.n]);
    }
}

/// A log that is used again goes on counting; a verdict has only its own calls.
#[test]
fn a_verdict_counts_its_own_calls_only() {
    let (seal, public) = (vec![1; 17088], vec![2; 32]);
    let scheme = Scheme::of_set(2).unwrap();
    let mut log = Log::counting();
    let first = scheme.check_internal(&mut log, b"a", &seal, &public).unwrap();
    let second = scheme.check_internal(&mut log, b"a", &seal, &public).unwrap();
    assert_eq!(first, second);
    assert_eq!(log.tally().f, 2 * first.tally.f);
    assert!(log.calls().is_empty(), "a counting log keeps no list");
}
