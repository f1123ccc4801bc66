//! Own seals are accepted, altered ones are not. The bytes come from a generator with a fixed seed.

mod common;

use common::Random;
use second::*;

struct Case {
    set: &'static Set,
    public: Vec<u8>,
    secret: Vec<u8>,
    message: Vec<u8>,
    context: Vec<u8>,
    addrnd: Option<Vec<u8>>,
}

fn case(set: u32, random: &mut Random) -> Case {
    let row = &SETS[set as usize - 1];
    let n = row.params.n;
    let [a, b, c] = [0; 3].map(|_| random.bytes(n));
    let (public, secret) = keygen(set, &a, &b, &c).unwrap();
    assert_eq!(secret, [&a[..], &b, &public].concat(), "a secret key is both secret seeds and the public key");
    assert_eq!(public[..n], c[..]);
    let message_length = 1 + random.below(300);
    let message = random.bytes(message_length);
    let context_length = 1 + random.below(255);
    let context = random.bytes(context_length);
    let addrnd = if random.below(2) == 0 { None } else { Some(random.bytes(n)) };
    Case { set: row, public, secret, message, context, addrnd }
}

fn altered(bytes: &[u8], start: usize, length: usize, random: &mut Random) -> Vec<u8> {
    let mut other = bytes.to_vec();
    other[start + random.below(length)] ^= 1 << random.below(8);
    other
}

/// A byte of R, of each forest tree's secret value and path, and of each layer's chain values and path.
fn regions(set: &Set) -> Vec<(usize, usize)> {
    let p = &set.params;
    let mut regions = vec![(0, p.n)];
    for tree in 0..p.k {
        let start = p.n + tree * (p.a + 1) * p.n;
        regions.extend([(start, p.n), (start + p.n, p.a * p.n)]);
    }
    let chains = (2 * p.n + 3) * p.n;
    for (start, length) in &seal_parts(set.number).unwrap()[2..] {
        regions.extend([(*start, chains), (start + chains, length - chains)]);
    }
    assert_eq!(regions.iter().map(|(_, length)| length).sum::<usize>(), set.seal);
    regions
}

fn round_trip(set: u32, seed: u64) {
    let mut random = Random(seed);
    let c = case(set, &mut random);
    let seal = sign(set, &c.message, &c.context, &c.secret, c.addrnd.as_deref()).unwrap();
    let accepted = |message: &[u8], seal: &[u8], context: &[u8], public: &[u8]| {
        verify(set, message, seal, context, public).unwrap()
    };
    assert!(accepted(&c.message, &seal, &c.context, &c.public), "own seal of set {set}");
    for (start, length) in regions(c.set) {
        let other = altered(&seal, start, length, &mut random);
        assert!(!accepted(&c.message, &other, &c.context, &c.public), "set {set}, altered in {length} from {start}");
    }
    let other = altered(&c.message, 0, c.message.len(), &mut random);
    assert!(!accepted(&other, &seal, &c.context, &c.public), "set {set}, another message");
    let other = altered(&c.context, 0, c.context.len(), &mut random);
    assert!(!accepted(&c.message, &seal, &other, &c.public), "set {set}, another context");
    assert!(!accepted(&c.message, &seal, &[], &c.public), "set {set}, no context");
    for half in 0..2 {
        let n = c.set.params.n;
        let other = altered(&c.public, half * n, n, &mut random);
        assert!(!accepted(&c.message, &seal, &c.context, &other), "set {set}, another public key");
    }
}

macro_rules! round_trips {
    ($($name:ident: $set:literal;)*) => {
        $(
            #[test]
            fn $name() {
                for round in 0..2 {
                    round_trip($set, 1000 * $set + round);
                }
            }
        )*
    };
}

round_trips! {
    round_trip_02_shake_128f: 2;
    round_trip_04_shake_192f: 4;
    round_trip_06_shake_256f: 6;
    round_trip_08_sha2_128f: 8;
    round_trip_10_sha2_192f: 10;
    round_trip_12_sha2_256f: 12;
}

/// With the derived R the seal is the ordinary one; with another R it is another seal, accepted as well.
#[test]
fn a_given_randomizer() {
    for set in [2, 8] {
        let mut random = Random(20 + u64::from(set));
        let c = case(set, &mut random);
        let n = c.set.params.n;
        let seal = sign_internal(set, &c.message, &c.secret, c.addrnd.as_deref()).unwrap();
        assert_eq!(sign_with_randomizer(set, &c.message, &c.secret, &seal[..n]).unwrap(), seal);
        let r = random.bytes(n);
        let other = sign_with_randomizer(set, &c.message, &c.secret, &r).unwrap();
        assert_eq!(other[..n], r[..]);
        assert_ne!(other[n..], seal[n..]);
        assert_eq!(verify_internal(set, &c.message, &other, &c.public), Ok(true));
    }
}

/// PK.seed stands in for a missing addrnd, so giving it is the same; zeros are an input like any other.
#[test]
fn the_deterministic_variant() {
    let c = case(2, &mut Random(30));
    let deterministic = sign(2, &c.message, &[], &c.secret, None).unwrap();
    assert_eq!(sign(2, &c.message, &[], &c.secret, None).unwrap(), deterministic);
    assert_eq!(sign(2, &c.message, &[], &c.secret, Some(&c.public[..16])).unwrap(), deterministic);
    let zeros = sign(2, &c.message, &[], &c.secret, Some(&[0; 16])).unwrap();
    assert_ne!(zeros, deterministic);
    assert_eq!(verify(2, &c.message, &zeros, &[], &c.public), Ok(true));
}

/// Messages of 0 and of 65,536 bytes, and three equal seeds.
#[test]
fn edges_of_messages_and_seeds() {
    for set in [2, 8] {
        let (public, secret) = keygen(set, &[7; 16], &[7; 16], &[7; 16]).unwrap();
        for length in [0, 65_536] {
            let message = vec![9; length];
            let seal = sign(set, &message, &[], &secret, None).unwrap();
            assert_eq!(verify(set, &message, &seal, &[], &public), Ok(true), "set {set}, {length} bytes");
        }
    }
}

/// A key carries no set number: a key of one set is a legal input under another with the same n, and rejected there.
#[test]
fn a_key_under_another_set() {
    let c = case(2, &mut Random(40));
    let under_8 = sign(8, &c.message, &[], &c.secret, None).unwrap();
    assert_eq!(verify(8, &c.message, &under_8, &[], &c.public), Ok(false));
    assert_eq!(verify(2, &c.message, &under_8, &[], &c.public), Ok(false));
}
