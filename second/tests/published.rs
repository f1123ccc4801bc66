//! Published cases, NIST's and OpenSSL's, every line of each vectors file. One test for each file, so that two threads
//! share the work.

mod common;

use common::{hex, read, Line};
use second::sha2::sha256;
use second::{keygen, plain_frame, sign, sign_internal, verify, verify_internal, Error, SETS};

fn set_of(line: &Line, lowest: usize, highest: usize) -> u32 {
    let set = line.number(0);
    assert!((lowest..=highest).contains(&set), "{}: set {set}", line.place);
    set as u32
}

#[test]
fn keys() {
    let lines = read("keygen.txt", 60, 4);
    let mut seen = [0; 13];
    for line in &lines {
        let set = set_of(line, 1, 12);
        seen[set as usize] += 1;
        let seeds = line.bytes(1);
        let (sk_seed, rest) = seeds.split_at(seeds.len() / 3);
        let (sk_prf, pk_seed) = rest.split_at(seeds.len() / 3);
        let (public, secret) = keygen(set, sk_seed, sk_prf, pk_seed).expect(&line.place);
        assert_eq!(hex(&public), line.text(2), "{}: public key", line.place);
        assert_eq!(hex(&secret), line.text(3), "{}: secret key", line.place);
    }
    assert_eq!(seen[1..], [5; 12], "keygen.txt: lines of each set");
}

fn sealing(set: usize, count: usize) {
    let lines = read(&format!("sealing-{set:02}.txt"), count, 7);
    let mut kinds = [0; 4];
    for line in &lines {
        set_of(line, set, set);
        let (secret, context, random, message) = (line.bytes(2), line.bytes(3), line.bytes(4), line.bytes(5));
        let addrnd = if random.is_empty() { None } else { Some(&random[..]) };
        let seal = match line.text(1) {
            "pure" => sign(set as u32, &message, &context, &secret, addrnd),
            "internal" => sign_internal(set as u32, &message, &secret, addrnd),
            other => panic!("{}: unknown encoding {other}", line.place),
        };
        let seal = seal.expect(&line.place);
        assert_eq!(seal.len(), SETS[set - 1].seal, "{}: length of the seal", line.place);
        assert_eq!(hex(&sha256(&seal)), line.text(6), "{}: SHA-256 of the seal", line.place);
        kinds[2 * usize::from(line.text(1) == "pure") + usize::from(addrnd.is_some())] += 1;
    }
    assert!(kinds.iter().all(|kind| *kind > 0), "set {set}: both encodings, deterministic and hedged");
}

fn checking(set: usize, accepts: usize, rejects: usize) {
    let lines = read(&format!("checking-{set:02}.txt"), accepts + rejects, 7);
    let (mut accepted, mut encodings) = (0, [0; 2]);
    for line in &lines {
        set_of(line, set, set);
        let (public, context, message, seal) = (line.bytes(2), line.bytes(3), line.bytes(4), line.bytes(5));
        let answer = match line.text(1) {
            "pure" => verify(set as u32, &message, &seal, &context, &public),
            "internal" => verify_internal(set as u32, &message, &seal, &public),
            other => panic!("{}: unknown encoding {other}", line.place),
        };
        if seal.len() != SETS[set - 1].seal {
            assert_eq!(answer, Err(Error::SealLength), "{}", line.place);
        }
        let word = if answer == Ok(true) { "accept" } else { "reject" };
        assert_eq!(word, line.text(6), "{}: verdict {answer:?}", line.place);
        accepted += usize::from(word == "accept");
        encodings[usize::from(line.text(1) == "pure")] += 1;
    }
    assert_eq!(accepted, accepts, "set {set}: accepted lines");
    assert!(encodings.iter().all(|encoding| *encoding > 0), "set {set}: both encodings");
}

macro_rules! per_set {
    ($($sealing:ident $checking:ident $set:literal: $lines:literal, $accepts:literal $rejects:literal;)*) => {
        $(
            #[test]
            fn $sealing() {
                sealing($set, $lines);
            }

            #[test]
            fn $checking() {
                checking($set, $accepts, $rejects);
            }
        )*
    };
}

// Sealed lines; accepted and rejected lines.
per_set! {
    sealing_01_shake_128s checking_01_shake_128s 1: 4, 1 8;
    sealing_02_shake_128f checking_02_shake_128f 2: 14, 1 8;
    sealing_03_shake_192s checking_03_shake_192s 3: 4, 1 3;
    sealing_04_shake_192f checking_04_shake_192f 4: 14, 0 2;
    sealing_05_shake_256s checking_05_shake_256s 5: 4, 1 2;
    sealing_06_shake_256f checking_06_shake_256f 6: 14, 1 1;
    sealing_07_sha2_128s checking_07_sha2_128s 7: 4, 2 5;
    sealing_08_sha2_128f checking_08_sha2_128f 8: 14, 1 4;
    sealing_09_sha2_192s checking_09_sha2_192s 9: 4, 1 3;
    sealing_10_sha2_192f checking_10_sha2_192f 10: 14, 1 1;
    sealing_11_sha2_256s checking_11_sha2_256s 11: 4, 1 2;
    sealing_12_sha2_256f checking_12_sha2_256f 12: 14, 1 1;
}

/// OpenSSL's keys from seeds, and its deterministic seals with an empty context.
#[test]
fn openssl() {
    for line in &read("openssl.txt", 2, 6) {
        let (set, seeds) = (set_of(line, 1, 2), line.bytes(1));
        let (public, secret) = keygen(set, &seeds[..16], &seeds[16..32], &seeds[32..]).expect(&line.place);
        assert_eq!([hex(&public), hex(&secret)], [line.text(2), line.text(3)], "{}: keys", line.place);
        let seal = sign(set, &line.bytes(4), &[], &secret, None).expect(&line.place);
        assert_eq!(hex(&sha256(&seal)), line.text(5), "{}: SHA-256 of the seal", line.place);
    }
}

/// A seal checked as `internal` over the frame is the seal checked as `pure`, for every stored case of a context.
#[test]
fn the_pure_frame_is_all_that_pure_adds() {
    for line in read("checking-02.txt", 9, 7).iter().filter(|line| line.text(1) == "pure") {
        let (public, context, message, seal) = (line.bytes(2), line.bytes(3), line.bytes(4), line.bytes(5));
        let framed = plain_frame(&message, &context).expect(&line.place);
        let pure = verify(2, &message, &seal, &context, &public);
        assert_eq!(verify_internal(2, &framed, &seal, &public), pure, "{}", line.place);
    }
}
