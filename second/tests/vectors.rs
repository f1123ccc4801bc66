//! The program `vectors`, and the desk's stored cases: what it answers is what is stored, and what NIST published.

mod common;

use common::{hex, read, run, Line};
use second::keccak::shake256;
use second::sha2::sha256;
use second::{sign, SETS};
use std::collections::HashMap;

const CASES: &str = include_str!("../vectors/desk-cases.txt");
const ANSWERS: &str = include_str!("../vectors/desk-answers.txt");

/// The stored answer to each stored case.
fn answers() -> HashMap<&'static str, &'static str> {
    assert_eq!(CASES.lines().count(), ANSWERS.lines().count(), "a line for each case");
    CASES.lines().zip(ANSWERS.lines()).collect()
}

#[test]
fn what_is_stored_is_what_this_program_answers() {
    let answers = run(env!("CARGO_BIN_EXE_vectors"), CASES);
    assert!(!answers.contains("bad line"), "a stored line is no case");
    assert!(answers == ANSWERS, "the stored answers differ");
}

#[test]
fn lines_that_are_no_cases() {
    let lines = [
        "",
        "#",
        "keys",
        "keys 1 *16 *16 *16 32",
        "keys 1 *16 *16 *16 32 64 0",
        "seal x *64 - - 7856",
        "seal 1 *64 -- - 7856",
        "check 1 *32 0 *7856",
        "check 1 *32 0g *7856",
        "check 1 *32 0A *7856",
        "part 1 *7856 100000",
        "digits 1 *16 -",
        "other 1",
    ];
    let answers = run(env!("CARGO_BIN_EXE_vectors"), &(lines.join("\n") + "\n"));
    assert_eq!(answers, "bad line\n".repeat(lines.len()));
}

/// Key making: three published cases of set 1 and five of set 2 are stored, with the published keys.
#[test]
fn published_keys() {
    let answers = answers();
    let mut found = [0; 3];
    for line in read("keygen.txt", 60, 4).iter().filter(|line| line.number(0) <= 2) {
        let (seeds, keys) = (line.text(1), format!("0 {} {}", line.text(2), line.text(3)));
        let case = format!("keys {} {} {} {} 32 64", line.text(0), &seeds[..32], &seeds[32..64], &seeds[64..]);
        if let Some(answer) = answers.get(case.as_str()) {
            assert_eq!(*answer, keys, "{}", line.place);
            found[line.number(0)] += 1;
        }
    }
    assert_eq!(found, [0, 3, 5]);
}

/// Lines that the desk takes: framed, with an empty context.
fn of_the_desk(lines: Vec<Line>) -> impl Iterator<Item = Line> {
    lines.into_iter().filter(|line| line.text(1) == "pure" && line.text(3) == "-")
}

/// Sealing: the published SHA-256 is that of the seal whose SHAKE256 is stored, and that seal's check is stored too.
#[test]
fn published_seals() {
    let answers = answers();
    for (set, count) in [(1, 4), (2, 14)] {
        let mut found = 0;
        for line in of_the_desk(read(&format!("sealing-{set:02}.txt"), count, 7)) {
            let (secret, random, message) = (line.text(2), line.text(4), line.text(5));
            let input = line.bytes(4);
            let addrnd = if input.is_empty() { None } else { Some(&input[..]) };
            let seal = sign(set, &line.bytes(5), b"", &line.bytes(2), addrnd).expect(&line.place);
            assert_eq!(hex(&sha256(&seal)), line.text(6), "{}", line.place);
            let sealing = format!("seal {set} {secret} {message} {random} {}", SETS[set as usize - 1].seal);
            assert_eq!(answers[sealing.as_str()], format!("0 {}", hex(&shake256(&seal, 32))), "{}", line.place);
            let checking = format!("check {set} {} {message} {}", &secret[64..], hex(&seal));
            assert!(answers[checking.as_str()].starts_with("0 "), "{}", line.place);
            found += 1;
        }
        assert_eq!(found, 1, "published cases of set {set} with an empty context");
    }
}

/// Checking: the published case is stored with its verdict.
#[test]
fn published_checks() {
    let answers = answers();
    let lines = read("checking-empty.txt", 1, 7);
    for line in of_the_desk(lines) {
        let case = format!("check {} {} {} {}", line.text(0), line.text(2), line.text(4), line.text(5));
        let answer = if line.text(6) == "accept" { "0 " } else { "5 " };
        assert!(answers[case.as_str()].starts_with(answer), "{}", line.place);
    }
}

/// What the scope's edges say in words.
#[test]
fn edges() {
    let answers = answers();
    let case = |case: &str| answers[case].split(' ').collect::<Vec<_>>();
    assert_eq!(case("seal 1 *64 *65537 - 7856")[0], "3");
    assert_eq!(case("seal 9 *64 *65537 - 7856")[0], "1");
    for seal in ["*7855", "*7857", "-"] {
        assert_eq!(case(&format!("check 1 *32 616263 {seal}")), ["4", "0"]);
    }
    assert_eq!(case("part 1 *7856 8")[..2], ["0", "704"]);
    assert_eq!(case("part 1 *7856 9")[..2], ["6", "0"]);
    assert_eq!(case("keys 1 *16 *16 *16 32 64")[0], "0");
    let keys = read("keygen.txt", 60, 4).into_iter().find(|line| line.number(0) == 2).expect("keys of set 2");
    let sealed = |random: &str| case(&format!("seal 2 {} 616263 {random} 17088", keys.text(3)));
    let (none, zeros) = (sealed("-"), sealed(&"00".repeat(16)));
    assert_eq!((none[0], zeros[0], sealed("*15")[0]), ("0", "0", "2"));
    assert_ne!(none[1], zeros[1], "sixteen zero bytes are an input like any other");
    for set in [1, 2] {
        let keys = read("keygen.txt", 60, 4).into_iter().find(|line| line.number(0) == set).expect("keys");
        for message in ["-", "*65536"] {
            let sealing = format!("seal {set} {} {message} - {}", keys.text(3), SETS[set - 1].seal);
            assert_eq!(case(&sealing)[0], "0");
        }
    }
}
