//! The desk's stored cases (`second/vectors/README.md`) by the exported functions: what comes of each is the stored
//! line, to the letter, whatever the outputs held before, and a refusal leaves them as they were.

mod common;

use common::fenced::Fenced;
use common::Random;
use second::cases::{show_check, show_digits, show_keys, show_part, show_seal, Case};
use skimdral::face;

const CASES: &str = include_str!("../../second/vectors/desk-cases.txt");
const ANSWERS: &str = include_str!("../../second/vectors/desk-answers.txt");

/// How many lines begin with each word. Every line must be one of these, and every word has its test.
const LINES: [(&str, usize); 6] = [("#", 17), ("keys", 22), ("seal", 26), ("check", 26), ("part", 20), ("digits", 16)];

/// What outputs hold before a run, number by number.
type Draw = fn(&mut Random) -> u32;

const ZEROS: Draw = |_| 0;
const NOISE: Draw = |random| random.next() as u32;

/// A stored line, its place in the file and the line stored for what comes of it.
struct Stored {
    place: usize,
    line: &'static str,
    answer: &'static str,
}

fn stored() -> Vec<Stored> {
    assert_eq!(CASES.lines().count(), ANSWERS.lines().count(), "an answer for each line");
    let lines = CASES.lines().zip(ANSWERS.lines()).enumerate();
    lines.map(|(i, (line, answer))| Stored { place: i + 1, line, answer }).collect()
}

/// All lines that begin with the word.
fn of_word(word: &str) -> Vec<Stored> {
    stored().into_iter().filter(|stored| stored.line.split(' ').next() == Some(word)).collect()
}

/// What a run gave: its answer, the line that shows it, and whether what was lent to be kept on a refusal was kept.
struct Run {
    answer: u32,
    line: String,
    kept: bool,
}

/// Runs a case with outputs between fences. A check's count and a part's place are written whatever the answer is.
fn run(case: &Case, random: &mut Random, draw: Draw) -> Run {
    let mut bytes = |room: usize| Fenced::drawn(random, room, |random| draw(random) as u8);
    match case {
        Case::Keys { set, seeds: [a, b, c], rooms } => {
            let [mut public, mut secret] = rooms.map(&mut bytes);
            let answer = face::make_keys(*set, a, b, c, public.lent_mut(), secret.lent_mut());
            let kept = public.is_unchanged() && secret.is_unchanged();
            Run { answer, line: show_keys(answer, public.held(), secret.held()), kept }
        }
        Case::Seal { set, secret, message, random, room } => {
            let mut seal = bytes(*room);
            let answer = face::seal(*set, secret, message, random, seal.lent_mut());
            Run { answer, line: show_seal(answer, seal.held()), kept: seal.is_unchanged() }
        }
        Case::Check { set, public, message, seal } => {
            let mut f_calls = Fenced::drawn(random, 1, draw);
            let answer = face::check(*set, public, message, seal, &mut f_calls.lent_mut()[0]);
            Run { answer, line: show_check(answer, f_calls.held()[0].into()), kept: true }
        }
        Case::Part { set, seal, number } => {
            let (mut start, mut length) = (usize::MAX, usize::MAX);
            let answer = face::part(*set, seal, *number, &mut start, &mut length);
            Run { answer, line: show_part(answer, &seal[start..start + length]), kept: true }
        }
        Case::Digits { set, value, room } => {
            let mut list = Fenced::drawn(random, *room, draw);
            let answer = face::digits(*set, value, list.lent_mut());
            Run { answer, line: show_digits(answer, list.held()), kept: list.is_unchanged() }
        }
    }
}

/// Every case begins with noise in the outputs. A refusal must leave it there; what is stored shows outputs that held
/// zeros, so a refused case is run again with these.
fn compare(stored: &Stored, random: &mut Random) {
    let case = Case::parse(stored.line).unwrap_or_else(|| panic!("line {} is no case", stored.place));
    let mut run_with = |draw| run(&case, random, draw);
    let mut given = run_with(NOISE);
    if given.answer != 0 {
        assert!(given.kept, "line {}: a refusal changed an output", stored.place);
        given = run_with(ZEROS);
        assert!(given.kept, "line {}: a refusal changed zeros", stored.place);
    }
    assert_eq!(given.line, stored.answer, "line {}", stored.place);
}

/// Compares every `step`-th line of the word, from the `first`-th on.
fn compare_all(word: &str, first: usize, step: usize, random: &mut Random) {
    for stored in of_word(word).iter().skip(first).step_by(step) {
        compare(stored, random);
    }
}

#[test]
fn every_line_has_its_test() {
    for (word, count) in LINES {
        assert_eq!(of_word(word).len(), count, "lines that begin with {word}");
    }
    assert_eq!(stored().len(), LINES.map(|(_, count)| count).iter().sum::<usize>(), "lines");
    for comment in of_word("#") {
        assert_eq!(comment.line, comment.answer, "line {}", comment.place);
    }
}

#[test]
fn key_making() {
    compare_all("keys", 0, 1, &mut Random::of_test(41));
}

/// Three tests share the sealings, since one under set 1 takes seconds.
#[test]
fn sealing_1_of_3() {
    compare_all("seal", 0, 3, &mut Random::of_test(42));
}

#[test]
fn sealing_2_of_3() {
    compare_all("seal", 1, 3, &mut Random::of_test(43));
}

#[test]
fn sealing_3_of_3() {
    compare_all("seal", 2, 3, &mut Random::of_test(44));
}

#[test]
fn checking() {
    compare_all("check", 0, 1, &mut Random::of_test(45));
}

#[test]
fn part_reading() {
    compare_all("part", 0, 1, &mut Random::of_test(46));
}

#[test]
fn digit_reading() {
    compare_all("digits", 0, 1, &mut Random::of_test(47));
}
