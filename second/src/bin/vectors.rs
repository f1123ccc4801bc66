//! Answers cases of the desk from standard input, one a line, in the form of `second::cases`. What it answers to
//! `vectors/desk-cases.txt` is `vectors/desk-answers.txt`.
//!
//! The refusals follow the scope's table: the smallest number that applies, and outputs, which hold zeros before,
//! unchanged. Lines that start with `# ` are copied; one that is no case is answered `bad line`.

use second::cases::{show_check, show_digits, show_keys, show_part, show_seal, Case};
use second::{chain_digits, check, keygen, seal_part, sign, Set, SETS};
use std::io::{self, BufRead, Write};

fn main() -> io::Result<()> {
    let mut out = io::stdout().lock();
    for line in io::stdin().lock().lines() {
        let line = line?;
        writeln!(out, "{}", answer(&line).unwrap_or_else(|| "bad line".to_string()))?;
    }
    Ok(())
}

fn answer(line: &str) -> Option<String> {
    if line.starts_with("# ") {
        return Some(line.to_string());
    }
    Some(match Case::parse(line)? {
        Case::Keys { set, seeds, rooms } => keys(set, &seeds, rooms),
        Case::Seal { set, secret, message, random, room } => seal(set, &secret, &message, &random, room),
        Case::Check { set, public, message, seal } => checked(set, &public, &message, &seal),
        Case::Part { set, seal, number } => part(set, &seal, number as usize),
        Case::Digits { set, value, room } => digits(set, &value, room),
    })
}

/// The desk's sets are 1 and 2.
fn known(set: u32) -> Option<&'static Set> {
    SETS[..2].iter().find(|known| known.number == set)
}

/// The smallest number whose reason applies, or 0.
fn smallest(reasons: &[(u32, bool)]) -> u32 {
    reasons.iter().filter(|(_, applies)| *applies).map(|(answer, _)| *answer).min().unwrap_or(0)
}

fn keys(set: u32, seeds: &[Vec<u8>; 3], [public, secret]: [usize; 2]) -> String {
    let refusal = known(set).map_or(1, |row| {
        smallest(&[
            (2, seeds.iter().any(|seed| seed.len() != row.params.n)),
            (4, public != row.public_key || secret != row.secret_key),
        ])
    });
    let made = match refusal {
        0 => keygen(set, &seeds[0], &seeds[1], &seeds[2]).expect("lengths are right"),
        _ => (vec![0; public], vec![0; secret]),
    };
    show_keys(refusal, &made.0, &made.1)
}

fn seal(set: u32, secret: &[u8], message: &[u8], random: &[u8], room: usize) -> String {
    let refusal = known(set).map_or(1, |row| {
        smallest(&[
            (2, secret.len() != row.secret_key || !(random.is_empty() || random.len() == row.params.n)),
            (3, message.len() > 65536),
            (4, room != row.seal),
        ])
    });
    let addrnd = if random.is_empty() { None } else { Some(random) };
    let seal = match refusal {
        0 => sign(set, message, b"", secret, addrnd).expect("lengths are right"),
        _ => vec![0; room],
    };
    show_seal(refusal, &seal)
}

fn checked(set: u32, public: &[u8], message: &[u8], seal: &[u8]) -> String {
    let refusal = known(set).map_or(1, |row| {
        smallest(&[(2, public.len() != row.public_key), (3, message.len() > 65536), (4, seal.len() != row.seal)])
    });
    if refusal != 0 {
        return show_check(refusal, 0);
    }
    let verdict = check(set, message, seal, b"", public).expect("lengths are right");
    show_check(if verdict.accepted { 0 } else { 5 }, verdict.tally.f)
}

fn part(set: u32, seal: &[u8], part: usize) -> String {
    let refusal = known(set).map_or(1, |row| smallest(&[(4, seal.len() != row.seal), (6, part > row.params.d + 1)]));
    let (start, length) = match refusal {
        0 => seal_part(set, part).expect("the part is there"),
        _ => (0, 0),
    };
    show_part(refusal, &seal[start..start + length])
}

fn digits(set: u32, value: &[u8], room: usize) -> String {
    let refusal =
        known(set).map_or(1, |row| smallest(&[(2, value.len() != row.params.n), (4, room != 2 * row.params.n + 3)]));
    let list = match refusal {
        0 => chain_digits(set, value).expect("the length is right"),
        _ => vec![0; room],
    };
    show_digits(refusal, &list)
}
