//! The binding's table against the library, which accepts exactly the lengths that stand there, and against C's header.

mod common;

use skimdral::{face, Answer, Set, MESSAGE_LIMIT, SETS};

/// Which of 0, 1, .. the library takes, when it is asked about each.
fn taken(up_to: usize, answer: impl Fn(usize) -> u32, refusal: u32) -> Vec<usize> {
    (0..=up_to).filter(|length| answer(*length) != refusal).collect()
}

fn zeros(length: usize) -> Vec<u8> {
    vec![0; length]
}

/// A key's length is tested before the message's, so a message that is too long keeps these calls short.
#[test]
fn key_and_randomizer_lengths() {
    let long = zeros(MESSAGE_LIMIT + 1);
    for set in &SETS {
        let seal = |key: usize, random: usize| face::seal(set.number, &zeros(key), &long, &zeros(random), &mut []);
        let check = |key: usize| face::check(set.number, &zeros(key), &long, &[], &mut 0);
        assert_eq!(taken(300, |key| seal(key, 0), 2), [set.secret_key], "{}", set.name);
        assert_eq!(taken(300, |random| seal(set.secret_key, random), 2), [0, set.n], "{}", set.name);
        assert_eq!(taken(300, check, 2), [set.public_key], "{}", set.name);
    }
}

/// A seed's length is tested before an output's.
#[test]
fn seed_and_value_lengths() {
    for set in &SETS {
        for place in 0..3 {
            let seed = |i: usize, length: usize| zeros(if i == place { length } else { set.n });
            let keys = |length: usize| {
                face::make_keys(set.number, &seed(0, length), &seed(1, length), &seed(2, length), &mut [], &mut [])
            };
            assert_eq!(taken(300, keys, 2), [set.n], "{}, seed {place}", set.name);
        }
        let digits = |length: usize| face::digits(set.number, &zeros(length), &mut []);
        assert_eq!(taken(300, digits, 2), [set.n], "{}", set.name);
    }
}

#[test]
fn seal_and_list_lengths() {
    for set in &SETS {
        let part = |length: usize| face::part(set.number, &zeros(length), 0, &mut 0, &mut 0);
        assert_eq!(taken(20_000, part, 4), [set.seal], "{}", set.name);
        let digits = |length: usize| face::digits(set.number, &zeros(set.n), &mut vec![0; length]);
        assert_eq!(taken(300, digits, 4), [set.digits], "{}", set.name);
        let seal = zeros(set.seal);
        let parts = |number: usize| face::part(set.number, &seal, number as u32, &mut 0, &mut 0);
        assert_eq!(taken(300, parts, 6), (0..set.parts as usize).collect::<Vec<_>>(), "{}", set.name);
    }
}

/// Near the limit, with an output or seal that is refused after it.
#[test]
fn message_limit() {
    for set in &SETS {
        for (length, expected) in [(0, 4), (MESSAGE_LIMIT, 4), (MESSAGE_LIMIT + 1, 3), (2 * MESSAGE_LIMIT, 3)] {
            let message = zeros(length);
            assert_eq!(face::seal(set.number, &zeros(set.secret_key), &message, &[], &mut []), expected);
            assert_eq!(face::check(set.number, &zeros(set.public_key), &message, &[], &mut 0), expected);
        }
    }
}

#[test]
fn set_numbers_and_names() {
    let numbers = |number: &usize| face::digits(*number as u32, &[], &mut []) != 1;
    let legal: Vec<usize> = (0..1000).filter(numbers).collect();
    assert_eq!(legal, SETS.iter().map(|set| set.number as usize).collect::<Vec<_>>());
    for set in &SETS {
        assert_eq!(Set::of(set.number), Some(set));
        let standard = format!("SLH-DSA-{}", set.name.to_uppercase());
        for name in [set.name, &standard, &set.name.to_uppercase()] {
            assert_eq!(Set::named(name), Some(set), "{name}");
        }
        assert!(second::SETS.iter().any(|row| row.number == set.number && row.name.eq_ignore_ascii_case(&standard)));
    }
    assert_eq!((Set::of(0), Set::named("shake-128"), Set::named("")), (None, None, None));
}

#[test]
fn answers_stand_at_their_numbers() {
    for (number, answer) in Answer::ALL.into_iter().enumerate() {
        assert_eq!(answer.number() as usize, number);
        assert_eq!(Answer::of(number as u32), Some(answer));
        assert_eq!(answer.to_string(), format!("{number}: {}", answer.sentence()));
    }
    assert_eq!((Answer::of(7), Answer::of(u32::MAX)), (None, None));
}

/// The header has the table in words, a line for each set.
#[test]
fn the_header_has_the_same_table() {
    let header = include_str!("../include/skimdral.h");
    let numbers = |line: &str| -> Vec<String> {
        line.split_whitespace().filter(|word| word.parse::<u32>().is_ok()).map(str::to_string).collect()
    };
    for set in &SETS {
        let line = header.lines().find(|line| line.contains(set.name)).expect("a line for each set");
        let row =
            [set.number as usize, set.n, set.public_key, set.secret_key, set.seal, set.parts as usize, set.digits];
        assert_eq!(numbers(line), row.map(|number| number.to_string()), "{}", set.name);
    }
}
