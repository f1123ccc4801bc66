//! What was wrong, in numbers. The library decides; these words only compare the lengths with the table.

use crate::input::LIMIT;
use crate::stop::Stop;
use skimdral::{Answer, Set, MESSAGE_LIMIT, SETS};

/// Something lent to the library: its length, the answer that a wrong length gets, and the lengths that a set allows.
pub struct Lent {
    pub what: &'static str,
    pub length: usize,
    pub answer: Answer,
    pub allowed: fn(&Set) -> Vec<usize>,
}

/// The refusal with what was wrong.
pub fn explain(answer: Answer, set: u32, lent: &[Lent]) -> Stop {
    let why = match (answer, Set::of(set)) {
        (Answer::UnknownSet, _) => unknown_set(set),
        (Answer::MessageLength, _) => format!("the message has more than {} bytes", grouped(MESSAGE_LIMIT)),
        (_, Some(set)) => wrong_lengths(answer, set, lent),
        (_, None) => String::new(),
    };
    Stop::refused(answer, if why.is_empty() { answer.sentence() } else { &why })
}

/// The refusal of a part's number.
pub fn unknown_part(set: u32, number: u32) -> Stop {
    let last = Set::of(set).map_or(0, |set| set.parts - 1);
    Stop::refused(Answer::UnknownPart, &format!("there is no part {number}: set {set} has the parts 0 to {last}"))
}

fn unknown_set(set: u32) -> String {
    let sets: Vec<String> = SETS.iter().map(|set| format!("{} ({})", set.number, set.name)).collect();
    format!("there is no set {set}; the sets are {}", sets.join(" and "))
}

fn wrong_lengths(answer: Answer, set: &Set, lent: &[Lent]) -> String {
    let wrong = lent.iter().filter(|lent| lent.answer == answer && !(lent.allowed)(set).contains(&lent.length));
    let phrases: Vec<String> = wrong.map(|lent| wrong_length(set, lent)).collect();
    phrases.join("; ")
}

fn wrong_length(set: &Set, lent: &Lent) -> String {
    let length = if lent.length > LIMIT { format!("more than {}", grouped(LIMIT)) } else { grouped(lent.length) };
    let allowed: Vec<String> = (lent.allowed)(set).into_iter().map(grouped).collect();
    let bytes = if lent.length == 1 { "byte" } else { "bytes" };
    format!("the {} has {length} {bytes} and set {} wants {}", lent.what, set.number, allowed.join(" or "))
}

/// A number with a comma before each three digits from the end.
pub fn grouped(number: usize) -> String {
    let digits = number.to_string();
    let mut text = String::new();
    for (i, digit) in digits.chars().enumerate() {
        if i > 0 && (digits.len() - i).is_multiple_of(3) {
            text.push(',');
        }
        text.push(digit);
    }
    text
}
