//! Cases of a desk that offers five operations, stored a line each, and the line that shows what came of one.
//!
//! | case | shown |
//! |---|---|
//! | `keys SET SEED SEED SEED ROOM ROOM` | the answer, the public key's output, the secret key's output |
//! | `seal SET SECRET MESSAGE RANDOM ROOM` | the answer, SHAKE256 of the output |
//! | `check SET PUBLIC MESSAGE SEAL` | the answer, the F calls |
//! | `part SET SEAL NUMBER` | the answer, the part's length, SHAKE256 of the part |
//! | `digits SET VALUE ROOM` | the answer, the list's numbers, a byte each |
//!
//! SET, NUMBER and ROOM are numbers of one to five decimal digits; a ROOM is the length of an output. The other fields
//! are bytes: `-` for none, `*N` for N made ones (byte i is (31 i + i / 256) mod 251), and else lowercase hex.

use crate::keccak::shake256;
use std::str::FromStr;

/// The arguments of an operation, in the order of its line.
#[allow(missing_docs)] // the fields are those of the table above
#[derive(Clone, Debug)]
pub enum Case {
    Keys { set: u32, seeds: [Vec<u8>; 3], rooms: [usize; 2] },
    Seal { set: u32, secret: Vec<u8>, message: Vec<u8>, random: Vec<u8>, room: usize },
    Check { set: u32, public: Vec<u8>, message: Vec<u8>, seal: Vec<u8> },
    Part { set: u32, seal: Vec<u8>, number: u32 },
    Digits { set: u32, value: Vec<u8>, room: usize },
}

impl Case {
    /// The case that a line says, if it says one.
    pub fn parse(line: &str) -> Option<Case> {
        let fields: Vec<&str> = line.split(' ').collect();
        Some(match fields[..] {
            ["keys", set, sk, prf, pk, public, secret] => Case::Keys {
                set: number(set)?,
                seeds: [bytes(sk)?, bytes(prf)?, bytes(pk)?],
                rooms: [number(public)?, number(secret)?],
            },
            ["seal", set, secret, message, random, room] => Case::Seal {
                set: number(set)?,
                secret: bytes(secret)?,
                message: bytes(message)?,
                random: bytes(random)?,
                room: number(room)?,
            },
            ["check", set, public, message, seal] => {
                Case::Check { set: number(set)?, public: bytes(public)?, message: bytes(message)?, seal: bytes(seal)? }
            }
            ["part", set, seal, part] => Case::Part { set: number(set)?, seal: bytes(seal)?, number: number(part)? },
            ["digits", set, value, room] => {
                Case::Digits { set: number(set)?, value: bytes(value)?, room: number(room)? }
            }
            _ => return None,
        })
    }
}

/// The line of a key making, with what both outputs hold.
pub fn show_keys(answer: u32, public: &[u8], secret: &[u8]) -> String {
    format!("{answer} {} {}", hex(public), hex(secret))
}

/// The line of a sealing, with what the output holds.
pub fn show_seal(answer: u32, seal: &[u8]) -> String {
    format!("{answer} {}", hex(&shake256(seal, 32)))
}

/// The line of a check.
pub fn show_check(answer: u32, f_calls: u64) -> String {
    format!("{answer} {f_calls}")
}

/// The line of a part.
pub fn show_part(answer: u32, part: &[u8]) -> String {
    format!("{answer} {} {}", part.len(), hex(&shake256(part, 32)))
}

/// The line of chain digits, with what the list holds.
pub fn show_digits(answer: u32, list: &[u32]) -> String {
    format!("{answer} {}", list.iter().map(|digit| format!("{digit:02x}")).collect::<String>())
}

/// Bytes in lowercase hex.
pub fn hex(bytes: &[u8]) -> String {
    bytes.iter().map(|byte| format!("{byte:02x}")).collect()
}

fn number<N: FromStr>(text: &str) -> Option<N> {
    let is_decimal = (1..=5).contains(&text.len()) && text.bytes().all(|byte| byte.is_ascii_digit());
    is_decimal.then(|| text.parse().ok()).flatten()
}

fn bytes(text: &str) -> Option<Vec<u8>> {
    if text == "-" {
        return Some(Vec::new());
    }
    if let Some(count) = text.strip_prefix('*') {
        return Some((0..number(count)?).map(|i: usize| ((31 * i + i / 256) % 251) as u8).collect());
    }
    if text.is_empty() || text.len() % 2 == 1 {
        return None;
    }
    let lower = |byte: &u8| match byte {
        b'0'..=b'9' => Some(byte - b'0'),
        b'a'..=b'f' => Some(byte - b'a' + 10),
        _ => None,
    };
    let digits: Option<Vec<u8>> = text.as_bytes().iter().map(lower).collect();
    Some(digits?.chunks_exact(2).map(|pair| 16 * pair[0] + pair[1]).collect())
}
