//! The scope's tables, written down again from its text: what is legal, and which refusal an illegal argument gets.

/// A row of "The two sets".
#[derive(Clone, Copy)]
pub struct Row {
    pub number: u32,
    pub n: usize,
    pub d: u32,
    pub hp: usize,
    pub a: usize,
    pub k: usize,
    pub public_key: usize,
    pub secret_key: usize,
    pub seal: usize,
}

pub const ROWS: [Row; 2] = [
    Row { number: 1, n: 16, d: 7, hp: 9, a: 12, k: 14, public_key: 32, secret_key: 64, seal: 7856 },
    Row { number: 2, n: 16, d: 22, hp: 3, a: 6, k: 33, public_key: 32, secret_key: 64, seal: 17088 },
];

pub const MESSAGE_LIMIT: usize = 65536;

/// Chains, and so digits, of a value of 16 bytes.
pub const CHAINS: usize = 35;

/// Set numbers on all sides of the legal ones, and some that are legal in their low bits.
pub const SETS: [u32; 14] = [0, 1, 2, 3, 4, 9, 12, 13, 255, 0x101, 0x1_0002, 0x8000_0001, u32::MAX - 1, u32::MAX];

/// The row of a set number that is legal.
pub fn row(set: u32) -> Option<&'static Row> {
    ROWS.iter().find(|row| row.number == set)
}

/// Which conditions of "When the desk says no" hold, in the order of their numbers from 2 on; 5 is not among them.
#[derive(Clone, Copy, Default)]
pub struct Wrong {
    pub input: bool,
    pub message: bool,
    pub output_or_seal: bool,
    pub part: bool,
}

/// The smallest number that applies, or 0: `wrong` says what is wrong by the set's row.
pub fn answer(set: u32, wrong: impl Fn(&Row) -> Wrong) -> u32 {
    let Some(row) = row(set) else { return 1 };
    let wrong = wrong(row);
    let numbered = [(2, wrong.input), (3, wrong.message), (4, wrong.output_or_seal), (6, wrong.part)];
    numbered.iter().filter(|(_, applies)| *applies).map(|(number, _)| *number).min().unwrap_or(0)
}
