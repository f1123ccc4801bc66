//! The lengths of each set. The library tests them itself; this table is for whoever must lend a buffer or explain a
//! refusal, and `tests/table.rs` holds it to the library.

/// The longest message that is sealed or checked, in bytes.
pub const MESSAGE_LIMIT: usize = 65_536;

/// A parameter set (FIPS 205, table 2).
#[derive(Clone, Copy, Debug, PartialEq, Eq)]
pub struct Set {
    /// The number that every operation takes.
    pub number: u32,
    /// The name, in small letters.
    pub name: &'static str,
    /// Bytes of a seed, of a randomizer input and of a chain value: the standard's n.
    pub n: usize,
    /// Bytes of a public key.
    pub public_key: usize,
    /// Bytes of a secret key.
    pub secret_key: usize,
    /// Bytes of a seal.
    pub seal: usize,
    /// Parts of a seal: randomizer, forest and layers.
    pub parts: u32,
    /// Chain digits of a value.
    pub digits: usize,
}

/// All sets, the only place here where their numbers stand.
#[rustfmt::skip]
pub const SETS: [Set; 2] = [
    Set { number: 1, name: "shake-128s", n: 16, public_key: 32, secret_key: 64, seal:  7_856, parts:  9, digits: 35 },
    Set { number: 2, name: "shake-128f", n: 16, public_key: 32, secret_key: 64, seal: 17_088, parts: 24, digits: 35 },
];

impl Set {
    /// The set of that number.
    pub fn of(number: u32) -> Option<&'static Set> {
        SETS.iter().find(|set| set.number == number)
    }

    /// The set of that name, in small or capital letters, with or without the standard's `SLH-DSA-` before it.
    pub fn named(name: &str) -> Option<&'static Set> {
        let name = name.to_ascii_lowercase();
        let short = name.strip_prefix("slh-dsa-").unwrap_or(&name);
        SETS.iter().find(|set| set.name == short)
    }
}
