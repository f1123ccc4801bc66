//! What several test files need: the scope's table, test bytes, fenced buffers.

#![allow(dead_code)] // each test file uses a part of this

pub mod fenced;

pub mod paper;

pub mod workplace;

/// The seed of every test; each adds a number of its own.
const SEED: u64 = 0x205;

/// The generator splitmix64.
pub struct Random(u64);

impl Random {
    /// The generator of the test of that number. It says its seed, which the test's output shows when the test fails.
    pub fn of_test(number: u64) -> Random {
        let seed = SEED << 8 | number;
        println!("seed {seed:#x}");
        Random(seed)
    }

    pub fn next(&mut self) -> u64 {
        self.0 = self.0.wrapping_add(0x9e3779b97f4a7c15);
        let mut z = self.0;
        z = (z ^ (z >> 30)).wrapping_mul(0xbf58476d1ce4e5b9);
        z = (z ^ (z >> 27)).wrapping_mul(0x94d049bb133111eb);
        z ^ (z >> 31)
    }

    pub fn below(&mut self, bound: usize) -> usize {
        (self.next() % bound as u64) as usize
    }

    pub fn bytes(&mut self, length: usize) -> Vec<u8> {
        (0..length).map(|_| self.next() as u8).collect()
    }

    /// Flips one bit of the bytes.
    pub fn damage(&mut self, bytes: &mut [u8]) {
        let place = self.below(bytes.len());
        bytes[place] ^= 1 << self.below(8);
    }
}

/// How many times the usual work a test does: 1, or what SKIMDRAL_SOAK says.
pub fn soak() -> usize {
    match std::env::var("SKIMDRAL_SOAK") {
        Ok(factor) => factor.parse().expect("SKIMDRAL_SOAK is a number"),
        Err(_) => 1,
    }
}

/// Whether an emulator runs the library. It takes a minute and more for a sealing under set 1, so there only the stored
/// cases seal under it.
pub fn emulated() -> bool {
    std::env::var_os("SKIMDRAL_EMULATOR").is_some()
}

/// Of how many drawn cases one is compared: of 1, and where an emulator runs the library of 10. Stored cases and
/// refusals are all compared there too.
pub fn thin() -> usize {
    if emulated() {
        10
    } else {
        1
    }
}

/// A key pair of the set by the second program: (public, secret).
pub fn second_keys(set: u32, random: &mut Random) -> (Vec<u8>, Vec<u8>) {
    let seeds = [random.bytes(16), random.bytes(16), random.bytes(16)];
    second::keygen(set, &seeds[0], &seeds[1], &seeds[2]).expect("legal seeds")
}

/// The second program's deterministic seal with an empty context.
pub fn second_seal(set: u32, secret: &[u8], message: &[u8]) -> Vec<u8> {
    second::sign(set, message, &[], secret, None).expect("a legal key")
}
