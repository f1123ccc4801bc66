//! Measures the proved hash beside the second implementation's and prints a table of times and ratios.
//!
//! All are sampled in each round, for a millisecond or less, so that a slow spell of a shared machine falls on all of
//! them; a time is the median of the rounds.

use std::hint::black_box;
use std::time::Instant;

const ROUNDS: usize = 2_001;
/// Permutations or short hashes in a sample.
const REPEATS: usize = 400;
/// The long message's bytes: so many blocks that the padding and the output don't count.
const LONG: usize = 1 << 16;
/// A hash call of the standard's smallest sets: 16 bytes of public seed, 32 of address and 16 of input, to 16.
const SHORT: usize = 64;
const SHORT_OUT: usize = 16;

/// Something measured: a run of `work` makes so many units.
struct Subject<'a> {
    units: usize,
    work: Box<dyn FnMut() + 'a>,
    samples: Vec<f64>,
}

impl<'a> Subject<'a> {
    fn new(units: usize, work: impl FnMut() + 'a) -> Self {
        Subject { units, work: Box::new(work), samples: Vec::new() }
    }

    fn sample(&mut self) {
        let start = Instant::now();
        (self.work)();
        self.samples.push(start.elapsed().as_nanos() as f64 / self.units as f64);
    }

    /// Nanoseconds a unit.
    fn median(&self) -> f64 {
        let mut samples = self.samples.clone();
        samples.sort_by(f64::total_cmp);
        samples[samples.len() / 2]
    }
}

fn permutations() -> Subject<'static> {
    let mut lanes = [0; 25];
    Subject::new(REPEATS, move || {
        for _ in 0..REPEATS {
            bench::permute(black_box(&mut lanes));
        }
    })
}

/// The two implementations, each hashing the message so many times; a hash counts as so many units.
fn hashes(message: &[u8], repeats: usize, units: usize) -> [Subject<'_>; 2] {
    let ours = move || {
        let mut out = [0; SHORT_OUT];
        for _ in 0..repeats {
            bench::shake256(black_box(message), black_box(&mut out));
        }
    };
    let seconds = move || {
        for _ in 0..repeats {
            black_box(second::keccak::shake256(black_box(message), SHORT_OUT));
        }
    };
    [Subject::new(repeats * units, ours), Subject::new(repeats * units, seconds)]
}

fn line(name: &str, ours: &Subject, seconds: &Subject) {
    let (ours, seconds) = (ours.median(), seconds.median());
    println!("{name:28} {ours:10.2} {seconds:10.2} {:8.2}", ours / seconds);
}

fn main() {
    let message = vec![0xa5; LONG];
    let mut permutation = permutations();
    let mut long = hashes(&message, 1, LONG);
    let mut short = hashes(&message[..SHORT], REPEATS, 1);
    for _ in 0..ROUNDS {
        permutation.sample();
        long.iter_mut().chain(&mut short).for_each(Subject::sample);
    }
    println!("{:28} {:>10} {:>10} {:>8}", "nanoseconds", "ours", "second's", "ratio");
    println!("{:28} {:10.2} {:>10} {:>8}", "a permutation", permutation.median(), "private", "-");
    line(&format!("a byte of {LONG} absorbed"), &long[0], &long[1]);
    line(&format!("{SHORT} bytes hashed to {SHORT_OUT}"), &short[0], &short[1]);
}
