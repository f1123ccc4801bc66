//! Measures the proved operations beside the second program's, and the stack that they use, and prints a table.
//!
//! In each round both programs do the same work, one after the other, so that a slow spell of a shared machine falls
//! on both; a time is the median of the rounds. Ours writes to buffers that it is lent and the second program returns
//! vectors of its own; outputs are not cleared between rounds.

mod stack;

use skimdral::{face, Set, SETS};
use std::hint::black_box;
use std::time::Instant;

/// The message's bytes.
const MESSAGE: usize = 1000;

/// Rounds of key making, sealing and checking: fewer for the set whose sealing takes seconds.
fn rounds(set: &Set) -> [usize; 3] {
    match set.name {
        "shake-128s" => [11, 5, 101],
        _ => [101, 51, 101],
    }
}

/// What both programs work on: seeds, and the keys, message and seal that come of them.
struct Case {
    set: &'static Set,
    seeds: [Vec<u8>; 3],
    public: Vec<u8>,
    secret: Vec<u8>,
    message: Vec<u8>,
    seal: Vec<u8>,
}

impl Case {
    fn new(set: &'static Set) -> Case {
        let seeds = [1, 2, 3].map(|seed| vec![seed; set.n]);
        let [a, b, c] = &seeds;
        let (public, secret) = second::keygen(set.number, a, b, c).expect("legal seeds");
        let message = vec![0xa5; MESSAGE];
        let seal = second::sign(set.number, &message, &[], &secret, None).expect("a legal key");
        Case { set, seeds, public, secret, message, seal }
    }

    fn our_keys(&self) -> impl FnMut() + '_ {
        let (mut public, mut secret) = (vec![0; self.public.len()], vec![0; self.secret.len()]);
        move || {
            let [a, b, c] = black_box(&self.seeds);
            assert_eq!(face::make_keys(self.set.number, a, b, c, &mut public, &mut secret), 0);
        }
    }

    fn our_seal(&self) -> impl FnMut() + '_ {
        let mut seal = vec![0; self.seal.len()];
        move || assert_eq!(face::seal(self.set.number, &self.secret, black_box(&self.message), &[], &mut seal), 0)
    }

    fn our_check(&self) -> impl FnMut() + '_ {
        move || {
            let message = black_box(&self.message);
            assert_eq!(face::check(self.set.number, &self.public, message, &self.seal, &mut 0), 0);
        }
    }

    fn second_keys(&self) {
        let [a, b, c] = black_box(&self.seeds);
        black_box(second::keygen(self.set.number, a, b, c).expect("legal seeds"));
    }

    fn second_seal(&self) {
        let message = black_box(&self.message);
        black_box(second::sign(self.set.number, message, &[], &self.secret, None).expect("a legal key"));
    }

    fn second_check(&self) {
        let message = black_box(&self.message);
        assert!(second::verify(self.set.number, message, &self.seal, &[], &self.public).expect("legal"));
    }
}

fn milliseconds(work: &mut dyn FnMut()) -> f64 {
    let start = Instant::now();
    work();
    start.elapsed().as_secs_f64() * 1e3
}

fn median(mut samples: Vec<f64>) -> f64 {
    samples.sort_by(f64::total_cmp);
    samples[samples.len() / 2]
}

/// Measures both and prints their line.
fn line(name: &str, rounds: usize, ours: &mut dyn FnMut(), seconds: &mut dyn FnMut()) {
    let samples = (0..rounds).map(|_| (milliseconds(ours), milliseconds(seconds)));
    let (our_times, second_times) = samples.unzip();
    let (our_time, second_time) = (median(our_times), median(second_times));
    let ratio = our_time / second_time;
    println!("{name:24} {rounds:6} {our_time:10.2} {second_time:10.2} {ratio:8.2} {:10}", stack::depth(ours));
}

fn main() {
    println!(
        "{:24} {:>6} {:>10} {:>10} {:>8} {:>10}",
        "milliseconds", "rounds", "ours", "second's", "ratio", "our stack"
    );
    for set in &SETS {
        let case = Case::new(set);
        let [keys, seals, checks] = rounds(set);
        line(&format!("{}, make keys", set.name), keys, &mut case.our_keys(), &mut || case.second_keys());
        line(&format!("{}, seal", set.name), seals, &mut case.our_seal(), &mut || case.second_seal());
        line(&format!("{}, check", set.name), checks, &mut case.our_check(), &mut || case.second_check());
    }
}
