//! Checks of damaged seals, messages and keys: the verdict and the number of F calls equal the second program's.

mod common;

use common::paper::{Row, CHAINS, MESSAGE_LIMIT, ROWS};
use common::{second_keys, second_seal, soak, thin, Random};
use skimdral::{check, Answer, Verdict};

/// A set with a key, a message and its seal, how many damaged cases were drawn so far, how many checks were compared,
/// and how many accepted.
struct Sealed {
    row: Row,
    public: Vec<u8>,
    message: Vec<u8>,
    seal: Vec<u8>,
    random: Random,
    drawn: usize,
    checks: usize,
    accepted: usize,
}

impl Sealed {
    fn new(row: Row, mut random: Random) -> Sealed {
        let (public, secret) = second_keys(row.number, &mut random);
        let message = random.bytes(300);
        let seal = second_seal(row.number, &secret, &message);
        Sealed { row, public, message, seal, random, drawn: 0, checks: 0, accepted: 0 }
    }

    /// Random bytes in the place of key, message and seal.
    fn forged(row: Row, mut random: Random) -> Sealed {
        let [public, message, seal] = [row.public_key, 300, row.seal].map(|length| random.bytes(length));
        Sealed { row, public, message, seal, random, drawn: 0, checks: 0, accepted: 0 }
    }

    /// Both programs on what is presented, if its turn has come.
    fn drawn(&mut self, public: &[u8], message: &[u8], seal: &[u8], what: &str) {
        self.drawn += 1;
        if self.drawn % thin() == 0 {
            self.compare(public, message, seal, what);
        }
    }

    fn compare(&mut self, public: &[u8], message: &[u8], seal: &[u8], what: &str) {
        let set = self.row.number;
        let verdict = second::check(set, message, seal, &[], public).expect("legal lengths");
        let answer = if verdict.accepted { Answer::Done } else { Answer::RootDiffers };
        let expected = Verdict { answer, f_calls: verdict.tally.f as u32 };
        assert_eq!(check(set, public, message, seal), expected, "set {set}, {what}");
        self.checks += 1;
        self.accepted += usize::from(verdict.accepted);
    }

    fn untouched(&mut self) {
        let (public, message, seal) = (self.public.clone(), self.message.clone(), self.seal.clone());
        self.compare(&public, &message, &seal, "untouched");
    }

    fn drawn_seal(&mut self, seal: &[u8], what: &str) {
        let (public, message) = (self.public.clone(), self.message.clone());
        self.drawn(&public, &message, seal, what);
    }

    fn drawn_message(&mut self, message: &[u8], what: &str) {
        let (public, seal) = (self.public.clone(), self.seal.clone());
        self.drawn(&public, message, &seal, what);
    }

    fn drawn_key(&mut self, public: &[u8], what: &str) {
        let (message, seal) = (self.message.clone(), self.seal.clone());
        self.drawn(public, &message, &seal, what);
    }

    /// One bit flipped in each n-byte value that a seal is made of.
    fn every_value(&mut self) {
        for (start, name) in values(&self.row) {
            let mut seal = self.seal.clone();
            self.random.damage(&mut seal[start..start + self.row.n]);
            self.drawn_seal(&seal, &name);
        }
    }

    /// Several bits flipped, neighbouring values exchanged, values cleared, all bytes new.
    fn mixed_seals(&mut self, count: usize) {
        let n = self.row.n;
        for i in 0..count {
            let mut seal = self.seal.clone();
            let value = self.random.below(seal.len() / n - 1) * n;
            match i % 4 {
                0 => (0..20).for_each(|_| self.random.damage(&mut seal)),
                1 => seal[value..value + 2 * n].rotate_left(n),
                2 => seal[value..value + n].fill(0),
                _ => seal = self.random.bytes(seal.len()),
            }
            self.drawn_seal(&seal, &format!("mixed damage {i}"));
        }
    }

    /// Flipped bits, cut ends, added ends, and messages with nothing of the old one.
    fn messages(&mut self, count: usize) {
        for i in 0..count {
            let mut message = self.message.clone();
            match i % 4 {
                0 => self.random.damage(&mut message),
                1 => message.truncate(self.random.below(message.len())),
                2 => message.extend(vec![0; 1 + self.random.below(200)]),
                _ => message = self.random.bytes(i / 4),
            }
            self.drawn_message(&message, &format!("message {i} of {} bytes", message.len()));
        }
        for length in [0, MESSAGE_LIMIT - 1, MESSAGE_LIMIT] {
            self.drawn_message(&vec![0; length], &format!("message of {length} zeros"));
        }
    }

    /// Each bit of the public key flipped, its halves exchanged, and other keys.
    fn keys(&mut self, count: usize) {
        for bit in 0..8 * self.public.len() {
            let mut public = self.public.clone();
            public[bit / 8] ^= 1 << (bit % 8);
            self.drawn_key(&public, &format!("bit {bit} of the public key"));
        }
        let (seed, root) = self.public.split_at(self.row.n);
        let exchanged = [root, seed].concat();
        self.drawn_key(&exchanged, "halves exchanged");
        for i in 0..count {
            let public = self.random.bytes(self.public.len());
            self.drawn_key(&public, &format!("other key {i}"));
        }
    }

    /// So many rounds of every value, and so many seals, messages and keys. Of all that is compared, only the untouched
    /// seal is accepted.
    fn all(&mut self, rounds: usize, [seals, messages, keys]: [usize; 3]) {
        self.untouched();
        for _ in 0..rounds * soak() {
            self.every_value();
        }
        self.mixed_seals(seals * soak());
        self.messages(messages * soak());
        self.keys(keys * soak());
        self.untouched();
        assert_eq!(self.accepted, 2, "a damaged seal was accepted by the second program");
    }

    /// So many cases were drawn, and each compared whose turn came.
    fn at_least(&self, cases: usize) {
        assert!(self.drawn >= cases, "{} cases", self.drawn);
        assert_eq!(self.checks, self.drawn / thin() + 2);
    }
}

/// Where each n-byte value of a seal starts, and what it is.
fn values(row: &Row) -> Vec<(usize, String)> {
    let mut names = vec!["randomizer".to_string()];
    for tree in 0..row.k {
        names.push(format!("secret value of forest tree {tree}"));
        names.extend((0..row.a).map(|height| format!("path of forest tree {tree}, height {height}")));
    }
    for layer in 0..row.d {
        names.extend((0..CHAINS).map(|chain| format!("layer {layer}, chain {chain}")));
        names.extend((0..row.hp).map(|height| format!("layer {layer}, path, height {height}")));
    }
    assert_eq!(names.len() * row.n, row.seal);
    names.into_iter().enumerate().map(|(i, name)| (i * row.n, name)).collect()
}

/// A check under set 1 is the shorter one, so it has more of the 5,000 checks.
#[test]
fn set_1() {
    let mut sealed = Sealed::new(ROWS[0], Random::of_test(11));
    sealed.all(6, [200, 400, 100]);
    sealed.at_least(3_600);
}

#[test]
fn set_2() {
    let mut sealed = Sealed::new(ROWS[1], Random::of_test(12));
    sealed.all(1, [80, 120, 20]);
    sealed.at_least(1_400);
}

/// The F calls tell digests apart, so these compare the digest at every message length of the first blocks.
#[test]
fn every_short_length() {
    for (row, number, lengths) in [(ROWS[0], 13, 0..=300), (ROWS[1], 14, 0..=140)] {
        let mut forged = Sealed::forged(row, Random::of_test(number));
        for length in lengths {
            let message = forged.random.bytes(length);
            forged.drawn_message(&message, &format!("message of {length} bytes"));
        }
    }
}
