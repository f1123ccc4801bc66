//! What several test files need: reading vectors, hex, running a program, a small generator of test bytes, and stand-in
//! families.

#![allow(dead_code, unused_imports)] // each test file uses a part of this

pub use second::cases::hex;

use second::address::Address;
use second::sets::Params;
use second::Family;
use std::fs;
use std::io::Write;
use std::path::Path;
use std::process::{Command, Stdio};

/// A line of a vectors file, with its place for messages.
pub struct Line {
    pub place: String,
    pub fields: Vec<String>,
}

impl Line {
    pub fn text(&self, index: usize) -> &str {
        &self.fields[index]
    }

    pub fn number(&self, index: usize) -> usize {
        self.fields[index].parse().unwrap_or_else(|_| panic!("{}: field {index} is no number", self.place))
    }

    pub fn bytes(&self, index: usize) -> Vec<u8> {
        unhex(&self.fields[index])
    }
}

/// All lines of a file of the vectors folder. There must be exactly `count`, each with `fields` fields.
pub fn read(file: &str, count: usize, fields: usize) -> Vec<Line> {
    let path = Path::new(env!("CARGO_MANIFEST_DIR")).join("vectors").join(file);
    let text = fs::read_to_string(path).unwrap_or_else(|error| panic!("{file}: {error}"));
    let lines: Vec<Line> = text
        .lines()
        .enumerate()
        .map(|(i, line)| Line {
            place: format!("{file} line {}", i + 1),
            fields: line.split(' ').map(str::to_string).collect(),
        })
        .collect();
    assert_eq!(lines.len(), count, "{file}: number of lines");
    for line in &lines {
        assert_eq!(line.fields.len(), fields, "{}: number of fields", line.place);
    }
    lines
}

pub fn unhex(text: &str) -> Vec<u8> {
    if text == "-" {
        return Vec::new();
    }
    assert!(text.len().is_multiple_of(2) && text.is_ascii(), "not hex: {text}");
    (0..text.len()).step_by(2).map(|i| u8::from_str_radix(&text[i..i + 2], 16).expect("hex")).collect()
}

/// What a program writes when it is given this text to read.
pub fn run(program: &str, input: &str) -> String {
    let mut child =
        Command::new(program).stdin(Stdio::piped()).stdout(Stdio::piped()).spawn().expect("the program starts");
    child.stdin.take().expect("its input").write_all(input.as_bytes()).expect("it reads");
    let output = child.wait_with_output().expect("it ends");
    assert!(output.status.success());
    String::from_utf8(output.stdout).expect("text")
}

/// The generator splitmix64, seeded by each test with a number of its own.
pub struct Random(pub u64);

impl Random {
    pub fn next(&mut self) -> u64 {
        self.0 = self.0.wrapping_add(0x9e3779b97f4a7c15);
        let mut z = self.0;
        z = (z ^ (z >> 30)).wrapping_mul(0xbf58476d1ce4e5b9);
        z = (z ^ (z >> 27)).wrapping_mul(0x94d049bb133111eb);
        z ^ (z >> 31)
    }

    pub fn below(&mut self, bound: usize) -> usize {
        (self.next() % bound as u64) as usize
    }

    pub fn bytes(&mut self, length: usize) -> Vec<u8> {
        (0..length).map(|_| self.next() as u8).collect()
    }
}

/// A stand-in family over one hash of a letter for the function, the parts and a length.
pub struct ByLetter(pub fn(u8, &[&[u8]], usize) -> Vec<u8>);

impl Family for ByLetter {
    fn h_msg(&self, p: &Params, r: &[u8], pk_seed: &[u8], pk_root: &[u8], m: &[u8]) -> Vec<u8> {
        self.0(b'D', &[r, pk_seed, pk_root, m], p.m)
    }
    fn prf(&self, p: &Params, pk_seed: &[u8], sk_seed: &[u8], adrs: &Address) -> Vec<u8> {
        self.0(b'S', &[pk_seed, adrs.bytes(), sk_seed], p.n)
    }
    fn prf_msg(&self, p: &Params, sk_prf: &[u8], opt_rand: &[u8], m: &[u8]) -> Vec<u8> {
        self.0(b'R', &[sk_prf, opt_rand, m], p.n)
    }
    fn f(&self, p: &Params, pk_seed: &[u8], adrs: &Address, m1: &[u8]) -> Vec<u8> {
        self.0(b'F', &[pk_seed, adrs.bytes(), m1], p.n)
    }
    fn h(&self, p: &Params, pk_seed: &[u8], adrs: &Address, m2: &[u8]) -> Vec<u8> {
        self.0(b'H', &[pk_seed, adrs.bytes(), m2], p.n)
    }
    fn t(&self, p: &Params, pk_seed: &[u8], adrs: &Address, ml: &[u8]) -> Vec<u8> {
        self.0(b'T', &[pk_seed, adrs.bytes(), ml], p.n)
    }
}
