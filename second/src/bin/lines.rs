//! Reads requests from standard input, one a line, and answers each with one line. Bytes are in hex, `-` for none.
//!
//! | request | answer |
//! |---|---|
//! | `keys SET SEEDS` | public key and secret key; SEEDS is SK.seed, SK.prf, PK.seed joined |
//! | `seal SET SECRET RANDOM MESSAGE` | the seal; RANDOM `-` is the deterministic variant |
//! | `check SET PUBLIC MESSAGE SEAL` | `accept` or `reject`, and the number of F calls |
//!
//! Messages are in the plain frame with an empty context. A refused request is answered `refused` and the reason.

use second::cases::hex;
use std::io::{self, BufRead, Write};

fn main() -> io::Result<()> {
    let mut out = io::stdout().lock();
    for line in io::stdin().lock().lines() {
        let answer = answer(&line?).unwrap_or_else(|reason| format!("refused {reason}"));
        writeln!(out, "{answer}")?;
    }
    Ok(())
}

fn answer(line: &str) -> Result<String, String> {
    let fields: Vec<&str> = line.split_whitespace().collect();
    match fields[..] {
        ["keys", set, seeds] => keys(number(set)?, &bytes(seeds)?),
        ["seal", set, secret, random, message] => {
            seal(number(set)?, &bytes(secret)?, &bytes(random)?, &bytes(message)?)
        }
        ["check", set, public, message, seal] => check(number(set)?, &bytes(public)?, &bytes(message)?, &bytes(seal)?),
        _ => Err("unknown request".to_string()),
    }
}

fn keys(set: u32, seeds: &[u8]) -> Result<String, String> {
    if !seeds.len().is_multiple_of(3) {
        return Err(second::Error::SeedLength.to_string());
    }
    let (sk_seed, rest) = seeds.split_at(seeds.len() / 3);
    let (sk_prf, pk_seed) = rest.split_at(seeds.len() / 3);
    let (public, secret) = second::keygen(set, sk_seed, sk_prf, pk_seed).map_err(|e| e.to_string())?;
    Ok(format!("{} {}", hex(&public), hex(&secret)))
}

fn seal(set: u32, secret: &[u8], random: &[u8], message: &[u8]) -> Result<String, String> {
    let addrnd = if random.is_empty() { None } else { Some(random) };
    let seal = second::sign(set, message, &[], secret, addrnd).map_err(|e| e.to_string())?;
    Ok(hex(&seal))
}

fn check(set: u32, public: &[u8], message: &[u8], seal: &[u8]) -> Result<String, String> {
    let verdict = second::check(set, message, seal, &[], public).map_err(|e| e.to_string())?;
    let word = if verdict.accepted { "accept" } else { "reject" };
    Ok(format!("{word} {}", verdict.tally.f))
}

fn number(text: &str) -> Result<u32, String> {
    text.parse().map_err(|_| "set is not a number".to_string())
}

fn bytes(text: &str) -> Result<Vec<u8>, String> {
    let bad = || "bytes are not hex".to_string();
    if text == "-" {
        return Ok(Vec::new());
    }
    if !text.len().is_multiple_of(2) {
        return Err(bad());
    }
    let digits: Option<Vec<u32>> = text.chars().map(|c| c.to_digit(16)).collect();
    let digits = digits.ok_or_else(bad)?;
    Ok(digits.chunks_exact(2).map(|pair| (16 * pair[0] + pair[1]) as u8).collect())
}
