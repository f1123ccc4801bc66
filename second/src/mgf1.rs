//! MGF1 over SHA-256 and SHA-512 (RFC 8017, appendix B.2.1).

use crate::sha2::{sha256, sha512};

/// Hash(seed || counter) for counters 0, 1, 2, ... as four bytes, joined and cut to the wanted length.
fn mgf1(hash: fn(&[u8]) -> Vec<u8>, seed: &[u8], mask_length: usize) -> Vec<u8> {
    let mut mask = Vec::new();
    let mut counter = 0u32;
    while mask.len() < mask_length {
        mask.extend(hash(&[seed, &counter.to_be_bytes()].concat()));
        counter = counter.wrapping_add(1);
    }
    mask.truncate(mask_length);
    mask
}

/// MGF1-SHA-256 of the seed, `mask_length` bytes.
pub fn mgf1_sha256(seed: &[u8], mask_length: usize) -> Vec<u8> {
    mgf1(sha256, seed, mask_length)
}

/// MGF1-SHA-512 of the seed, `mask_length` bytes.
pub fn mgf1_sha512(seed: &[u8], mask_length: usize) -> Vec<u8> {
    mgf1(sha512, seed, mask_length)
}
