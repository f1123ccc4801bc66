//! HMAC over SHA-256 and SHA-512 (FIPS 198-1).

use crate::sha2::{sha256, sha512, BLOCK_256, BLOCK_512};

/// FIPS 198-1, table 1: H((K0 xor opad) || H((K0 xor ipad) || text)).
fn hmac(hash: fn(&[u8]) -> Vec<u8>, block: usize, key: &[u8], text: &[u8]) -> Vec<u8> {
    // A key longer than a block is hashed first; a shorter one is filled up with zeros (steps 1 to 3).
    let mut k0 = if key.len() > block { hash(key) } else { key.to_vec() };
    k0.resize(block, 0);
    let mut inner: Vec<u8> = k0.iter().map(|byte| byte ^ 0x36).collect();
    inner.extend(text);
    let mut outer: Vec<u8> = k0.iter().map(|byte| byte ^ 0x5c).collect();
    outer.extend(hash(&inner));
    hash(&outer)
}

/// HMAC-SHA-256: 32 bytes.
pub fn hmac_sha256(key: &[u8], text: &[u8]) -> Vec<u8> {
    hmac(sha256, BLOCK_256, key, text)
}

/// HMAC-SHA-512: 64 bytes.
pub fn hmac_sha512(key: &[u8], text: &[u8]) -> Vec<u8> {
    hmac(sha512, BLOCK_512, key, text)
}
