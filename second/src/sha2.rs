//! SHA-256 and SHA-512 (FIPS 180-4).

/// Bytes of a SHA-256 block.
pub const BLOCK_256: usize = 64;
/// Bytes of a SHA-512 block.
pub const BLOCK_512: usize = 128;

/// First 64 bits of the fractional parts of the cube roots of the first eighty primes (FIPS 180-4, section 4.2.3).
/// SHA-256 uses the first 32 bits of the first sixty-four of them (section 4.2.2).
#[rustfmt::skip]
const K: [u64; 80] = [
    0x428a2f98d728ae22, 0x7137449123ef65cd, 0xb5c0fbcfec4d3b2f, 0xe9b5dba58189dbbc,
    0x3956c25bf348b538, 0x59f111f1b605d019, 0x923f82a4af194f9b, 0xab1c5ed5da6d8118,
    0xd807aa98a3030242, 0x12835b0145706fbe, 0x243185be4ee4b28c, 0x550c7dc3d5ffb4e2,
    0x72be5d74f27b896f, 0x80deb1fe3b1696b1, 0x9bdc06a725c71235, 0xc19bf174cf692694,
    0xe49b69c19ef14ad2, 0xefbe4786384f25e3, 0x0fc19dc68b8cd5b5, 0x240ca1cc77ac9c65,
    0x2de92c6f592b0275, 0x4a7484aa6ea6e483, 0x5cb0a9dcbd41fbd4, 0x76f988da831153b5,
    0x983e5152ee66dfab, 0xa831c66d2db43210, 0xb00327c898fb213f, 0xbf597fc7beef0ee4,
    0xc6e00bf33da88fc2, 0xd5a79147930aa725, 0x06ca6351e003826f, 0x142929670a0e6e70,
    0x27b70a8546d22ffc, 0x2e1b21385c26c926, 0x4d2c6dfc5ac42aed, 0x53380d139d95b3df,
    0x650a73548baf63de, 0x766a0abb3c77b2a8, 0x81c2c92e47edaee6, 0x92722c851482353b,
    0xa2bfe8a14cf10364, 0xa81a664bbc423001, 0xc24b8b70d0f89791, 0xc76c51a30654be30,
    0xd192e819d6ef5218, 0xd69906245565a910, 0xf40e35855771202a, 0x106aa07032bbd1b8,
    0x19a4c116b8d2d0c8, 0x1e376c085141ab53, 0x2748774cdf8eeb99, 0x34b0bcb5e19b48a8,
    0x391c0cb3c5c95a63, 0x4ed8aa4ae3418acb, 0x5b9cca4f7763e373, 0x682e6ff3d6b2b8a3,
    0x748f82ee5defb2fc, 0x78a5636f43172f60, 0x84c87814a1f0ab72, 0x8cc702081a6439ec,
    0x90befffa23631e28, 0xa4506cebde82bde9, 0xbef9a3f7b2c67915, 0xc67178f2e372532b,
    0xca273eceea26619c, 0xd186b8c721c0c207, 0xeada7dd6cde0eb1e, 0xf57d4f7fee6ed178,
    0x06f067aa72176fba, 0x0a637dc5a2c898a6, 0x113f9804bef90dae, 0x1b710b35131c471b,
    0x28db77f523047d84, 0x32caab7b40c72493, 0x3c9ebe0a15c9bebc, 0x431d67c49c100d4c,
    0x4cc5d4becb3e42b6, 0x597f299cfc657e2a, 0x5fcb6fab3ad6faec, 0x6c44198c4a475817,
];

/// First 64 bits of the fractional parts of the square roots of the first eight primes (FIPS 180-4, section 5.3.5).
/// SHA-256 begins with the first 32 bits of each (section 5.3.3).
const INITIAL: [u64; 8] = [
    0x6a09e667f3bcc908,
    0xbb67ae8584caa73b,
    0x3c6ef372fe94f82b,
    0xa54ff53a5f1d36f1,
    0x510e527fade682d1,
    0x9b05688c2b3e6c1f,
    0x1f83d9abfb41bd6b,
    0x5be0cd19137e2179,
];

/// The first 32 bits of a 64-bit constant.
fn upper(x: u64) -> u32 {
    (x >> 32) as u32
}

/// FIPS 180-4, section 5.1: the last bytes of the message, a one bit, zeros, and the message's length in bits.
fn pad(rest: &[u8], message_length: usize, block: usize, length_bytes: usize) -> Vec<u8> {
    let mut padded = rest.to_vec();
    padded.push(0x80);
    while !(padded.len() + length_bytes).is_multiple_of(block) {
        padded.push(0);
    }
    let bits = 8 * message_length as u128;
    padded.extend(&bits.to_be_bytes()[16 - length_bytes..]);
    padded
}

/// FIPS 180-4, section 6.2.2: one block into the SHA-256 hash value.
fn compress_256(hash: &mut [u32; 8], block: &[u8]) {
    let mut w = [0u32; 64];
    for (t, bytes) in block.chunks_exact(4).enumerate() {
        w[t] = u32::from_be_bytes([bytes[0], bytes[1], bytes[2], bytes[3]]);
    }
    for t in 16..64 {
        let s0 = w[t - 15].rotate_right(7) ^ w[t - 15].rotate_right(18) ^ (w[t - 15] >> 3);
        let s1 = w[t - 2].rotate_right(17) ^ w[t - 2].rotate_right(19) ^ (w[t - 2] >> 10);
        w[t] = s1.wrapping_add(w[t - 7]).wrapping_add(s0).wrapping_add(w[t - 16]);
    }
    let [mut a, mut b, mut c, mut d, mut e, mut f, mut g, mut h] = *hash;
    for t in 0..64 {
        let sum1 = e.rotate_right(6) ^ e.rotate_right(11) ^ e.rotate_right(25);
        let ch = (e & f) ^ (!e & g);
        let t1 = h.wrapping_add(sum1).wrapping_add(ch).wrapping_add(upper(K[t])).wrapping_add(w[t]);
        let sum0 = a.rotate_right(2) ^ a.rotate_right(13) ^ a.rotate_right(22);
        let maj = (a & b) ^ (a & c) ^ (b & c);
        let t2 = sum0.wrapping_add(maj);
        (h, g, f, e) = (g, f, e, d.wrapping_add(t1));
        (d, c, b, a) = (c, b, a, t1.wrapping_add(t2));
    }
    for (word, step) in hash.iter_mut().zip([a, b, c, d, e, f, g, h]) {
        *word = word.wrapping_add(step);
    }
}

/// FIPS 180-4, section 6.4.2: one block into the SHA-512 hash value.
fn compress_512(hash: &mut [u64; 8], block: &[u8]) {
    let mut w = [0u64; 80];
    for (t, bytes) in block.chunks_exact(8).enumerate() {
        w[t] = bytes.iter().fold(0, |word, &byte| word << 8 | u64::from(byte));
    }
    for t in 16..80 {
        let s0 = w[t - 15].rotate_right(1) ^ w[t - 15].rotate_right(8) ^ (w[t - 15] >> 7);
        let s1 = w[t - 2].rotate_right(19) ^ w[t - 2].rotate_right(61) ^ (w[t - 2] >> 6);
        w[t] = s1.wrapping_add(w[t - 7]).wrapping_add(s0).wrapping_add(w[t - 16]);
    }
    let [mut a, mut b, mut c, mut d, mut e, mut f, mut g, mut h] = *hash;
    for t in 0..80 {
        let sum1 = e.rotate_right(14) ^ e.rotate_right(18) ^ e.rotate_right(41);
        let ch = (e & f) ^ (!e & g);
        let t1 = h.wrapping_add(sum1).wrapping_add(ch).wrapping_add(K[t]).wrapping_add(w[t]);
        let sum0 = a.rotate_right(28) ^ a.rotate_right(34) ^ a.rotate_right(39);
        let maj = (a & b) ^ (a & c) ^ (b & c);
        let t2 = sum0.wrapping_add(maj);
        (h, g, f, e) = (g, f, e, d.wrapping_add(t1));
        (d, c, b, a) = (c, b, a, t1.wrapping_add(t2));
    }
    for (word, step) in hash.iter_mut().zip([a, b, c, d, e, f, g, h]) {
        *word = word.wrapping_add(step);
    }
}

/// SHA-256: 32 bytes.
pub fn sha256(message: &[u8]) -> Vec<u8> {
    let mut hash = INITIAL.map(upper);
    let blocks = message.chunks_exact(BLOCK_256);
    let last = pad(blocks.remainder(), message.len(), BLOCK_256, 8);
    for block in blocks.chain(last.chunks_exact(BLOCK_256)) {
        compress_256(&mut hash, block);
    }
    hash.iter().flat_map(|word| word.to_be_bytes()).collect()
}

/// SHA-512: 64 bytes.
pub fn sha512(message: &[u8]) -> Vec<u8> {
    let mut hash = INITIAL;
    let blocks = message.chunks_exact(BLOCK_512);
    let last = pad(blocks.remainder(), message.len(), BLOCK_512, 16);
    for block in blocks.chain(last.chunks_exact(BLOCK_512)) {
        compress_512(&mut hash, block);
    }
    hash.iter().flat_map(|word| word.to_be_bytes()).collect()
}

#[cfg(test)]
mod tests {
    use super::*;

    fn primes(count: usize) -> Vec<u128> {
        (2u128..).filter(|p| (2..*p).all(|q| p % q != 0)).take(count).collect()
    }

    /// `constant` is the fraction of a root of `prime`: with f = floor(root) + constant / 2^64, the power of f is at
    /// most `prime` and the power of f + 2^-64 is above it. Limbs of 32 bits hold the numbers, as they pass 128 bits.
    fn is_fraction_of_root(constant: u64, prime: u128, degree: u32) -> bool {
        let floor = (1u128..).take_while(|r| r.pow(degree) <= prime).count() as u128;
        let root = floor << 64 | u128::from(constant);
        power_at_most(root, degree, prime) && !power_at_most(root + 1, degree, prime)
    }

    /// Whether root^degree <= prime * 2^(64 * degree).
    fn power_at_most(root: u128, degree: u32, prime: u128) -> bool {
        let limbs = |x: u128| (0..4).map(|i| (x >> (32 * i)) as u32).collect::<Vec<_>>();
        let mut power = vec![1u32];
        for _ in 0..degree {
            power = multiply(&power, &limbs(root));
        }
        let mut bound = vec![0u32; 2 * degree as usize];
        bound.extend(limbs(prime));
        bound.resize(power.len().max(bound.len()), 0);
        power.resize(bound.len(), 0);
        power.iter().rev().le(bound.iter().rev())
    }

    fn multiply(a: &[u32], b: &[u32]) -> Vec<u32> {
        let mut product = vec![0u32; a.len() + b.len()];
        for (i, x) in a.iter().enumerate() {
            let mut carry = 0u64;
            for (j, y) in b.iter().enumerate() {
                carry += u64::from(*x) * u64::from(*y) + u64::from(product[i + j]);
                product[i + j] = carry as u32;
                carry >>= 32;
            }
            product[i + b.len()] = carry as u32;
        }
        product
    }

    #[test]
    fn constants_are_fractions_of_roots() {
        for (constant, prime) in K.iter().zip(primes(80)) {
            assert!(is_fraction_of_root(*constant, prime, 3), "cube root of {prime}");
        }
        for (constant, prime) in INITIAL.iter().zip(primes(8)) {
            assert!(is_fraction_of_root(*constant, prime, 2), "square root of {prime}");
        }
    }
}
