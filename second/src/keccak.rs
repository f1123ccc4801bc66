//! `Keccak-f[1600]`, SHAKE128 and SHAKE256 (FIPS 202).

/// Bytes absorbed or squeezed between two permutations of SHAKE128: (1600 - 2 * 128) / 8.
const RATE_128: usize = 168;
/// Bytes absorbed or squeezed between two permutations of SHAKE256: (1600 - 2 * 256) / 8.
const RATE_256: usize = 136;

/// Lane (x, y) of the state stands at index x + 5y (FIPS 202, section 3.1.2).
type State = [u64; 25];

/// Round constants of iota (FIPS 202, section 3.2.5); a unit test computes them again from the standard's algorithm 5.
const ROUND_CONSTANTS: [u64; 24] = [
    0x0000000000000001,
    0x0000000000008082,
    0x800000000000808a,
    0x8000000080008000,
    0x000000000000808b,
    0x0000000080000001,
    0x8000000080008081,
    0x8000000000008009,
    0x000000000000008a,
    0x0000000000000088,
    0x0000000080008009,
    0x000000008000000a,
    0x000000008000808b,
    0x800000000000008b,
    0x8000000000008089,
    0x8000000000008003,
    0x8000000000008002,
    0x8000000000000080,
    0x000000000000800a,
    0x800000008000000a,
    0x8000000080008081,
    0x8000000000008080,
    0x0000000080000001,
    0x8000000080008008,
];

/// Rotation offsets of rho, lane (x, y) at index x + 5y; a unit test computes them again from algorithm 2.
#[rustfmt::skip]
const ROTATIONS: [u32; 25] = [
     0,  1, 62, 28, 27,
    36, 44,  6, 55, 20,
     3, 10, 43, 25, 39,
    41, 45, 15, 21,  8,
    18,  2, 61, 56, 14,
];

/// FIPS 202, algorithm 1: each lane is mixed with the parities of two columns.
fn theta(a: &mut State) {
    let mut c = [0u64; 5];
    for x in 0..5 {
        c[x] = a[x] ^ a[x + 5] ^ a[x + 10] ^ a[x + 15] ^ a[x + 20];
    }
    for x in 0..5 {
        let d = c[(x + 4) % 5] ^ c[(x + 1) % 5].rotate_left(1);
        for y in 0..5 {
            a[x + 5 * y] ^= d;
        }
    }
}

/// FIPS 202, algorithms 2 and 3: lanes are rotated, then moved: A'[x, y] = A[(x + 3y) mod 5, x].
fn rho_and_pi(a: &State) -> State {
    let mut b = [0u64; 25];
    for y in 0..5 {
        for x in 0..5 {
            let from = (x + 3 * y) % 5 + 5 * x;
            b[x + 5 * y] = a[from].rotate_left(ROTATIONS[from]);
        }
    }
    b
}

/// FIPS 202, algorithm 4: A'[x, y] = A[x, y] xor (not A[x + 1, y] and A[x + 2, y]).
fn chi(b: &State) -> State {
    let mut a = [0u64; 25];
    for y in 0..5 {
        for x in 0..5 {
            a[x + 5 * y] = b[x + 5 * y] ^ (!b[(x + 1) % 5 + 5 * y] & b[(x + 2) % 5 + 5 * y]);
        }
    }
    a
}

/// Keccak-f[1600]: 24 rounds of theta, rho, pi, chi, iota (FIPS 202, section 3.3).
fn keccak_f(a: &mut State) {
    for constant in ROUND_CONSTANTS {
        theta(a);
        *a = chi(&rho_and_pi(a));
        a[0] ^= constant; // iota
    }
}

/// Xors a block, whole lanes, into the start of the state. Byte i of a lane is its bits 8i to 8i + 7 (FIPS 202,
/// appendix B.1).
fn xor_into(a: &mut State, block: &[u8]) {
    for (lane, bytes) in a.iter_mut().zip(block.chunks_exact(8)) {
        *lane ^= bytes.iter().rev().fold(0, |word, &byte| word << 8 | u64::from(byte));
    }
}

/// The sponge with SHAKE's suffix 1111 and the padding 10*1: on whole bytes 1F, zeros, and 80 in the rate's last byte.
fn shake(rate: usize, input: &[u8], output_length: usize) -> Vec<u8> {
    let mut a: State = [0; 25];
    let mut blocks = input.chunks_exact(rate);
    for block in &mut blocks {
        xor_into(&mut a, block);
        keccak_f(&mut a);
    }
    let rest = blocks.remainder();
    let mut last = [0u8; 200];
    last[..rest.len()].copy_from_slice(rest);
    last[rest.len()] ^= 0x1f;
    last[rate - 1] ^= 0x80;
    xor_into(&mut a, &last[..rate]);
    keccak_f(&mut a);

    let mut output = Vec::with_capacity(output_length);
    while output.len() < output_length {
        if !output.is_empty() {
            keccak_f(&mut a);
        }
        let bytes = a.iter().flat_map(|lane| lane.to_le_bytes());
        output.extend(bytes.take(rate.min(output_length - output.len())));
    }
    output
}

/// SHAKE128 of the input, cut to `output_length` bytes.
pub fn shake128(input: &[u8], output_length: usize) -> Vec<u8> {
    shake(RATE_128, input, output_length)
}

/// SHAKE256 of the input, cut to `output_length` bytes.
pub fn shake256(input: &[u8], output_length: usize) -> Vec<u8> {
    shake(RATE_256, input, output_length)
}

#[cfg(test)]
mod tests {
    use super::*;

    /// FIPS 202, algorithm 5: bit t of the linear feedback shift register.
    fn rc(t: usize) -> u64 {
        let mut r = [1u8, 0, 0, 0, 0, 0, 0, 0, 0];
        for _ in 0..t % 255 {
            r.rotate_right(1); // r[8] was 0, so a zero enters on the left
            for i in [0, 4, 5, 6] {
                r[i] ^= r[8];
            }
            r[8] = 0;
        }
        u64::from(r[0])
    }

    #[test]
    fn round_constants_follow_algorithm_5() {
        for (round, constant) in ROUND_CONSTANTS.iter().enumerate() {
            let expected = (0..=6).fold(0u64, |sum, j| sum | rc(j + 7 * round) << ((1 << j) - 1));
            assert_eq!(*constant, expected, "round {round}");
        }
    }

    #[test]
    fn rotations_follow_algorithm_2() {
        let mut expected = [0u32; 25];
        let (mut x, mut y) = (1, 0);
        for t in 0..24 {
            expected[x + 5 * y] = (t + 1) * (t + 2) / 2 % 64;
            (x, y) = (y, (2 * x + 3 * y) % 5);
        }
        assert_eq!(ROTATIONS, expected);
    }

    #[test]
    fn longer_output_begins_with_the_shorter() {
        let long = shake256(b"prefix", 1000);
        for length in [0, 1, 16, 135, 136, 137, 271, 272, 273, 999] {
            assert_eq!(shake256(b"prefix", length), long[..length], "length {length}");
        }
    }
}
