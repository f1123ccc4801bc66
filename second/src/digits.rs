//! Integers, byte strings and digits (FIPS 205, section 4.4, and algorithm 1).

/// Algorithm 1, gen_len2(n, lg_w): the number of checksum digits (equation 5.3).
pub(crate) const fn gen_len2(n: usize, lg_w: u32) -> usize {
    let w: u128 = 1 << lg_w;
    let len1 = (8 * n as u128).div_ceil(lg_w as u128);
    let max_checksum = len1 * (w - 1);
    let mut len2 = 1;
    let mut capacity = w; // len2 chains can sign values up to w^len2 - 1
    while capacity <= max_checksum {
        len2 += 1;
        capacity *= w;
    }
    len2
}

/// Algorithm 2, toInt(X, n), for at most 16 bytes.
pub(crate) fn to_int(x: &[u8]) -> u128 {
    let mut total = 0u128;
    for byte in x {
        total = 256 * total + u128::from(*byte);
    }
    total
}

/// Algorithm 3, toByte(x, n).
pub(crate) fn to_byte(x: u64, n: usize) -> Vec<u8> {
    let mut total = x;
    let mut s = vec![0u8; n];
    for i in 0..n {
        s[n - 1 - i] = (total % 256) as u8;
        total >>= 8;
    }
    s
}

/// Algorithm 4, base_2b(X, b, out_len): digits of b bits, from the most significant end of each byte.
/// X has at least ceil(out_len * b / 8) bytes and b is at most 24.
pub(crate) fn base_2b(x: &[u8], b: u32, out_len: usize) -> Vec<u32> {
    let mut baseb = Vec::with_capacity(out_len);
    let mut input = x.iter();
    let mut bits = 0;
    let mut total = 0u32;
    for _ in 0..out_len {
        while bits < b {
            // Bits shifted out on the left were used up by earlier digits: only b + 7 bits are ever needed.
            total = (total << 8) + u32::from(*input.next().expect("enough bytes, see above"));
            bits += 8;
        }
        bits -= b;
        baseb.push((total >> bits) % (1 << b));
    }
    baseb
}

#[cfg(test)]
mod tests {
    use super::*;

    #[test]
    fn integers_and_bytes() {
        assert_eq!(to_int(&[]), 0);
        assert_eq!(to_int(&[1, 2, 3]), 0x010203);
        assert_eq!(to_int(&[0xff; 8]), u128::from(u64::MAX));
        assert_eq!(to_byte(0x010203, 2), [2, 3]);
        assert_eq!(to_byte(0x010203, 5), [0, 0, 1, 2, 3]);
        assert_eq!(to_byte(7, 0), []);
    }

    #[test]
    fn checksum_digits_of_small_and_real_values() {
        // Equation 5.3 by its logarithm, in exact arithmetic: w^(len2 - 1) <= max_checksum < w^len2.
        for n in 1..=64usize {
            let max_checksum = 2 * n as u64 * 15;
            let len2 = gen_len2(n, 4) as u32;
            assert!(16u64.pow(len2 - 1) <= max_checksum && max_checksum < 16u64.pow(len2), "n = {n}");
        }
        assert_eq!([1, 2, 8, 9, 16, 24, 32].map(|n| gen_len2(n, 4)), [2, 2, 2, 3, 3, 3, 3]);
    }
}
