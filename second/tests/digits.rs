//! Digits, parameter rows, seal parts and places: what can be counted on paper.

mod common;

use common::Random;
use second::{chain_digits, digits, place, seal_part, seal_parts, Error, Params, Scheme, SETS};

#[test]
fn widths() {
    assert_eq!(digits(&[0x12, 0x34], 4, 4), Ok(vec![1, 2, 3, 4]));
    assert_eq!(digits(&[0xfc, 0x0f], 6, 2), Ok(vec![63, 0]));
    assert_eq!(digits(&[0xab, 0xcd, 0xef], 12, 2), Ok(vec![2748, 3567]));
    assert_eq!(digits(&[], 4, 0), Ok(vec![]));
    assert_eq!(digits(&[0x80], 1, 8), Ok(vec![1, 0, 0, 0, 0, 0, 0, 0]));
    assert_eq!(digits(&[0x01, 0x02, 0x03], 24, 1), Ok(vec![0x010203]));
}

/// Every width against reading the bits one by one.
#[test]
fn digits_are_the_bits_in_order() {
    let mut random = Random(1);
    for width in 1..=24u32 {
        let bytes = random.bytes(60);
        let bit = |i: usize| u32::from(bytes[i / 8] >> (7 - i % 8) & 1);
        let count = 8 * bytes.len() / width as usize;
        let expected: Vec<u32> = (0..count)
            .map(|digit| (0..width as usize).fold(0, |value, i| 2 * value + bit(digit * width as usize + i)))
            .collect();
        assert_eq!(digits(&bytes, width, count), Ok(expected), "width {width}");
    }
}

fn steps(digits: &[u32]) -> u32 {
    digits.iter().map(|digit| 15 - digit).sum()
}

#[test]
fn chain_digits_of_the_scope_examples() {
    let zeros = chain_digits(1, &[0; 16]).unwrap();
    assert_eq!(zeros, [vec![0; 32], vec![1, 14, 0]].concat());
    assert_eq!(steps(&zeros), 510);
    let ones = chain_digits(1, &[0xff; 16]).unwrap();
    assert_eq!(ones, [vec![15; 32], vec![0, 0, 0]].concat());
    assert_eq!(steps(&ones), 45);
    let mut value = [0; 16];
    value[0] = 1;
    let one = chain_digits(1, &value).unwrap();
    assert_eq!(one, [vec![0, 1], vec![0; 30], vec![1, 13, 15]].concat());
    assert_eq!(steps(&one), 495);
}

/// One value costs 15 (c div 16 + c div 256 + 3) steps, c its checksum: 45 at least; 510, 750 or 990 at most.
#[test]
fn cost_of_a_value() {
    for set in &SETS {
        let n = set.params.n;
        let greatest = match n {
            16 => 510,
            24 => 750,
            32 => 990,
            other => panic!("n = {other}"),
        };
        assert_eq!(steps(&chain_digits(set.number, &vec![0; n]).unwrap()), greatest, "{}", set.name);
        assert_eq!(steps(&chain_digits(set.number, &vec![0xff; n]).unwrap()), 45, "{}", set.name);
        let mut random = Random(u64::from(set.number));
        for _ in 0..500 {
            // Bytes with few or many bits, so that small and large checksums come up.
            let (a, b) = (random.bytes(n), random.bytes(n));
            let mixed = |f: fn(u8, u8) -> u8| a.iter().zip(&b).map(|(x, y)| f(*x, *y)).collect::<Vec<u8>>();
            for value in [mixed(|x, _| x), mixed(|x, y| x & y), mixed(|x, y| x | y)] {
                let found = chain_digits(set.number, &value).unwrap();
                assert_eq!(found.len(), 2 * n + 3);
                let checksum: u32 = found[..2 * n].iter().map(|digit| 15 - digit).sum();
                assert_eq!(steps(&found), 15 * (checksum / 16 + checksum / 256 + 3), "{value:?}");
                assert!((45..=greatest).contains(&steps(&found)));
                assert_eq!(found[2 * n..], [checksum / 256, checksum / 16 % 16, checksum % 16]);
            }
        }
    }
}

/// Of two different values, each has a digit lower than the other's.
#[test]
fn no_value_dominates_another() {
    let mut random = Random(2);
    for set in [1, 3, 5] {
        let n = SETS[set as usize - 1].params.n;
        for _ in 0..500 {
            let a = random.bytes(n);
            let mut b = a.clone();
            b[random.below(n)] ^= 1 << random.below(8);
            let (x, y) = (chain_digits(set, &a).unwrap(), chain_digits(set, &b).unwrap());
            assert!(x.iter().zip(&y).any(|(p, q)| p < q) && x.iter().zip(&y).any(|(p, q)| p > q));
        }
    }
}

#[test]
fn every_row_obeys_the_standards_relations() {
    for (index, set) in SETS.iter().enumerate() {
        let p = &set.params;
        let scheme = Scheme::of_set(set.number).unwrap();
        assert_eq!(set.number as usize, index + 1);
        assert_eq!(p.check(), Ok(()), "{}", set.name);
        assert_eq!((p.len2, scheme.chains()), (3, 2 * p.n + 3), "{}", set.name);
        assert_eq!(p.h, p.d * p.hp, "{}", set.name);
        assert_eq!(p.m, (p.h - p.hp).div_ceil(8) + p.hp.div_ceil(8) + (p.k * p.a).div_ceil(8), "{}", set.name);
        assert_eq!(set.seal, (1 + p.k * (p.a + 1) + p.h + (2 * p.n + 3) * p.d) * p.n, "{}", set.name);
        assert_eq!(set.seal, scheme.seal_length(), "{}", set.name);
        assert_eq!((set.public_key, set.secret_key), (2 * p.n, 4 * p.n), "{}", set.name);
        // Sets 7 to 12 have the numbers of 1 to 6.
        assert_eq!(SETS[(index + 6) % 12].params, *p, "{}", set.name);
    }
}

#[test]
fn parts_of_a_seal() {
    assert_eq!(seal_part(1, 0), Ok((0, 16)));
    assert_eq!(seal_part(1, 1), Ok((16, 2912)));
    for layer in 0..7 {
        assert_eq!(seal_part(1, 2 + layer), Ok((2928 + 704 * layer, 704)));
    }
    assert_eq!(seal_part(1, 9), Err(Error::NoSuchPart));
    assert_eq!(seal_part(2, 1), Ok((16, 3696)));
    assert_eq!(seal_part(2, 2), Ok((3712, 608)));
    assert_eq!(seal_part(2, 3), Ok((4320, 608)));
    for set in &SETS {
        let parts = seal_parts(set.number).unwrap();
        assert_eq!(parts.len(), set.params.d + 2);
        let end = parts.iter().fold(0, |end, (start, length)| {
            assert_eq!(*start, end, "{}: parts lie side by side", set.name);
            start + length
        });
        assert_eq!(end, set.seal, "{}", set.name);
        assert_eq!(seal_part(set.number, parts.len()), Err(Error::NoSuchPart));
        assert_eq!(seal_part(set.number, usize::MAX), Err(Error::NoSuchPart));
    }
}

#[test]
fn places() {
    let found = place(1, &[vec![0; 21], vec![0xff; 7], vec![0xfe, 0x05]].concat()).unwrap();
    assert_eq!((found.idx_tree, found.idx_leaf), (18_014_398_509_481_983, 5));
    let largest = place(6, &[0xff; 49]).unwrap();
    assert_eq!((largest.idx_tree, largest.idx_leaf), (u64::MAX, 15));
}

#[test]
fn rows_that_are_refused() {
    let good = Params::new(2, 4, 2, 2, 2, 2, 3);
    assert_eq!((good.check(), good.len2), (Ok(()), 2));
    assert_eq!(Params { len2: 3, ..good }.check(), Ok(()));
    let huge = usize::MAX;
    let bad = [
        Params { n: 0, ..good },
        Params { n: huge, ..good },
        Params { h: 5, ..good },
        Params { h: huge, ..good },
        Params { d: 0, h: 0, ..good },
        Params { d: huge, ..good },
        Params { hp: 0, h: 0, ..good },
        Params { hp: huge, ..good },
        Params { a: 0, ..good },
        Params { a: huge, ..good },
        Params { k: 0, ..good },
        Params { k: huge, ..good },
        Params { m: 4, ..good },
        Params { m: huge, ..good },
        Params { len2: 1, ..good },
        Params { len2: huge, ..good },
        Params::new(16, 70, 35, 2, 2, 2, 11), // 68 bits of tree number
        Params::new(huge, huge, huge, huge, huge, huge, huge),
    ];
    for params in bad {
        assert_eq!(params.check(), Err(Error::Row), "{params:?}");
        assert!(Scheme::of_row(params, &second::family::Shake).is_err(), "{params:?}");
    }
}
