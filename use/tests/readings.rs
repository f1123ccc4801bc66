//! Parts and digits against the second program's, and against the scope's own cases.

mod common;

use common::{soak, Random};
use skimdral::{digits, face, part, Answer, SETS};

/// A part is the slice of the seal itself, and the parts are the seal from its first byte to its last.
#[test]
fn parts_lie_in_the_seal() {
    let random = &mut Random::of_test(21);
    for set in &SETS {
        let seal = random.bytes(set.seal);
        let parts: Vec<&[u8]> = (0..set.parts).map(|i| part(set.number, &seal, i).expect("a part")).collect();
        let expected = second::seal_parts(set.number).expect("a set");
        assert_eq!(parts.len(), expected.len());
        for (part, (start, length)) in parts.iter().zip(expected) {
            assert!(std::ptr::eq(*part, &seal[start..start + length]), "set {}", set.number);
        }
        assert!(parts.concat() == seal);
        assert_eq!(part(set.number, &seal, set.parts), Err(Answer::UnknownPart));
    }
}

/// The places that the scope names.
#[test]
fn parts_of_the_scope() {
    let place = |set: u32, length: usize, number: u32| {
        let (mut start, mut size) = (usize::MAX, usize::MAX);
        let answer = face::part(set, &vec![0; length], number, &mut start, &mut size);
        (answer, start, size)
    };
    assert_eq!(place(1, 7856, 0), (0, 0, 16));
    assert_eq!(place(1, 7856, 1), (0, 16, 2912));
    assert_eq!(place(1, 7856, 2), (0, 2928, 704));
    assert_eq!(place(1, 7856, 8), (0, 2928 + 6 * 704, 704));
    assert_eq!(place(1, 7856, 9), (6, 0, 0));
    assert_eq!(place(2, 17088, 1), (0, 16, 3696));
    assert_eq!(place(2, 17088, 2), (0, 3712, 608));
    assert_eq!(place(2, 17088, 23), (0, 3712 + 21 * 608, 608));
    assert_eq!(place(2, 17088, 24), (6, 0, 0));
    assert_eq!(place(1, 7855, 9), (4, 0, 0));
}

#[test]
fn digits_of_values() {
    let random = &mut Random::of_test(22);
    for set in &SETS {
        for _ in 0..10_000 * soak() {
            let value = random.bytes(set.n);
            assert_eq!(digits(set.number, &value), Ok(second::chain_digits(set.number, &value).expect("legal")));
        }
        for byte in 0..=255 {
            for place in 0..set.n {
                let mut value = vec![0; set.n];
                value[place] = byte;
                assert_eq!(digits(set.number, &value), Ok(second::chain_digits(set.number, &value).expect("legal")));
            }
        }
    }
}

/// Sixteen 00, sixteen FF, and 01 with fifteen 00: the checksum's digits and the steps to the ends.
#[test]
fn digits_of_the_scope() {
    let mut one = [0; 16];
    one[0] = 1;
    let cases = [([0; 16], [1, 14, 0], 510), ([0xff; 16], [0, 0, 0], 45), (one, [1, 13, 15], 495)];
    for set in &SETS {
        for (value, checksum, steps) in cases {
            let digits = digits(set.number, &value).expect("legal");
            assert_eq!(digits[32..], checksum);
            assert_eq!(digits.iter().map(|digit| 15 - digit).sum::<u32>(), steps);
        }
    }
}
