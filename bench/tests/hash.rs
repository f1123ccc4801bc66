//! The proved hash against the second implementation's and stored values, and against the buffers that it is lent: it
//! changes no byte beside the output, and what stood in the output before doesn't matter.

use second::cases::hex;
use second::keccak::shake256;

/// Guard bytes on each side of a buffer.
const FENCE: usize = 64;
/// The block of SHAKE256, in bytes and in lanes (FIPS 202, 6.2).
const RATE: usize = 136;
const RATE_LANES: usize = 17;

/// A message in which neither bytes nor blocks repeat soon.
fn message(length: usize) -> Vec<u8> {
    (0..length).map(|i| ((31 * i + i / 256) % 251) as u8).collect()
}

/// The bytes between two fences, the first of which is longer by `shift`, so that buffers start at every alignment.
fn fenced(guard: u8, shift: usize, bytes: &[u8]) -> Vec<u8> {
    [&vec![guard; FENCE + shift], bytes, &[guard; FENCE]].concat()
}

/// Our hash of the message, once with each of two fillings of the fences and of the output. The shifts depend on the
/// message's length so that 64 messages in a row meet every pair of alignments.
fn compare(message: &[u8], length: usize) {
    let expected = shake256(message, length);
    let (left, right) = (message.len() / 8 % 8, message.len() % 8);
    for guard in [0x00, 0xff] {
        let input = fenced(guard, left, message);
        let mut output = fenced(guard, right, &vec![guard; length]);
        let lent = &mut output[FENCE + right..][..length];
        bench::shake256(&input[FENCE + left..][..message.len()], lent);
        let sizes = format!("{} bytes hashed to {length}", message.len());
        assert!(input == fenced(guard, left, message), "{sizes}: the message was changed");
        assert!(output == fenced(guard, right, &expected), "{sizes}: another output, or a fence was changed");
    }
}

#[test]
fn every_short_length() {
    for length in 0..=600 {
        let message = message(length);
        for output in [0, 1, 16, 30, 32, 135, 136, 137, 300] {
            compare(&message, output);
        }
    }
}

#[test]
fn long_messages_and_outputs() {
    for (length, output) in [(65_535, 32), (65_536, 64), (65_538, 0), (65_538, 16), (64, 65_538), (65_538, 65_538)] {
        compare(&message(length), output);
    }
}

/// Ten messages at six output lengths, a line each: the lengths of both, and the output as Python's hashlib gives it
/// (`hashlib.shake_256`, Python 3.11 over OpenSSL 3.0).
#[test]
fn values_of_pythons_hashlib() {
    let lines: Vec<&str> = include_str!("shake256.txt").lines().collect();
    assert_eq!(lines.len(), 60);
    for line in lines {
        let fields: Vec<&str> = line.split(' ').collect();
        let [length, output, value] = fields[..] else { panic!("no value: {line}") };
        let [length, output] = [length, output].map(|text| text.parse().expect("a length"));
        let mut out = vec![0xff; output];
        bench::shake256(&message(length), &mut out);
        assert_eq!(hex(&out), value, "{length} bytes hashed to {output}");
    }
}

/// Every byte value in each place of a message of one block.
#[test]
fn every_byte_in_every_place() {
    let mut message = [0; RATE - 1];
    for place in 0..message.len() {
        for byte in 0..=255 {
            message[place] = byte;
            compare(&message, 16);
        }
    }
}

/// The second implementation's permutation is private, so it is seen through the blocks that it squeezes: each shows 17
/// lanes, and the eight hidden ones through the blocks after it.
#[test]
fn permutations_in_a_row() {
    let squeezed = shake256(b"", 1000 * RATE);
    let mut lanes = [0; 25];
    lanes[0] = 0x1f;
    lanes[RATE_LANES - 1] = 0x80 << 56;
    for (i, block) in squeezed.chunks_exact(RATE).enumerate() {
        bench::permute(&mut lanes);
        let shown: Vec<u8> = lanes[..RATE_LANES].iter().flat_map(|lane| lane.to_le_bytes()).collect();
        assert!(shown == block, "permutation {i}");
    }
}
