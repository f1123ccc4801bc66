//! The hash functions against published values and against another implementation's.

mod common;

use common::{hex, read, unhex};
use second::hmac::{hmac_sha256, hmac_sha512};
use second::keccak::{shake128, shake256};
use second::mgf1::{mgf1_sha256, mgf1_sha512};
use second::sha2::{sha256, sha512};

/// The standard's example messages of one and of two blocks, the empty message, and a million letters a.
#[test]
fn sha256_of_the_standards_examples() {
    let two_blocks = b"abcdbcdecdefdefgefghfghighijhijkijkljklmklmnlmnomnopnopq";
    let million = vec![b'a'; 1_000_000];
    let cases: [(&[u8], &str); 4] = [
        (b"", "e3b0c44298fc1c149afbf4c8996fb92427ae41e4649b934ca495991b7852b855"),
        (b"abc", "ba7816bf8f01cfea414140de5dae2223b00361a396177a9cb410ff61f20015ad"),
        (two_blocks, "248d6a61d20638b8e5c026930c3e6039a33ce45964ff2167f6ecedd419db06c1"),
        (&million, "cdc76e5c9914fb9281a1c7e284d73e67f1809a48a497200e046d39ccc7112cd0"),
    ];
    for (message, expected) in cases {
        assert_eq!(hex(&sha256(message)), expected, "SHA-256 of {} bytes", message.len());
    }
}

/// The standard's example messages of one and of two blocks, the empty message, and a million letters a.
#[test]
fn sha512_of_the_standards_examples() {
    let two_blocks = b"abcdefghbcdefghicdefghijdefghijkefghijklfghijklmghijklmnhijklmnoijklmnopjklmnopqklmnopqrlmno\
        pqrsmnopqrstnopqrstu";
    let million = vec![b'a'; 1_000_000];
    let cases: [(&[u8], &str); 4] = [
        (
            b"",
            "cf83e1357eefb8bdf1542850d66d8007d620e4050b5715dc83f4a921d36ce9ce\
             47d0d13c5d85f2b0ff8318d2877eec2f63b931bd47417a81a538327af927da3e",
        ),
        (
            b"abc",
            "ddaf35a193617abacc417349ae20413112e6fa4e89a97ea20a9eeee64b55d39a\
             2192992a274fc1a836ba3c23a3feebbd454d4423643ce80e2a9ac94fa54ca49f",
        ),
        (
            two_blocks,
            "8e959b75dae313da8cf4f72814fc143f8f7779c6eb9f7fa17299aeadb6889018\
             501d289e4900f7e4331b99dec4b5433ac7d329eeb6dd26545e96e55b874be909",
        ),
        (
            &million,
            "e718483d0ce769644e2e42c7bc15b4638e1f98b13b2044285632a803afa973eb\
             de0ff244877ea60a4cb0432ce577c31beb009c5c2c49aa2e4eadb217ad8cc09b",
        ),
    ];
    for (message, expected) in cases {
        assert_eq!(hex(&sha512(message)), expected, "SHA-512 of {} bytes", message.len());
    }
}

#[test]
fn shake_of_the_empty_message() {
    let expected_128 = "7f9c2ba4e88f827d616045507605853ed73b8093f6efbc88eb1a6eacfa66ef26";
    let expected_256 = "46b9dd2b0ba88d13233b3feb743eeb243fcd52ea62b81b82b50c27646ed5762f\
                        d75dc4ddd8c0f200cb05019d67b592f6fc821c49479ab48640292eacb3b7c4be";
    assert_eq!(hex(&shake128(b"", 32)), expected_128);
    assert_eq!(hex(&shake256(b"", 64)), expected_256);
    assert!(shake128(b"x", 0).is_empty() && shake256(b"x", 0).is_empty());
}

/// RFC 4231, test cases 1, 2 and 6; the last has a key longer than either block.
#[test]
fn hmac_of_rfc_4231() {
    let long_key = [0xaa; 131];
    let cases: [(&[u8], &[u8], &str, &str); 3] = [
        (
            &[0x0b; 20],
            b"Hi There",
            "b0344c61d8db38535ca8afceaf0bf12b881dc200c9833da726e9376c2e32cff7",
            "87aa7cdea5ef619d4ff0b4241a1d6cb02379f4e2ce4ec2787ad0b30545e17cde\
             daa833b7d6b8a702038b274eaea3f4e4be9d914eeb61f1702e696c203a126854",
        ),
        (
            b"Jefe",
            b"what do ya want for nothing?",
            "5bdcc146bf60754e6a042426089575c75a003f089d2739839dec58b964ec3843",
            "164b7a7bfcf819e2e395fbe73b56e0a387bd64222e831fd610270cd7ea250554\
             9758bf75c05a994a6d034f65f8f0e6fdcaeab1a34d4a6b4b636e070a38bce737",
        ),
        (
            &long_key,
            b"Test Using Larger Than Block-Size Key - Hash Key First",
            "60e431591ee0b67f0d8a26aacbf5b77f8e0bc6213728c5140546040f0ee37f54",
            "80b24263c7c1a3ebb71493c1dd7be8b49b46d1f41b4aeec1121b013783f8f352\
             6b56d037e05f2598bd0fd2215d6a1e5295e64f73f63f0aec8b915a985d786598",
        ),
    ];
    for (key, text, expected_256, expected_512) in cases {
        assert_eq!(hex(&hmac_sha256(key, text)), expected_256);
        assert_eq!(hex(&hmac_sha512(key, text)), expected_512);
    }
}

/// Byte i of every stored case's input.
fn pattern(length: usize) -> Vec<u8> {
    (0..length).map(|i| (37 * i + 11) as u8).collect()
}

#[test]
fn lengths_around_block_edges() {
    for line in read("hashes.txt", 512, 4) {
        let (function, input, length) = (line.text(0), pattern(line.number(1)), line.number(2));
        let key = |digits: &str| -> Vec<u8> {
            pattern(digits.parse().expect("key length")).iter().map(|byte| byte ^ 0xa5).collect()
        };
        let output = match function {
            "sha256" => sha256(&input),
            "sha512" => sha512(&input),
            "shake128" => shake128(&input, length),
            "shake256" => shake256(&input, length),
            "mgf1-sha256" => mgf1_sha256(&input, length),
            "mgf1-sha512" => mgf1_sha512(&input, length),
            _ => match function.split_once("-key") {
                Some(("hmac-sha256", digits)) => hmac_sha256(&key(digits), &input),
                Some(("hmac-sha512", digits)) => hmac_sha512(&key(digits), &input),
                _ => panic!("{}: unknown function {function}", line.place),
            },
        };
        assert_eq!(output.len(), length, "{}", line.place);
        assert_eq!(output, unhex(line.text(3)), "{}", line.place);
    }
}
