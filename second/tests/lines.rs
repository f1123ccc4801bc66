//! The program `lines`.

mod common;

use common::{hex, read, run};

fn answers(requests: &[String]) -> Vec<String> {
    let text = run(env!("CARGO_BIN_EXE_lines"), &(requests.join("\n") + "\n"));
    text.lines().map(str::to_string).collect()
}

#[test]
fn requests_are_answered_line_by_line() {
    let lines = read("keygen.txt", 60, 4);
    let line = lines.iter().find(|line| line.text(0) == "2").expect("a line of set 2");
    let (seeds, public, secret) = (line.text(1), line.text(2), line.text(3));
    let seal = second::sign(2, b"abc", b"", &line.bytes(3), None).unwrap();
    let hedged = second::sign(2, b"", b"", &line.bytes(3), Some(&[0; 16])).unwrap();
    let accepted = second::check(2, b"abc", &seal, b"", &line.bytes(2)).unwrap();
    let rejected = second::check(2, b"", &seal, b"", &line.bytes(2)).unwrap();
    let found = answers(&[
        format!("keys 2 {seeds}"),
        format!("seal 2 {secret} - 616263"),
        format!("seal 2 {secret} {} -", "00".repeat(16)),
        format!("check 2 {public} 616263 {}", hex(&seal)),
        format!("check 2 {public} - {}", hex(&seal)),
    ]);
    assert_eq!(found.len(), 5);
    assert_eq!(found[0], format!("{public} {secret}"));
    assert_eq!(found[1], hex(&seal));
    assert_eq!(found[2], hex(&hedged));
    assert_eq!(found[3], format!("accept {}", accepted.tally.f));
    assert_eq!(found[4], format!("reject {}", rejected.tally.f));
}

#[test]
fn bad_requests_are_refused() {
    let requests = [
        "",
        "keys",
        "keys 2",
        "keys 13 00",
        "keys 2 0000",
        "keys 2 000000",
        "keys x 00",
        "seal 2 00 - 00",
        "check 2 00 00 00",
        "check 2 0 00 00",
        "check 2 zz 00 00",
        "check 2 é 00 00",
        "other 1 2 3",
        "check 99999999999 00 00 00",
    ];
    let found = answers(&requests.map(str::to_string));
    assert_eq!(found.len(), requests.len());
    for (request, answer) in requests.iter().zip(&found) {
        assert!(answer.starts_with("refused "), "{request}: {answer}");
    }
}
