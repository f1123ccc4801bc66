//! The command-line tool, run as a program: what it writes, shows and says, its exit status, and what it leaves behind.

mod common;

use common::workplace::Workplace;
use std::fs::{self, File};
use std::os::unix::fs::{symlink, PermissionsExt};
use std::process::Command;

const COMMANDS: [&str; 6] = ["keys", "seal", "check", "part", "digits", "try"];

fn mode(work: &Workplace, file: &str) -> u32 {
    fs::metadata(work.at(file)).expect("a file").permissions().mode() & 0o777
}

#[test]
fn helps() {
    let work = Workplace::new("helps");
    let all = work.run("--help");
    assert_eq!((all.status, all.err.as_str()), (0, ""));
    for command in COMMANDS {
        assert!(all.text().contains(&format!("skimdral {command}")), "{command}");
        for line in [format!("{command} --help"), format!("{command} -h"), format!("{command} --set 1 --help")] {
            if command == "try" && line.contains("--set") {
                continue;
            }
            let help = work.run(&line);
            assert_eq!((help.status, help.err.as_str()), (0, ""), "{line}");
            assert!(help.text().starts_with(&format!("skimdral {command}")), "{line}");
        }
    }
    assert_eq!(work.run("-h").out, all.out);
}

/// Command lines that make no sense, on the files of `Workplace::sealed`.
const BAD_USAGE: [&str; 37] = [
    "unknown",
    "keys --set 2 --seeds seeds --public p",
    "keys --set 2 --seeds seeds --public p --secret -",
    "keys --set 2 --seeds seeds --public p --secret p",
    "keys --set 2 --seeds seeds --public p --secret ./p",
    "keys --set 2 --seeds seeds --public seeds --secret x --force",
    "keys --set 2 --seeds seeds --public p --secret seeds --force",
    "keys --set 2 --seeds seeds --public p --secret x more",
    "keys --set --seeds seeds --public p --secret x",
    "seal --set 2 --secret secret m",
    "seal --set 2 --secret secret m x y",
    "seal --set 2 m x",
    "seal --secret secret m x",
    "seal --set 2 --secret secret --secret secret m x",
    "seal --set 2 --secret - - x",
    "seal --set 2 --secret secret --random - - x",
    "seal --set 2 --secret secret --force m m",
    "seal --set 2 --secret secret --force m ./m",
    "seal --set 2 --secret secret --force m secret",
    "seal --set 2 --secret",
    "check --set 2 --public public - -",
    "check --set 2 --public - m -",
    "check --set 2 --public public --force m s",
    "check --set shake-128 --public public m s",
    "check --set -1 --public public m s",
    "check --set +2 --public public m s",
    "check --set 4294967296 --public public m s",
    "part --set 2 s",
    "part --set 2 s one",
    "part --set 2 s 4294967296",
    "part --set 2 --force s 1 s",
    "digits --set 2",
    "digits --set 2 0",
    "digits --set 2 0g",
    "digits --set 2 -",
    "try more",
    "try --set 2",
];

#[test]
fn bad_usage() {
    let work = Workplace::sealed("bad_usage");
    for line in BAD_USAGE {
        work.refuses(line, 64, "");
    }
    let nothing = work.run("");
    assert_eq!((nothing.status, nothing.out), (64, Vec::new()));
    assert!(nothing.err.contains("skimdral try"));
}

#[test]
fn unreadable_inputs() {
    let work = Workplace::sealed("unreadable_inputs");
    fs::create_dir(work.at("folder")).expect("a folder");
    let lines = [
        "keys --set 2 --seeds none --public p --secret x",
        "seal --set 2 --secret none m x",
        "seal --set 2 --secret secret none x",
        "seal --set 2 --secret secret --random none m x",
        "check --set 2 --public none m s",
        "check --set 2 --public public none s",
        "check --set 2 --public public m none",
        "part --set 2 none 0",
    ];
    for line in lines {
        work.refuses(line, 66, "none can't be read: No such file or directory");
    }
    work.refuses("check --set 2 --public public folder s", 66, "folder can't be read: Is a directory");
}

#[test]
fn keys_seals_and_checks() {
    let work = Workplace::sealed("keys_seals_and_checks");
    let seeds = work.get("seeds");
    let keys = skimdral::make_keys(2, &seeds[..16], &seeds[16..32], &seeds[32..]).expect("legal seeds");
    assert_eq!((work.get("public"), work.get("secret")), (keys.public, keys.secret.clone()));
    assert_eq!(mode(&work, "secret"), 0o600);
    let seal = skimdral::seal(2, &keys.secret, b"observations", &[]).expect("a legal key");
    assert!(work.get("s") == seal);
    let check = work.run("check --set 2 --public public m s");
    let calls = second::check(2, b"observations", &seal, &[], &work.get("public")).expect("legal").tally.f;
    let calls = format!("{},{:03} F calls\n", calls / 1000, calls % 1000);
    assert_eq!((check.status, check.text(), check.err.as_str()), (0, format!("accepted; {calls}"), ""));
    assert_eq!(work.files().keys().collect::<Vec<_>>(), ["m", "public", "s", "secret", "seeds"]);
}

#[test]
fn randomizer_input() {
    let work = Workplace::sealed("randomizer_input");
    work.put("random", &[7; 16]);
    work.put("none", &[]);
    assert_eq!(work.run("seal --set 2 --secret secret --random random m hedged").status, 0);
    assert_eq!(work.run("seal --set 2 --secret secret --random none m plain").status, 0);
    let expected = skimdral::seal(2, &work.get("secret"), b"observations", &[7; 16]).expect("legal");
    assert!(work.get("hedged") == expected && expected != work.get("s"));
    assert!(work.get("plain") == work.get("s"));
    assert_eq!(work.run("check --set 2 --public public m hedged").status, 0);
}

#[test]
fn rejections() {
    let work = Workplace::sealed("rejections");
    work.put("empty", b"");
    work.put("flipped", b"Observations");
    for message in ["empty", "flipped"] {
        let check = work.run(&format!("check --set 2 --public public {message} s"));
        assert_eq!((check.status, check.err.as_str()), (5, ""));
        let said = "rejected, 5: the recomputed root differs from the key's; ";
        assert!(check.text().starts_with(said) && check.text().ends_with(" F calls\n"), "{}", check.text());
    }
}

const NO_SET: &str = "refused, 1: there is no set 9; the sets are 1 (shake-128s) and 2 (shake-128f)";

/// Refused command lines, each with its status and what it says, on the files of `refusals`.
const REFUSALS: [(&str, i32, &str); 24] = [
    ("keys --set 9 --seeds seeds --public p --secret x", 1, NO_SET),
    ("seal --set 9 --secret 63 --random 15 long x", 1, NO_SET),
    ("check --set 9 --public 63 long 0", 1, NO_SET),
    ("part --set 9 s 99", 1, NO_SET),
    ("digits --set 9 00", 1, NO_SET),
    ("part --set 0 s 0", 1, "refused, 1: there is no set 0; "),
    ("part --set 4294967295 s 0", 1, "refused, 1: there is no set 4294967295; "),
    ("keys --set 1 --seeds 47 --public p --secret x", 2, "the file of seeds has 47 bytes and set 1 wants 48"),
    ("keys --set 2 --seeds 49 --public p --secret x", 2, "the file of seeds has 49 bytes and set 2 wants 48"),
    ("keys --set 2 --seeds 0 --public p --secret x", 2, "the file of seeds has 0 bytes and set 2 wants 48"),
    ("keys --set 2 --seeds 15 --public p --secret x", 2, "the file of seeds has 15 bytes and set 2 wants 48"),
    ("seal --set 1 --secret 63 m x", 2, "refused, 2: the secret key has 63 bytes and set 1 wants 64"),
    ("seal --set 2 --secret 63 --random 15 long x", 2, "wants 64; the randomizer input has 15 bytes and"),
    ("seal --set 2 --secret secret --random 1 m x", 2, "the randomizer input has 1 byte and set 2 wants 16 or 0"),
    ("check --set 1 --public 47 long 7855", 2, "refused, 2: the public key has 47 bytes and set 1 wants 32"),
    ("digits --set 1 00", 2, "refused, 2: the value has 1 byte and set 1 wants 16"),
    ("seal --set 1 --secret secret long x", 3, "refused, 3: the message has more than 65,536 bytes"),
    ("check --set 1 --public public long 7855", 3, "refused, 3: the message has more than 65,536 bytes"),
    ("check --set 1 --public public m 7855", 4, "refused, 4: the seal has 7,855 bytes and set 1 wants 7,856"),
    ("check --set 1 --public public m s", 4, "refused, 4: the seal has 17,088 bytes and set 1 wants 7,856"),
    ("check --set 2 --public public m long", 4, "the seal has more than 65,536 bytes and set 2 wants 17,088"),
    ("part --set 1 7855 99", 4, "refused, 4: the seal has 7,855 bytes and set 1 wants 7,856"),
    ("part --set 2 s 24", 6, "refused, 6: there is no part 24: set 2 has the parts 0 to 23"),
    ("part --set 2 s 4294967295 x", 6, "refused, 6: there is no part 4294967295: set 2 has the parts 0 to 23"),
];

/// Each refusal says in numbers what was wrong; where several apply, the smallest number's is given.
#[test]
fn refusals() {
    let work = Workplace::sealed("refusals");
    for (file, length) in [("0", 0), ("1", 1), ("15", 15), ("47", 47), ("49", 49), ("63", 63), ("7855", 7855)] {
        work.put(file, &vec![0; length]);
    }
    work.put("limit", &vec![0; 65_536]);
    work.put("long", &vec![0; 65_537]);
    for (line, status, said) in REFUSALS {
        work.refuses(line, status, said);
    }
    assert_eq!(work.run("check --set 2 --public public limit s").status, 5);
}

/// An input without an end is read no further than it must be.
#[test]
fn endless_input() {
    let work = Workplace::sealed("endless_input");
    work.refuses("seal --set 2 --secret secret /dev/zero x", 3, "the message has more than 65,536 bytes");
    work.refuses("check --set 2 --public /dev/zero m s", 2, "the public key has more than 65,536 bytes");
    work.refuses("keys --set 2 --seeds /dev/zero --public p --secret x", 2, "has more than 65,536 bytes and set 2");
}

#[test]
fn standard_input_and_output() {
    let work = Workplace::sealed("standard_input_and_output");
    let (seal, public, secret) = (work.get("s"), work.get("public"), work.get("secret"));
    let keys = work.run_with("keys --set 2 --seeds - --public - --secret again", &work.get("seeds"));
    assert_eq!((keys.status, keys.out), (0, public.clone()));
    assert_eq!((work.get("again"), mode(&work, "again")), (secret.clone(), 0o600));
    let sealed = work.run_with("seal --set 2 --secret secret - -", b"observations");
    assert!(sealed.status == 0 && sealed.out == seal);
    let sealed = work.run_with("seal --set 2 --secret - m -", &secret);
    assert!(sealed.status == 0 && sealed.out == seal);
    for (line, input) in [("public - s", &b"observations"[..]), ("public m -", &seal), ("- m s", &public)] {
        assert_eq!(work.run_with(&format!("check --set 2 --public {line}"), input).status, 0, "{line}");
    }
    let part = work.run_with("part --set 2 - 0 -", &seal);
    assert!(part.status == 0 && part.out == seal[..16]);
}

/// A file whose name begins with - follows --.
#[test]
fn names_of_files() {
    let work = Workplace::sealed("names_of_files");
    work.put("-m", b"observations");
    assert_eq!(work.run("seal --set 2 --secret secret -- -m -s").status, 0);
    assert!(work.get("-s") == work.get("s"));
    assert_eq!(work.run("check --set 2 --public public -- -m -s").status, 0);
}

#[test]
fn names_of_sets() {
    let work = Workplace::sealed("names_of_sets");
    for name in ["2", "02", "shake-128f", "SHAKE-128f", "slh-dsa-shake-128f", "SLH-DSA-SHAKE-128F"] {
        assert_eq!(work.run(&format!("check --set {name} --public public m s")).status, 0, "{name}");
    }
    assert_eq!(work.run("check --set shake-128s --public public m s").status, 4);
}

#[test]
fn parts() {
    let work = Workplace::sealed("parts");
    let seal = work.get("s");
    for (number, start, length) in [(0, 0, 16), (1, 16, 3696), (2, 3712, 608), (23, 3712 + 21 * 608, 608)] {
        let shown = work.run(&format!("part --set 2 s {number}"));
        assert_eq!((shown.status, shown.text()), (0, format!("start {start}, length {length}\n")));
        assert_eq!(work.run(&format!("part --set 2 s {number} part{number}")).status, 0);
        assert!(work.get(&format!("part{number}")) == seal[start..start + length]);
    }
}

#[test]
fn digits() {
    let work = Workplace::new("digits");
    let zeros = work.run(&format!("digits --set 1 {}", "00".repeat(16)));
    assert_eq!((zeros.status, zeros.text()), (0, format!("{}1 14 0\n", "0 ".repeat(32))));
    let mixed = work.run("digits --set shake-128f 0123456789abcdefABCDEF0123456789");
    assert!(mixed.text().starts_with("0 1 2 3 4 5 6 7 8 9 10 11 12 13 14 15 10 11 12 13 14 15 0 1 "), "{mixed:?}");
}

#[test]
fn an_existing_output_is_kept() {
    let work = Workplace::sealed("an_existing_output_is_kept");
    let kept = "it exists, and is kept without --force";
    work.refuses("seal --set 2 --secret secret m s", 73, kept);
    work.refuses("part --set 2 s 0 public", 73, kept);
    work.refuses("part --set 2 s 99 public", 73, kept);
    work.refuses("keys --set 2 --seeds seeds --public public --secret x", 73, kept);
    work.refuses("keys --set 2 --seeds seeds --public p --secret secret", 73, kept);
    symlink("nowhere", work.at("link")).expect("a link");
    work.refuses("seal --set 2 --secret secret m link", 73, kept);
}

#[test]
fn force_replaces_files_alone() {
    let work = Workplace::sealed("force_replaces_files_alone");
    let (seal, secret) = (work.get("s"), work.get("secret"));
    work.put("s", b"old");
    work.put("secret2", b"old");
    fs::set_permissions(work.at("secret2"), fs::Permissions::from_mode(0o644)).expect("a mode");
    assert_eq!(work.run("seal --force --set 2 --secret secret m s").status, 0);
    assert_eq!(work.run("keys --set 2 --seeds seeds --public public --secret secret2 --force").status, 0);
    assert!(work.get("s") == seal);
    assert_eq!((work.get("secret2"), mode(&work, "secret2")), (secret, 0o600));
    fs::create_dir(work.at("folder")).expect("a folder");
    symlink("public", work.at("link")).expect("a link");
    let pipe = Command::new("mkfifo").arg(work.at("pipe")).status().expect("mkfifo runs");
    assert!(pipe.success());
    for target in ["folder", "link", "pipe"] {
        work.refuses(&format!("seal --set 2 --secret secret --force m {target}"), 73, "no ordinary file");
    }
    let names: Vec<String> = work.files().into_keys().collect();
    assert_eq!(names, ["folder", "link", "m", "pipe", "public", "s", "secret", "secret2", "seeds"]);
}

#[test]
fn outputs_that_cannot_be_made() {
    let work = Workplace::sealed("outputs_that_cannot_be_made");
    let missing = "none/x can't be made: No such file or directory";
    work.refuses("seal --set 2 --secret secret m none/x", 73, missing);
    work.refuses("part --set 2 s 0 none/x", 73, missing);
    work.refuses("keys --set 2 --seeds seeds --public none/x --secret x", 73, missing);
    work.refuses("keys --set 2 --seeds seeds --public p --secret none/x", 73, missing);
    for line in ["part --set 2 s 0", "part --set 2 s 0 -", "check --set 2 --public public m s", "--help"] {
        let full = File::options().write(true).open("/dev/full").expect("a full device");
        let output = work.command(line).stdout(full).output().expect("the tool runs");
        assert_eq!(output.status.code(), Some(73), "{line}");
    }
}

/// A name that is too long is found out when the key is put in place, after the secret key was.
#[test]
fn both_keys_or_none() {
    let work = Workplace::sealed("both_keys_or_none");
    let long = "p".repeat(300);
    work.refuses(&format!("keys --set 2 --seeds seeds --public {long} --secret x"), 73, "File name too long");
    work.put("other", &[1; 48]);
    let line = format!("keys --set 2 --seeds other --public {long} --secret secret --force");
    work.refuses(&line, 73, "File name too long");
    let before = work.files();
    let full = File::options().write(true).open("/dev/full").expect("a full device");
    let keys = work.command("keys --set 2 --seeds seeds --public - --secret x").stdout(full).output();
    assert_eq!(keys.expect("the tool runs").status.code(), Some(73));
    assert!(work.files() == before);
}

/// Nothing shown or said has a secret key's or a seed's bytes in it, as they are or in hex.
#[test]
fn no_secret_is_shown() {
    let work = Workplace::sealed("no_secret_is_shown");
    let secret = work.get("secret");
    let lines = [
        "keys --set 2 --seeds seeds --public - --secret x",
        "keys --set 2 --seeds secret --public p --secret y",
        "seal --set 1 --secret seeds m x2",
        "seal --set 2 --secret secret m none/x",
        "check --set 2 --public secret m s",
        "check --set 2 --public public m secret",
        "part --set 2 secret 0",
    ];
    for line in lines {
        let run = work.run(line);
        let shown = [&run.out[..], run.err.as_bytes()].concat();
        for piece in secret[..32].chunks(16) {
            let hex: String = piece.iter().map(|byte| format!("{byte:02x}")).collect();
            for form in [piece, hex.as_bytes()] {
                assert!(!shown.windows(form.len()).any(|window| window == form), "{line}");
            }
        }
    }
}

/// The tour answers 0, shows each step, and leaves its temporary folder empty.
#[test]
fn tour() {
    let work = Workplace::new("tour");
    let tour = work.run("try");
    assert_eq!((tour.status, tour.err.as_str()), (0, ""), "{}", tour.text());
    let (text, must) = (tour.text(), [0, 0, 0, 5, 5, 5, 4]);
    let rows: Vec<&str> = text.lines().skip(3).take(must.len()).collect();
    for (row, must) in rows.iter().zip(must) {
        let numbers: Vec<&str> = row[36..].split_whitespace().take(2).collect();
        assert_eq!(numbers, [must.to_string(), must.to_string()], "{row}");
    }
    assert!(text.ends_with("\n\nEverything answered as it must.\n"), "{text}");
    assert!(work.files().is_empty(), "{:?}", work.files().keys());
}

/// A tour that can't have its folder says so.
#[test]
fn a_tour_without_a_folder() {
    let work = Workplace::new("a_tour_without_a_folder");
    let output = work.command("try").env("TMPDIR", work.at("none")).output().expect("the tool runs");
    assert_eq!(output.status.code(), Some(73));
}

/// What is said stays on one line and steers no terminal, whatever a file is called.
#[test]
fn odd_names_are_shown_plainly() {
    let work = Workplace::sealed("odd_names_are_shown_plainly");
    let odd = "\u{1b}[2J\nx";
    for (line, status) in [("check --set 2 --public public m", 66), ("digits 00 --set", 64), ("", 64)] {
        let output = work.command(line).arg(odd).output().expect("the tool runs");
        let said = String::from_utf8(output.stderr).expect("text");
        assert_eq!((output.status.code(), said.lines().count()), (Some(status), 1), "{said:?}");
        assert!(!said.contains('\u{1b}'), "{said:?}");
    }
}
