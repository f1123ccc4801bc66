//! The C example, compiled over the header and the library by the compiler that CC names, or gcc, shows what the
//! binding gives.

mod common;

use common::workplace::{program, Workplace};
use skimdral::{check, digits, make_keys, part_range, seal, Verdict};
use std::env;
use std::path::Path;
use std::process::Command;

/// The lines that the example must print.
fn expected() -> String {
    let keys = make_keys(2, &[1; 16], &[2; 16], &[3; 16]).expect("legal seeds");
    let sealed = seal(2, &keys.secret, b"observations", &[]).expect("a legal key");
    let cut = &sealed[..sealed.len() - 1];
    let checks = [(&b"observations"[..], &sealed[..]), (b"", &sealed), (b"observations", cut)];
    let mut lines: Vec<String> = checks
        .map(|(message, seal)| check(2, &keys.public, message, seal))
        .map(|Verdict { answer, f_calls }| format!("check: {}, F calls: {f_calls}", answer.number()))
        .to_vec();
    let forest = part_range(2, &sealed, 1).expect("a part");
    lines.push(format!("forest: {} bytes from {}", forest.len(), forest.start));
    let digits = digits(2, &sealed[..16]).expect("a value");
    lines.push(format!("first digit of the randomizer: {}\n", digits[0]));
    lines.join("\n")
}

fn compiler() -> Command {
    Command::new(env::var_os("CC").unwrap_or_else(|| "gcc".into()))
}

#[test]
fn the_example_runs() {
    let work = Workplace::new("the_example_runs");
    let package = Path::new(env!("CARGO_MANIFEST_DIR"));
    let example = work.at("seal");
    let compiled = compiler()
        .args(["-std=c11", "-O2", "-Wall", "-Wextra", "-Wpedantic", "-Werror", "-Iinclude", "example/seal.c"])
        .args(["../target/staticlib/libface.a", "-o"])
        .arg(&example)
        .current_dir(package)
        .output()
        .expect("the C compiler runs");
    assert!(compiled.status.success(), "{}", String::from_utf8_lossy(&compiled.stderr));
    let run = program(&example).output().expect("the example runs");
    assert_eq!((run.status.code(), String::from_utf8_lossy(&run.stdout).as_ref()), (Some(0), expected().as_str()));
}

/// The header needs nothing before it.
#[test]
fn the_header_compiles_alone() {
    let compiled = compiler()
        .args(["-std=c11", "-Wall", "-Wextra", "-Wpedantic", "-Werror", "-fsyntax-only", "include/skimdral.h"])
        .current_dir(env!("CARGO_MANIFEST_DIR"))
        .output()
        .expect("the C compiler runs");
    assert!(compiled.status.success(), "{}", String::from_utf8_lossy(&compiled.stderr));
}
