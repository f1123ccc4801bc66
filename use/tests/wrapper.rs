//! The script at the repository's root, run with a stand-in for each program that it starts: what it builds and when.

mod common;

use common::workplace::Workplace;
use std::fs::{self, File, Permissions};
use std::os::unix::fs::PermissionsExt;
use std::process::Command;
use std::time::{Duration, SystemTime};

/// Called in the folder of the library's crate: notes how, and makes the library, or fails if there is a file `fails`.
const RT: &str = "#!/bin/sh
echo \"rt $*\" >> ../../calls
[ ! -e ../../fails ] || exit 1
mkdir -p out
echo > out/libface_c.a
";

/// Notes that it was called and makes a tool that shows its words and ends with 5.
const CARGO: &str = "#!/bin/sh
echo cargo >> ../calls
mkdir -p ../use/target/release
printf '#!/bin/sh\\necho tool \"$@\"; exit 5\\n' > ../use/target/release/skimdral
chmod +x ../use/target/release/skimdral
";

/// The file of a source in the repository, the list of crates, and the folders that change when a file comes or goes.
const SOURCES: [&str; 4] = ["crates/face_c/src/lib.rt", "crates.txt", "crates", "crates/face_c/src"];

/// A repository with the scripts, a source, and the stand-ins; the script is run from its folder `elsewhere`.
fn repository(name: &str) -> Workplace {
    let work = Workplace::outside(name);
    for folder in ["crates/face_c/src", "use", "tools", "elsewhere", "programs"] {
        fs::create_dir_all(work.at(folder)).expect("a folder");
    }
    let [script, maker] = [&include_bytes!("../../skimdral")[..], include_bytes!("../../tools/static_library")];
    for (file, bytes) in [
        ("skimdral", script),
        ("tools/static_library", maker),
        ("programs/rt", RT.as_bytes()),
        ("programs/cargo", CARGO.as_bytes()),
    ] {
        work.put(file, bytes);
        fs::set_permissions(work.at(file), Permissions::from_mode(0o755)).expect("a mode");
    }
    for file in ["crates/face_c/src/lib.rt", "crates.txt"] {
        work.put(file, b"");
    }
    for file in SOURCES {
        date(&work, file, -100);
    }
    work
}

/// Gives a file a time so many seconds from now.
fn date(work: &Workplace, file: &str, seconds: i64) {
    let by = Duration::from_secs(seconds.unsigned_abs());
    let time = if seconds < 0 { SystemTime::now() - by } else { SystemTime::now() + by };
    File::open(work.at(file)).and_then(|file| file.set_modified(time)).expect("a time");
}

/// Runs the script; its status, what it showed, and the programs that it started.
fn run(work: &Workplace) -> (i32, String, String) {
    let path = format!("{}:{}", work.at("programs").display(), std::env::var("PATH").expect("a path"));
    let mut command = Command::new(work.at("skimdral"));
    let output = command.args(["check", "a b"]).current_dir(work.at("elsewhere")).env("PATH", path).output();
    let output = output.expect("the script runs");
    let calls = fs::read_to_string(work.at("calls")).unwrap_or_default();
    let _ = fs::remove_file(work.at("calls"));
    (output.status.code().expect("no signal"), String::from_utf8(output.stdout).expect("text"), calls)
}

#[test]
fn builds_what_is_stale() {
    let work = repository("builds_what_is_stale");
    let shown = "tool check a b\n".to_string();
    assert_eq!(run(&work), (5, shown.clone(), "rt lib\ncargo\n".to_string()));
    assert_eq!(run(&work), (5, shown.clone(), "cargo\n".to_string()));
    for file in SOURCES {
        date(&work, file, 100);
        assert_eq!(run(&work), (5, shown.clone(), "rt lib\ncargo\n".to_string()), "{file}");
        date(&work, file, -100);
    }
    assert_eq!(run(&work), (5, shown, "cargo\n".to_string()));
}

/// What rt makes beside the sources is none.
#[test]
fn what_rt_makes_is_no_source() {
    let work = repository("what_rt_makes_is_no_source");
    run(&work);
    for file in ["crates/face_c/out/libface_c.a", "crates/face_c/out", "crates/face_c"] {
        date(&work, file, 100);
        assert_eq!(run(&work).2, "cargo\n", "{file}");
    }
}

/// One that somebody else has made, as the gate does, is as good.
#[test]
fn a_library_of_others() {
    let work = repository("a_library_of_others");
    fs::create_dir_all(work.at("target/staticlib")).expect("a folder");
    work.put("target/staticlib/libface.a", b"");
    assert_eq!(run(&work).2, "cargo\n");
    date(&work, "target/staticlib/libface.a", -200);
    assert_eq!(run(&work).2, "rt lib\ncargo\n");
}

/// A source that is edited while the library is made counts as newer.
#[test]
fn an_edit_meanwhile() {
    let work = repository("an_edit_meanwhile");
    work.put("programs/rt", format!("{RT}sleep 0.1; touch src/lib.rt; sleep 0.1; touch out/libface_c.a").as_bytes());
    for _ in 0..2 {
        assert_eq!(run(&work).2, "rt lib\ncargo\n");
    }
}

/// A library that can't be proved is not used, not even the old one.
#[test]
fn an_unproved_library_is_not_used() {
    let work = repository("an_unproved_library_is_not_used");
    run(&work);
    work.put("fails", b"");
    date(&work, "crates/face_c/src/lib.rt", 100);
    for _ in 0..2 {
        assert_eq!(run(&work), (69, String::new(), "rt lib\n".to_string()));
    }
}
