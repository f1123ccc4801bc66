//! A folder of a test's own, in which it runs the tool.

use std::collections::BTreeMap;
use std::env;
use std::fs;
use std::io::Write;
use std::path::{Path, PathBuf};
use std::process::{Command, Stdio};

/// A program that links the library: run as it is or, where this machine has another processor than the library was
/// compiled for, by the emulator that SKIMDRAL_EMULATOR names.
pub fn program(path: &Path) -> Command {
    match env::var_os("SKIMDRAL_EMULATOR") {
        Some(emulator) => {
            let mut command = Command::new(emulator);
            command.arg(path);
            command
        }
        None => Command::new(path),
    }
}

/// The folder, which goes when this does.
pub struct Workplace(PathBuf);

/// What a run of the tool gave.
#[derive(Debug)]
pub struct Run {
    pub status: i32,
    pub out: Vec<u8>,
    pub err: String,
}

impl Run {
    pub fn text(&self) -> String {
        String::from_utf8(self.out.clone()).expect("text")
    }
}

impl Workplace {
    pub fn new(name: &str) -> Workplace {
        Workplace::of(PathBuf::from(env!("CARGO_TARGET_TMPDIR")).join(name))
    }

    /// One outside the repository, in which `rt ci` takes every `crates.txt` and Rattle file for its own.
    pub fn outside(name: &str) -> Workplace {
        Workplace::of(env::temp_dir().join(format!("skimdral-{}-{name}", std::process::id())))
    }

    fn of(folder: PathBuf) -> Workplace {
        let _ = fs::remove_dir_all(&folder); // of a run that was killed
        fs::create_dir_all(&folder).expect("a folder");
        Workplace(folder)
    }

    /// A folder with the keys of set 2 from the sample seeds, a message `m` and its seal `s`.
    pub fn sealed(name: &str) -> Workplace {
        let work = Workplace::new(name);
        work.put("seeds", include_bytes!("../../samples/seeds"));
        work.put("m", b"observations");
        let keys = work.run("keys --set 2 --seeds seeds --public public --secret secret");
        let seal = work.run("seal --set 2 --secret secret m s");
        assert_eq!((keys.status, seal.status), (0, 0), "{keys:?} {seal:?}");
        work
    }

    pub fn at(&self, file: &str) -> PathBuf {
        self.0.join(file)
    }

    pub fn put(&self, file: &str, bytes: &[u8]) {
        fs::write(self.at(file), bytes).expect("written");
    }

    pub fn get(&self, file: &str) -> Vec<u8> {
        fs::read(self.at(file)).unwrap_or_else(|reason| panic!("{file}: {reason}"))
    }

    /// All files with their bytes; a folder, a pipe and a link to nowhere have none.
    pub fn files(&self) -> BTreeMap<String, Vec<u8>> {
        let entries = fs::read_dir(&self.0).expect("a folder").map(|entry| entry.expect("an entry"));
        let named = entries.map(|entry| entry.file_name().into_string().expect("text"));
        named.map(|name| (name.clone(), if self.at(&name).is_file() { self.get(&name) } else { Vec::new() })).collect()
    }

    /// Runs the tool in the folder, on words between blanks.
    pub fn run(&self, line: &str) -> Run {
        self.run_with(line, b"")
    }

    /// Runs it with these bytes as standard input.
    pub fn run_with(&self, line: &str, input: &[u8]) -> Run {
        let mut command = self.command(line);
        command.stdin(Stdio::piped()).stdout(Stdio::piped()).stderr(Stdio::piped());
        let mut child = command.spawn().expect("the tool runs");
        let mut stdin = child.stdin.take().expect("piped");
        let bytes = input.to_vec();
        let feeder = std::thread::spawn(move || stdin.write_all(&bytes));
        let output = child.wait_with_output().expect("the tool ends");
        let _ = feeder.join().expect("no panic"); // a tool that reads less closes the pipe
        let err = String::from_utf8(output.stderr).expect("text");
        Run { status: output.status.code().expect("no signal"), out: output.stdout, err }
    }

    pub fn command(&self, line: &str) -> Command {
        let mut command = program(Path::new(env!("CARGO_BIN_EXE_skimdral")));
        command.args(line.split_whitespace()).current_dir(&self.0).env("TMPDIR", &self.0);
        command
    }

    /// Runs it and compares the status and, where there is one, the line said; no file may have come, gone or changed.
    pub fn refuses(&self, line: &str, status: i32, said: &str) {
        let before = self.files();
        let run = self.run(line);
        assert_eq!((run.status, run.text().as_str()), (status, ""), "{line}: {}", run.err);
        assert_eq!(run.err.lines().count(), 1, "{line}: {}", run.err);
        assert!(run.err.trim_end().contains(said), "{line}: {}", run.err);
        assert!(self.files() == before, "{line}: a file came, went or was changed");
    }
}

impl Drop for Workplace {
    fn drop(&mut self) {
        let _ = fs::remove_dir_all(&self.0);
    }
}
