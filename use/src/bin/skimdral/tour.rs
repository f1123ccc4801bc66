//! The tour: the tool's own commands on sample files, in a temporary folder that goes with it.

use crate::arguments::Arguments;
use crate::commands;
use crate::output::{beside, say};
use crate::refusal::grouped;
use crate::stop::Stop;
use skimdral::Answer;
use std::ffi::OsString;
use std::fs::{self, DirBuilder};
use std::io::Write;
use std::os::unix::fs::DirBuilderExt;
use std::path::PathBuf;

/// The set whose sealing takes a moment only.
const SET: &str = "shake-128f";
/// Known to everybody, so a key made from them guards nothing.
const SEEDS: &[u8] = include_bytes!("../../../samples/seeds");
const OBSERVATIONS: &[u8] = include_bytes!("../../../samples/observations.rnx");

/// Runs the tour and tells whether each step answered as it must.
pub fn run(_: &Arguments, out: &mut dyn Write) -> Result<Answer, Stop> {
    let mut tour = Tour { folder: Folder::new()?, out, steps: 0, astray: 0 };
    tour.prepare()?;
    tour.make()?;
    tour.tamper()?;
    tour.check()?;
    tour.conclude()
}

struct Tour<'a> {
    folder: Folder,
    out: &'a mut dyn Write,
    steps: usize,
    astray: usize,
}

impl Tour<'_> {
    fn prepare(&mut self) -> Result<(), Stop> {
        self.put("seeds", SEEDS)?;
        self.put("observations.rnx", OBSERVATIONS)?;
        let size = grouped(OBSERVATIONS.len());
        let title = format!("A file of observations ({size} bytes) is sealed under set {SET} and tampered with.\n\n");
        say(self.out, title.as_bytes())?;
        self.row("step", "must be", "is", "said")
    }

    fn make(&mut self) -> Result<(), Stop> {
        let [seeds, public, secret, message, seal] =
            ["seeds", "public.key", "secret.key", "observations.rnx", "seal"].map(|name| self.at(name));
        let keys = ["keys", "--set", SET, "--seeds", &seeds, "--public", &public, "--secret", &secret];
        self.step("make keys from the sample seeds", 0, &keys)?;
        self.step("seal the observations", 0, &["seal", "--set", SET, "--secret", &secret, &message, &seal])
    }

    /// Without a seal, which is a step astray, there is nothing to tamper with.
    fn tamper(&mut self) -> Result<(), Stop> {
        let seal = fs::read(self.folder.0.join("seal")).unwrap_or_default();
        self.put("emptied.rnx", &[])?;
        self.put("flipped.rnx", &flipped(OBSERVATIONS))?;
        self.put("flipped.seal", &flipped(&seal))?;
        self.put("short.seal", seal.split_last().map_or(&[], |(_, front)| front))
    }

    fn check(&mut self) -> Result<(), Stop> {
        let steps = [
            ("check the observations", 0, "observations.rnx", "seal"),
            ("check an emptied copy", 5, "emptied.rnx", "seal"),
            ("check a copy with a flipped byte", 5, "flipped.rnx", "seal"),
            ("check a seal with a flipped byte", 5, "observations.rnx", "flipped.seal"),
            ("check a seal without its last byte", 4, "observations.rnx", "short.seal"),
        ];
        for (what, must, message, seal) in steps {
            let [public, message, seal] = ["public.key", message, seal].map(|name| self.at(name));
            self.step(what, must, &["check", "--set", SET, "--public", &public, &message, &seal])?;
        }
        Ok(())
    }

    /// Runs a command, shows its row, and notes whether it answered as it must.
    fn step(&mut self, what: &str, must: u8, words: &[&str]) -> Result<(), Stop> {
        let words: Vec<OsString> = words.iter().map(OsString::from).collect();
        let mut shown = Vec::new();
        let (is, said) = match commands::run(&words, &mut shown) {
            Ok(answer) if shown.is_empty() => (answer.number() as u8, "done".to_string()),
            Ok(answer) => (answer.number() as u8, String::from_utf8_lossy(&shown).trim_end().to_string()),
            Err(stop) => (stop.status, stop.line),
        };
        self.steps += 1;
        self.astray += usize::from(is != must);
        self.row(what, &must.to_string(), &is.to_string(), &said)
    }

    fn row(&mut self, what: &str, must: &str, is: &str, said: &str) -> Result<(), Stop> {
        let row = format!("{what:36}{must:>7} {is:>4}  {said}");
        say(self.out, format!("{}\n", row.trim_end()).as_bytes())
    }

    fn conclude(self) -> Result<Answer, Stop> {
        match self.astray {
            0 => say(self.out, b"\nEverything answered as it must.\n").map(|()| Answer::Done),
            astray => Err(Stop::astray(format!("{astray} of {} steps answered otherwise", self.steps))),
        }
    }

    /// The path of a file in the folder.
    fn at(&self, name: &str) -> String {
        self.folder.0.join(name).to_string_lossy().into_owned()
    }

    fn put(&self, name: &str, bytes: &[u8]) -> Result<(), Stop> {
        let path = self.folder.0.join(name);
        fs::write(&path, bytes).map_err(|reason| Stop::unwritable(&path, reason))
    }
}

/// A copy with a bit of its middle byte flipped.
fn flipped(bytes: &[u8]) -> Vec<u8> {
    let mut copy = bytes.to_vec();
    let middle = copy.len() / 2;
    copy.iter_mut().skip(middle).take(1).for_each(|byte| *byte ^= 1);
    copy
}

/// A temporary folder, which goes when this does.
struct Folder(PathBuf);

impl Folder {
    fn new() -> Result<Folder, Stop> {
        let place = std::env::temp_dir().join("tour");
        let made = beside(&place, |path| DirBuilder::new().mode(0o700).create(path));
        let (path, ()) = made.map_err(|reason| Stop::unwritable(&place, reason))?;
        Ok(Folder(path))
    }
}

impl Drop for Folder {
    fn drop(&mut self) {
        // What can't be removed is in the system's folder for temporary files, and is no secret.
        let _ = fs::remove_dir_all(&self.0);
    }
}

#[cfg(test)]
mod tests {
    use super::{Folder, Tour};

    /// One step of two answers otherwise than it must, and the tour fails.
    #[test]
    fn a_step_astray() {
        let mut out = Vec::new();
        let mut tour = Tour { folder: Folder::new().expect("a folder"), out: &mut out, steps: 0, astray: 0 };
        tour.step("an unknown set", 1, &["digits", "--set", "9", "00"]).expect("shown");
        tour.step("a wrong length", 0, &["digits", "--set", "1", "00"]).expect("shown");
        let stop = tour.conclude().expect_err("astray");
        assert_eq!((stop.status, stop.line.as_str()), (70, "1 of 2 steps answered otherwise"));
    }
}
