//! Writing outputs, whole or not at all.
//!
//! The bytes go to a temporary file beside the target, which is synced and then put in the target's place. What is
//! put in place is taken back when the command fails after it, as when the second of two outputs can't be made.

use crate::input::STANDARD;
use crate::stop::{shown, Stop};
use std::ffi::OsStr;
use std::fs::{self, File, OpenOptions};
use std::io::{self, ErrorKind, Write};
use std::os::unix::fs::{MetadataExt, OpenOptionsExt};
use std::path::{Path, PathBuf};
use std::process;

/// Who may read an output.
#[derive(Clone, Copy)]
pub enum Readers {
    /// The owner alone, from the file's creation on.
    Owner,
    /// Whoever the process's mask allows.
    Usual,
}

/// Stops if an output is there and must be kept. Only a file is replaced: not a folder, a device or a link.
pub fn permit(target: &OsStr, force: bool) -> Result<(), Stop> {
    if target == STANDARD {
        return Ok(());
    }
    let path = Path::new(target);
    match fs::symlink_metadata(path) {
        Ok(_) if !force => Err(Stop::unwritable(path, "it exists, and is kept without --force")),
        Ok(found) if !found.is_file() => Err(Stop::unwritable(path, "it exists and is no ordinary file")),
        _ => Ok(()),
    }
}

/// Stops where an output is also another file of the command.
pub fn apart(output: &OsStr, others: &[&OsStr]) -> Result<(), Stop> {
    let path = Path::new(output);
    let files = others.iter().filter(|other| **other != STANDARD && output != STANDARD);
    match files.map(Path::new).find(|other| same(path, other)) {
        Some(other) => {
            let [output, other] = [path, other].map(|path| shown(path.as_os_str()));
            Err(Stop::usage(format!("the output {output} is the same file as {other}")))
        }
        None => Ok(()),
    }
}

/// Whether both name one file, or would.
fn same(one: &Path, other: &Path) -> bool {
    let identity = |path: &Path| fs::metadata(path).map(|found| (found.dev(), found.ino()));
    match (identity(one), identity(other)) {
        (Ok(one), Ok(other)) => one == other,
        (Err(_), Err(_)) => {
            one.file_name() == other.file_name() && folder(one).canonicalize().ok() == folder(other).canonicalize().ok()
        }
        _ => false,
    }
}

fn folder(path: &Path) -> &Path {
    path.parent().filter(|folder| !folder.as_os_str().is_empty()).unwrap_or(Path::new("."))
}

/// Writes one output: to standard output, or to its place.
pub fn write(target: &OsStr, bytes: &[u8], force: bool, out: &mut dyn Write) -> Result<(), Stop> {
    if target == STANDARD {
        return say(out, bytes);
    }
    Draft::write(target, bytes, Readers::Usual)?.publish(force)?.keep();
    Ok(())
}

/// Writes to standard output.
pub fn say(out: &mut dyn Write, bytes: &[u8]) -> Result<(), Stop> {
    out.write_all(bytes).and_then(|()| out.flush()).map_err(|reason| Stop::unwritable(Path::new(STANDARD), reason))
}

/// An output under a temporary name, which goes when this does.
pub struct Draft {
    temporary: PathBuf,
    target: PathBuf,
}

impl Draft {
    /// Writes and syncs the bytes beside the target.
    pub fn write(target: &OsStr, bytes: &[u8], readers: Readers) -> Result<Draft, Stop> {
        let target = PathBuf::from(target);
        let mode = match readers {
            Readers::Owner => 0o600,
            Readers::Usual => 0o666,
        };
        let open = |path: &Path| OpenOptions::new().write(true).create_new(true).mode(mode).open(path);
        let (temporary, mut file) = beside(&target, open).map_err(|reason| Stop::unwritable(&target, reason))?;
        let draft = Draft { temporary, target };
        let written = file.write_all(bytes).and_then(|()| file.sync_all());
        written.map_err(|reason| Stop::unwritable(&draft.target, reason))?;
        Ok(draft)
    }

    /// Puts the draft in its place, which is taken back unless it is kept.
    pub fn publish(self, force: bool) -> Result<Published, Stop> {
        permit(self.target.as_os_str(), force)?;
        let placed = if force { self.replace() } else { self.place() };
        let published = placed.map_err(|reason| Stop::unwritable(&self.target, reason))?;
        // Not every file system syncs folders, and the file's own bytes are safe.
        let _ = File::open(folder(&self.target)).and_then(|folder| folder.sync_all());
        Ok(published)
    }

    /// Where nothing stood before.
    fn place(&self) -> io::Result<Published> {
        rename_anew(&self.temporary, &self.target)?;
        Ok(Published { target: self.target.clone(), old: None, kept: false })
    }

    /// What stands at the target is held under a temporary name until the new one is kept.
    fn replace(&self) -> io::Result<Published> {
        let old = match self.target.exists() {
            true => Some(beside(&self.target, |path| rename_anew(&self.target, path))?.0),
            false => None,
        };
        let renamed = fs::rename(&self.temporary, &self.target);
        if let (Err(_), Some(old)) = (&renamed, &old) {
            restore(old, &self.target);
        }
        renamed.map(|()| Published { target: self.target.clone(), old, kept: false })
    }
}

impl Drop for Draft {
    fn drop(&mut self) {
        remove(&self.temporary);
    }
}

/// An output in its place.
pub struct Published {
    target: PathBuf,
    old: Option<PathBuf>,
    kept: bool,
}

impl Published {
    /// The command is done: the output stays.
    pub fn keep(mut self) {
        self.kept = true;
    }
}

/// Takes the output back, or lets go of what it replaced.
impl Drop for Published {
    fn drop(&mut self) {
        match (&self.old, self.kept) {
            (Some(old), true) => remove(old),
            (Some(old), false) => restore(old, &self.target),
            (None, true) => {}
            (None, false) => remove(&self.target),
        }
    }
}

/// Puts what was held back in its place. Renaming does nothing where both are links to one file.
fn restore(old: &Path, target: &Path) {
    let _ = fs::rename(old, target);
    remove(old);
}

/// Removes a file, if it is there. One that can't be removed is found in no better way than by looking.
fn remove(path: &Path) {
    let _ = fs::remove_file(path);
}

/// Gives a file a new name, which must be free. The old one stays where the file system has links; where it has none,
/// a name that comes up at the last moment is overwritten.
fn rename_anew(from: &Path, to: &Path) -> io::Result<()> {
    match fs::hard_link(from, to) {
        Err(reason) if reason.kind() != ErrorKind::AlreadyExists => fs::rename(from, to),
        linked => linked,
    }
}

/// Makes something under the first temporary name beside the target that is free, and gives its path.
pub fn beside<T>(target: &Path, make: impl Fn(&Path) -> io::Result<T>) -> io::Result<(PathBuf, T)> {
    let mut number = 0;
    loop {
        let path = folder(target).join(format!(".skimdral-{}-{number}", process::id()));
        match make(&path) {
            Err(reason) if reason.kind() == ErrorKind::AlreadyExists && number < 1000 => number += 1,
            made => return made.map(|made| (path, made)),
        }
    }
}
