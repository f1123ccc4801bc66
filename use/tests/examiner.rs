//! Every name that the examiner's guide gives in backticks is there: a definition, a theorem, a function, an edit, a
//! crate or a file.

use std::collections::BTreeSet;
use std::fs;
use std::path::{Path, PathBuf};

/// The repository, with the text of every file of its crates by its path below `crates/`.
struct House {
    root: PathBuf,
    texts: Vec<(String, String)>,
    words: BTreeSet<String>,
}

fn is_of_a_word(c: char) -> bool {
    c.is_alphanumeric() || "_'-".contains(c)
}

/// Adds the files below a folder of `crates/`, but for what rt makes there, in the folder `out` of each crate.
fn add_files(folder: &Path, crates: &Path, texts: &mut Vec<(String, String)>) {
    for entry in fs::read_dir(folder).expect("a folder").map(|entry| entry.expect("an entry").path()) {
        if folder.parent() == Some(crates) && entry.ends_with("out") {
            continue;
        }
        if entry.is_dir() {
            add_files(&entry, crates, texts);
        } else {
            let name = entry.strip_prefix(crates).expect("below crates/").to_str().expect("text").to_string();
            texts.push((name, fs::read_to_string(&entry).expect("text")));
        }
    }
}

impl House {
    fn new() -> House {
        let root = Path::new(env!("CARGO_MANIFEST_DIR")).join("..");
        let mut texts = Vec::new();
        add_files(&root.join("crates"), &root.join("crates"), &mut texts);
        let split = |text: &str| text.split(|c| !is_of_a_word(c)).map(str::to_string).collect::<Vec<_>>();
        let words = texts.iter().flat_map(|(_, text)| split(text)).collect();
        House { root, texts, words }
    }

    /// Whether a module of a crate declares the name.
    fn declares(&self, room: &str, module: &str, name: &str) -> bool {
        let of_module = |path: &str| ["specs", "proofs"].iter().any(|f| path == format!("{room}/{f}/{module}.antt"));
        let declares = |line: &str| {
            let words = ["pub", "abbrev", "unfoldable", "record", "data"];
            line.split_whitespace().find(|word| !words.contains(word)) == Some(name)
        };
        self.texts.iter().any(|(path, text)| of_module(path) && text.lines().any(declares))
    }

    /// Whether code of a crate has an item of the name.
    fn has_item(&self, room: &str, name: &str) -> bool {
        let items = ["fn", "struct", "enum", "const"].map(|word| format!("{word} {name}"));
        let ends = |rest: &str| !rest.starts_with(is_of_a_word);
        let has = |text: &str| items.iter().any(|item| text.split(item.as_str()).skip(1).any(ends));
        self.texts.iter().any(|(path, text)| path.starts_with(&format!("{room}/src/")) && has(text))
    }

    fn has_path(&self, path: &str) -> bool {
        ["", "crates", "use/tests"].iter().any(|folder| self.root.join(folder).join(path).exists())
    }

    fn has_edit(&self, room: &str, name: &str) -> bool {
        self.texts.iter().any(|(path, _)| *path == format!("{room}/must-fail/{name}.edit"))
    }

    /// Whether what stands in backticks is there, or is no name but a piece of code.
    fn has(&self, name: &str) -> bool {
        let is_name = name.chars().all(|c| is_of_a_word(c) || "./:".contains(c)) && !name.contains("NAME");
        if !is_name || name.ends_with('/') || self.has_path(name) {
            return true;
        }
        if let Some((room, rest)) = name.split_once("::") {
            return self.has_item(room, rest.rsplit("::").next().unwrap_or(rest));
        }
        let (room, rest) = name.split_once('/').unwrap_or(("rules", name));
        match rest.split_once('.') {
            Some((module, name)) => self.declares(room, module, name),
            None if name.contains('/') => self.has_edit(room, rest),
            None => self.words.contains(name),
        }
    }
}

/// What the guide gives in backticks. An edit may stand without its crate in the list of a crate's edits, which is
/// "- `room`: `edit`, `edit`; `room`: `edit`."; it is given here as `room/edit`.
fn names_of(guide: &str, house: &House) -> BTreeSet<String> {
    let pieces: Vec<&str> = guide.split('`').collect();
    let mut names = BTreeSet::new();
    let mut room = "";
    for place in (1..pieces.len()).step_by(2) {
        let (before, name, after) = (pieces[place - 1], pieces[place], pieces.get(place + 1).unwrap_or(&""));
        let name = name.split_whitespace().collect::<Vec<_>>().join(" ");
        if before.contains("\n- ") || before.contains("\n\n") {
            room = "";
        }
        if after.trim_end() == ":" {
            room = pieces[place];
        }
        let is_edit = house.has_edit(room, &name);
        names.insert(if is_edit { format!("{room}/{name}") } else { name });
    }
    names
}

#[test]
fn every_name_of_the_guide_is_there() {
    let house = House::new();
    let guide = fs::read_to_string(house.root.join("docs/EXAMINER.md")).expect("the guide");
    let names = names_of(&guide, &house);
    assert!(names.len() > 300, "{} names", names.len());
    let lost: Vec<_> = names.iter().filter(|name| !house.has(name)).collect();
    assert!(lost.is_empty(), "not there: {lost:?}");
}

/// And every edit is named in the guide, with its crate.
#[test]
fn every_edit_is_in_the_guide() {
    let house = House::new();
    let guide = fs::read_to_string(house.root.join("docs/EXAMINER.md")).expect("the guide");
    let names = names_of(&guide, &house);
    let edits = house.texts.iter().filter_map(|(path, _)| path.split_once("/must-fail/"));
    let edits: Vec<_> = edits.map(|(room, edit)| format!("{room}/{}", edit.trim_end_matches(".edit"))).collect();
    assert!(edits.len() > 50, "{} edits", edits.len());
    let lost: Vec<_> = edits.iter().filter(|edit| !names.contains(*edit)).collect();
    assert!(lost.is_empty(), "not in the guide: {lost:?}");
}
