//! Command lines: a command's options, flags and places.

use crate::stop::{shown, Stop};
use skimdral::Set;
use std::ffi::{OsStr, OsString};

/// What a command takes.
pub struct Shape {
    pub name: &'static str,
    /// Options with a value.
    pub options: &'static [&'static str],
    /// Whether it takes `--force`.
    pub force: bool,
    /// The arguments that are no options, in order.
    pub places: &'static [&'static str],
    /// How many of them may be left out, from the end.
    pub optional: usize,
}

/// What a command was given.
#[derive(Default)]
pub struct Arguments {
    options: Vec<(&'static str, OsString)>,
    places: Vec<OsString>,
    pub force: bool,
    pub help: bool,
}

impl Arguments {
    /// Sorts the words after a command's name.
    pub fn sort(shape: &Shape, words: &[OsString]) -> Result<Arguments, Stop> {
        let mut sorted = Arguments::default();
        let mut words = words.iter();
        while let Some(word) = words.next() {
            match word.to_str() {
                Some("--help" | "-h") => return Ok(Arguments { help: true, ..sorted }),
                Some("--force") if shape.force => sorted.force = true,
                Some("--") => sorted.places.extend(words.by_ref().cloned()),
                Some(text) if text.starts_with('-') && text != "-" => sorted.option(shape, text, words.next())?,
                _ => sorted.places.push(word.clone()),
            }
        }
        sorted.count_places(shape)?;
        Ok(sorted)
    }

    fn option(&mut self, shape: &Shape, text: &str, value: Option<&OsString>) -> Result<(), Stop> {
        let complaint = |line: &str| Stop::usage(format!("skimdral {}: {line}", shape.name));
        let known = shape.options.iter().find(|option| **option == text);
        let option =
            known.ok_or_else(|| complaint(&format!("there is no option {}; see --help", shown(OsStr::new(text)))))?;
        let value = value.ok_or_else(|| complaint(&format!("{option} wants a value")))?;
        if self.get(option).is_some() {
            return Err(complaint(&format!("{option} is given twice")));
        }
        self.options.push((option, value.clone()));
        Ok(())
    }

    fn count_places(&self, shape: &Shape) -> Result<(), Stop> {
        let most = shape.places.len();
        if (most - shape.optional..=most).contains(&self.places.len()) {
            return Ok(());
        }
        let wanted = if most == 0 { "none".to_string() } else { shape.places.join(" ") };
        let given = self.places.len();
        Err(Stop::usage(format!("skimdral {}: {given} arguments beside options, wanted: {wanted}", shape.name)))
    }

    /// The value of an option, if it was given.
    pub fn get(&self, option: &str) -> Option<&OsStr> {
        self.options.iter().find(|(name, _)| *name == option).map(|(_, value)| value.as_os_str())
    }

    /// The value of an option that must be given.
    pub fn need(&self, option: &str) -> Result<&OsStr, Stop> {
        self.get(option).ok_or_else(|| Stop::usage(format!("{option} is missing; see --help")))
    }

    /// The argument at that place, if it was given.
    pub fn place(&self, index: usize) -> Option<&OsStr> {
        self.places.get(index).map(OsString::as_os_str)
    }

    /// The argument at a place that is not optional.
    pub fn need_place(&self, index: usize) -> Result<&OsStr, Stop> {
        self.place(index).ok_or_else(|| Stop::usage("an argument is missing; see --help"))
    }

    /// The set's number. Whether there is such a set is the library's to say; an unknown name is bad usage.
    pub fn set(&self) -> Result<u32, Stop> {
        let text = self.need("--set")?;
        let named = || text.to_str().and_then(Set::named).map(|set| set.number);
        number(text)
            .or_else(named)
            .ok_or_else(|| Stop::usage(format!("--set wants a number or a name like shake-128s, not {}", shown(text))))
    }
}

/// A number of 32 bits in decimal digits.
pub fn number(text: &OsStr) -> Option<u32> {
    let text = text.to_str()?;
    if text.bytes().all(|byte| byte.is_ascii_digit()) {
        text.parse().ok()
    } else {
        None
    }
}
