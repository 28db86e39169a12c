//! Names, and the words of a sheet that spell them.

use crate::listing::Fields;
use crate::Item;
use std::cmp::Ordering;
use std::fmt;

/// A name of one to three words. A word is its place in the word list of the sheet, counted from 0; since
/// that list ascends, names are ordered as their spellings are.
#[derive(Clone, Copy, Debug, PartialEq, Eq, Hash)]
pub struct Name {
    /// Those behind the last word are 0.
    words: [u8; 3],
    count: u8,
}

impl Name {
    /// A name of one word.
    pub const fn one(word: u8) -> Name {
        Name {
            words: [word, 0, 0],
            count: 1,
        }
    }

    /// A name of two words.
    pub const fn two(first: u8, second: u8) -> Name {
        Name {
            words: [first, second, 0],
            count: 2,
        }
    }

    /// A name of three words, which only a parent of a synthesized resource has.
    pub const fn three(first: u8, second: u8, third: u8) -> Name {
        Name {
            words: [first, second, third],
            count: 3,
        }
    }

    /// Its words.
    pub fn words(&self) -> &[u8] {
        &self.words[..usize::from(self.count)]
    }
}

impl Ord for Name {
    fn cmp(&self, other: &Name) -> Ordering {
        self.words().cmp(other.words())
    }
}

impl PartialOrd for Name {
    fn partial_cmp(&self, other: &Name) -> Option<Ordering> {
        Some(self.cmp(other))
    }
}

/// The numbers of its words, as `@0.@2`. [`Words::spell`] has their spelling.
impl fmt::Display for Name {
    fn fmt(&self, to: &mut fmt::Formatter<'_>) -> fmt::Result {
        for (at, word) in self.words().iter().enumerate() {
            write!(to, "{}@{word}", if at == 0 { "" } else { "." })?;
        }
        Ok(())
    }
}

/// The words of a sheet.
#[derive(Clone, Debug, PartialEq, Eq)]
pub struct Words(Vec<String>);

impl Words {
    /// The words of a sheet, or `None` where they cannot be read. Every sheet that is accepted, or refused
    /// by 5 or more, has words; nothing behind them is looked at.
    ///
    /// ```
    /// use gidzelma::{Name, Words};
    /// let sheet = std::fs::read("../examples/base.sheet").unwrap();
    /// let words = Words::read(&sheet).unwrap();
    /// assert_eq!(words.iter().collect::<Vec<_>>(), ["base", "file", "resource", "self"]);
    /// assert_eq!(words.spell(&Name::two(0, 1)), "base.file");
    /// assert_eq!(words.spell(&Name::one(9)), "@9");
    /// assert!(Words::read(b"no sheet").is_none());
    /// ```
    pub fn read(sheet: &[u8]) -> Option<Words> {
        let mut fields = Fields::packed(sheet);
        fields.take(4).ok()?; // the version
        let count = fields.take(8).ok()?;
        (0..count)
            .map(|_| word(&mut fields))
            .collect::<Option<_>>()
            .map(Words)
    }

    /// How many there are.
    pub fn len(&self) -> usize {
        self.0.len()
    }

    /// Whether there is none; no sheet that is accepted has none.
    pub fn is_empty(&self) -> bool {
        self.0.is_empty()
    }

    /// A word by its number.
    pub fn get(&self, number: u8) -> Option<&str> {
        self.0.get(usize::from(number)).map(String::as_str)
    }

    /// The words, in order.
    pub fn iter(&self) -> impl Iterator<Item = &str> {
        self.0.iter().map(String::as_str)
    }

    /// A name as it is spelled; a number without a word as `@9`.
    pub fn spell(&self, name: &Name) -> String {
        let parts: Vec<String> = name
            .words()
            .iter()
            .map(|&word| self.spelled(word))
            .collect();
        parts.join(".")
    }

    /// A word as it is spelled; a number without a word as `@9`.
    pub fn spelled(&self, word: u8) -> String {
        self.get(word)
            .map_or_else(|| format!("@{word}"), str::to_string)
    }

    /// An item as the programs print it: an `R` line, or an `E` line.
    ///
    /// ```
    /// use gidzelma::{Extension, Item, Name, Words};
    /// let words = Words::read(&std::fs::read("../examples/base.sheet").unwrap()).unwrap();
    /// let line = Extension { owner: Name::one(0), is_virtual: false, is_trait: true, word: 1 };
    /// assert_eq!(words.line(&Item::Extension(line)), "E base 01 file");
    /// ```
    pub fn line(&self, item: &Item) -> String {
        match item {
            Item::Resource(made) => format!(
                "R {} {} {} {}",
                self.spell(&made.name()),
                u8::from(made.is_virtual),
                joined(made.parents.iter().map(|name| self.spell(name))),
                joined(made.marks.iter().map(ToString::to_string)),
            ),
            Item::Extension(line) => format!(
                "E {} {}{} {}",
                self.spell(&line.owner),
                u8::from(line.is_virtual),
                u8::from(line.is_trait),
                self.spelled(line.word),
            ),
        }
    }
}

/// Entries joined by commas, `-` if there are none.
fn joined(entries: impl Iterator<Item = String>) -> String {
    let all: Vec<String> = entries.collect();
    if all.is_empty() {
        "-".to_string()
    } else {
        all.join(",")
    }
}

/// A word at the cursor: its length and so many bytes.
fn word(fields: &mut Fields<'_>) -> Option<String> {
    let length = fields.take(5).ok()?;
    let bytes: Option<Vec<u8>> = (0..length).map(|_| fields.byte().ok()).collect();
    String::from_utf8(bytes?)
        .ok()
        .filter(|word| !word.is_empty() && word.is_ascii())
}
