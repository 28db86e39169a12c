//! Reads a sheet (01, "The sheet, bit by bit"). It is ours, not the Rust's.

use std::collections::BTreeSet;

/// A name is its words joined by a dot.
pub type Name = String;

pub enum Annotation {
    MakeList,
    Associate(Vec<Name>),
    NestAssociate(Vec<Name>),
    Alias(String),
    Inherit(Vec<Name>),
    Derive(u32),
    NoDerive,
}

/// A mark: `None` is makelist, else the tag of a derive.
pub type Mark = Option<u32>;

pub struct TypeRecord {
    pub name: Name,
    pub variant: u32,
    pub is_virtual: bool,
    pub is_trait: bool,
    pub parents: Vec<Name>,
    pub annotations: Vec<Annotation>,
    pub marks: Vec<Mark>,
}

pub struct Extension {
    /// The type's name, a dot, the resource word.
    pub key: Name,
    pub parents: Vec<Name>,
}

pub struct Sheet {
    pub types: Vec<TypeRecord>,
    pub extensions: Vec<Extension>,
}

struct Reader<'a> {
    bytes: &'a [u8],
    at: usize,
    words: Vec<String>,
}

type Read<T> = Result<T, u32>;

impl Reader<'_> {
    /// The next field, refused by 3 if it passes the end.
    fn field(&mut self, width: usize) -> Read<u32> {
        if self.at + width > 8 * self.bytes.len() {
            return Err(3);
        }
        let mut out = 0;
        for at in self.at..self.at + width {
            out = out << 1 | u32::from(self.bytes[at / 8] >> (7 - at % 8) & 1);
        }
        self.at += width;
        Ok(out)
    }

    /// A field refused by 4 outside the given values.
    fn within(&mut self, width: usize, low: u32, high: u32) -> Read<u32> {
        let value = self.field(width)?;
        if (low..=high).contains(&value) {
            Ok(value)
        } else {
            Err(4)
        }
    }

    fn flag(&mut self) -> Read<bool> {
        Ok(self.field(1)? == 1)
    }

    fn many<T>(&mut self, count: u32, one: impl Fn(&mut Self) -> Read<T>) -> Read<Vec<T>> {
        (0..count).map(|_| one(self)).collect()
    }

    fn spelling(&mut self) -> Read<String> {
        let length = self.within(5, 1, 31)?;
        let mut out = String::new();
        for at in 0..length {
            let byte = self.field(8)? as u8;
            if !byte.is_ascii_alphanumeric() && byte != b'_' && (byte != b'-' || at == 0) {
                return Err(4);
            }
            out.push(byte as char);
        }
        Ok(out)
    }

    fn word(&mut self) -> Read<String> {
        let last = self.words.len() as u32 - 1;
        let number = self.within(8, 0, last)?;
        Ok(self.words[number as usize].clone())
    }

    fn name(&mut self) -> Read<Name> {
        let first = self.word()?;
        Ok(if self.flag()? {
            first + "." + &self.word()?
        } else {
            first
        })
    }

    /// A class: the word comes first, its dom after it.
    fn class(&mut self) -> Read<Name> {
        let word = self.word()?;
        Ok(if self.flag()? {
            self.word()? + "." + &word
        } else {
            word
        })
    }

    fn annotation(&mut self, two_words: bool) -> Read<Annotation> {
        Ok(match self.within(3, 0, 6)? {
            0 => Annotation::MakeList,
            1 => {
                let count = self.field(4)?;
                Annotation::Associate(self.many(count, Self::class)?)
            }
            2 if two_words => return Err(4),
            2 => {
                let count = self.field(4)?;
                Annotation::NestAssociate(self.many(count, Self::class)?)
            }
            3 => Annotation::Alias(self.word()?),
            4 => {
                let count = self.field(4)?;
                Annotation::Inherit(self.many(count, Self::name)?)
            }
            5 => Annotation::Derive(self.field(8)?),
            _ => Annotation::NoDerive,
        })
    }

    fn mark(&mut self) -> Read<Mark> {
        Ok(if self.flag()? {
            Some(self.field(8)?)
        } else {
            None
        })
    }

    fn type_record(&mut self) -> Read<TypeRecord> {
        let name = self.name()?;
        let two_words = name.contains('.');
        let variant = self.within(2, 0, 2)?;
        let is_virtual = self.flag()?;
        let is_trait = self.flag()?;
        let count = self.within(4, 0, 8)?;
        let parents = self.many(count, Self::name)?;
        let count = self.within(4, 0, 12)?;
        let annotations = self.many(count, |r| r.annotation(two_words))?;
        let count = self.field(3)?;
        let marks = self.many(count, Self::mark)?;
        Ok(TypeRecord {
            name,
            variant,
            is_virtual,
            is_trait,
            parents,
            annotations,
            marks,
        })
    }

    fn extension(&mut self) -> Read<Extension> {
        let key = self.name()? + "." + &self.word()?;
        let count = self.within(4, 1, 8)?;
        let parents = self.many(count, Self::name)?;
        Ok(Extension { key, parents })
    }

    fn sheet(&mut self) -> Read<Sheet> {
        self.within(4, 1, 1)?;
        let count = self.within(8, 2, 200)?;
        self.words = self.many(count, Self::spelling)?;
        let count = self.within(7, 0, 64)?;
        let types = self.many(count, Self::type_record)?;
        let count = self.within(6, 0, 32)?;
        let extensions = self.many(count, Self::extension)?;
        Ok(Sheet { types, extensions })
    }

    fn rest_is_fill(&mut self) -> bool {
        let left = 8 * self.bytes.len() - self.at;
        left < 8 && self.field(left) == Ok(0)
    }
}

/// The word of a class: its part after the dot.
pub fn word_of(class: &str) -> &str {
    class.rsplit('.').next().unwrap_or(class)
}

fn repeats<T: Ord>(entries: impl Iterator<Item = T>) -> bool {
    let mut seen = BTreeSet::new();
    entries.into_iter().any(|entry| !seen.insert(entry))
}

/// What makes two annotations of a type equal.
fn identity(annotation: &Annotation) -> (u32, Vec<String>) {
    fn words(classes: &[Name]) -> Vec<String> {
        let mut out: Vec<String> = classes.iter().map(|c| word_of(c).to_string()).collect();
        out.sort();
        out
    }
    match annotation {
        Annotation::MakeList => (0, vec![]),
        Annotation::Associate(classes) => (1, words(classes)),
        Annotation::NestAssociate(classes) => (2, words(classes)),
        Annotation::Alias(word) => (3, vec![word.clone()]),
        Annotation::Inherit(names) => (4, names.clone()),
        Annotation::Derive(tag) => (5, vec![tag.to_string()]),
        Annotation::NoDerive => (6, vec![]),
    }
}

fn word_twice(annotation: &Annotation) -> bool {
    match annotation {
        Annotation::Associate(classes) | Annotation::NestAssociate(classes) => {
            repeats(classes.iter().map(|c| word_of(c)))
        }
        _ => false,
    }
}

/// The sheet, or the number of its refusal (1, 3 to 7).
pub fn read(bytes: &[u8]) -> Result<Sheet, u32> {
    if bytes.len() > 40_960 {
        return Err(1);
    }
    let mut reader = Reader {
        bytes,
        at: 0,
        words: Vec::new(),
    };
    let sheet = reader.sheet()?;
    if !reader.rest_is_fill() {
        return Err(7);
    }
    let words = &reader.words;
    let has = |word: &str| words.iter().any(|w| w == word);
    if words.windows(2).any(|w| w[0] >= w[1]) || !has("resource") || !has("self") {
        return Err(5);
    }
    if repeats(sheet.types.iter().map(|t| &t.name))
        || repeats(sheet.extensions.iter().map(|e| &e.key))
        || sheet.types.iter().any(|t| {
            repeats(t.annotations.iter().map(identity)) || t.annotations.iter().any(word_twice)
        })
    {
        return Err(6);
    }
    Ok(sheet)
}
