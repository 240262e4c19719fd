//! A case: a layout table, what is kept of it, and the length of the buffer that a list is written in.
//!
//! `KIND TABLE LOOKUPS FEATURES SCRIPTS WORK`, separated by single spaces: GSUB or GPOS; bytes in hex; two lists of
//! numbers; a list of tags of eight hex digits each; a number. A list is separated by commas, and `-` is the empty
//! one, also for the table.

use write_fonts::types::Tag;

#[derive(Clone, Copy, PartialEq)]
pub enum Kind {
    Gsub,
    Gpos,
}

pub struct Case {
    pub kind: Kind,
    pub table: Vec<u8>,
    pub lookups: Vec<u16>,
    pub features: Vec<u16>,
    pub scripts: Vec<Tag>,
    pub work: usize,
}

impl Case {
    pub fn parse(line: &str) -> Option<Case> {
        let words: Vec<&str> = line.split(' ').collect();
        let [kind, table, lookups, features, scripts, work] = words[..] else {
            return None;
        };
        Some(Case {
            kind: match kind {
                "GSUB" => Kind::Gsub,
                "GPOS" => Kind::Gpos,
                _ => return None,
            },
            table: bytes(table)?,
            lookups: list(lookups, |word| word.parse().ok())?,
            features: list(features, |word| word.parse().ok())?,
            scripts: list(scripts, tag)?,
            work: work.parse().ok()?,
        })
    }
}

fn bytes(word: &str) -> Option<Vec<u8>> {
    if word == "-" {
        return Some(Vec::new());
    }
    if word.is_empty() || word.len() % 2 != 0 || !word.is_ascii() {
        return None;
    }
    (0..word.len())
        .step_by(2)
        .map(|place| u8::from_str_radix(&word[place..place + 2], 16).ok())
        .collect()
}

fn list<T>(word: &str, element: impl Fn(&str) -> Option<T>) -> Option<Vec<T>> {
    if word == "-" {
        return Some(Vec::new());
    }
    word.split(',').map(element).collect()
}

fn tag(word: &str) -> Option<Tag> {
    if word.len() != 8 {
        return None;
    }
    u32::from_str_radix(word, 16).ok().map(Tag::from_u32)
}
