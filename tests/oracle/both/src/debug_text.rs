//! A decoder's private fields, read off its `Debug` text: last numbers, held objects, messages being joined.
use isdb_mmt::decoder::Decoder;
use std::fmt::Write;

/// A value: the word in front, and the parts in brackets, each with its name or key, if it has one. A list in square brackets is
/// bytes, since no other is among the private fields.
#[derive(Default)]
pub struct Shown<'a> {
    pub word: &'a str,
    pub parts: Vec<(&'a str, Shown<'a>)>,
    pub bytes: Vec<u8>,
}

fn bytes<'a>(text: &mut &'a str) -> Vec<u8> {
    let (list, rest) = text.split_once(']').unwrap();
    *text = rest;
    list.split(", ").filter(|w| !w.is_empty()).map(|w| w.parse().unwrap()).collect()
}

impl<'a> Shown<'a> {
    pub fn read(text: &mut &'a str) -> Shown<'a> {
        let end = text.find(|c: char| !c.is_alphanumeric() && c != '_').unwrap_or(text.len());
        let (word, rest) = text.split_at(end);
        let mut shown = Shown { word, ..Shown::default() };
        *text = rest;
        let inside = rest.trim_start();
        if let Some(list) = inside.strip_prefix('[') {
            *text = list;
            shown.bytes = bytes(text);
        } else if let Some(inside) = inside.strip_prefix(['{', '(']) {
            *text = inside.trim_start();
            shown.read_parts(text);
        }
        shown
    }

    fn read_parts(&mut self, text: &mut &'a str) {
        loop {
            if let Some(rest) = text.strip_prefix(['}', ')']) {
                *text = rest;
                return;
            }
            let mut part = ("", Shown::read(text));
            if let Some(rest) = text.strip_prefix(": ") {
                *text = rest;
                part = (part.1.word, Shown::read(text));
            }
            self.parts.push(part);
            *text = text.trim_start_matches([',', ' ']);
        }
    }

    pub fn find(&self, name: &str) -> Option<&Shown<'a>> {
        self.parts.iter().find(|p| p.0 == name).map(|p| &p.1)
    }

    pub fn of(&self, name: &str) -> &Shown<'a> {
        self.find(name).unwrap()
    }

    /// What is in `Some(..)`.
    pub fn some(&self) -> Option<&Shown<'a>> {
        (self.word == "Some").then(|| &self.parts[0].1)
    }

    pub fn number(&self) -> u32 {
        self.word.parse().unwrap()
    }

    pub fn flag(&self) -> bool {
        self.word.parse().unwrap()
    }
}

/// Takes text up to the first public field, and then refuses more, so that the tables are not written out.
struct UpToTables(String);

impl Write for UpToTables {
    fn write_str(&mut self, s: &str) -> std::fmt::Result {
        if s == "mpts" {
            return Err(std::fmt::Error);
        }
        self.0.push_str(s);
        Ok(())
    }
}

/// The text of the private fields, which stand first.
pub fn private_text(d: &Decoder) -> String {
    let mut text = UpToTables(String::new());
    let ended = write!(text, "{d:?}");
    assert!(ended.is_err() && text.0.starts_with("Decoder { messages: "), "the decoder's Debug text is another: {}", text.0);
    text.0 + "}"
}
