//! The core text of a module whose rows and records are words.
use crate::loading::tables::{OFFSET, RECORD, ROW};
use common::fault::{fault, is};
use common::vocabulary::{DECLARATION_KINDS, FORMS, KINDS};

/// Bytes of the shortest text, without declarations.
pub const LEAST: usize = 65;

/// What var and global rows hold: a number, or where a numeral stands.
#[derive(Clone, Copy, PartialEq)]
pub enum Numerals {
    Counts,
    Digits,
}

pub struct Module<'a> {
    /// What names and digits refer to.
    pub bytes: &'a [u8],
    pub core: &'a [u32],
    pub declarations: &'a [u32],
    pub numerals: Numerals,
}

/// The text of so many declarations.
pub fn text(module: &Module, declarations: usize) -> Vec<u8> {
    let head = match fault() {
        "semantic-head" => "(hott-semantic (projection 0 1)",
        _ => "(hott-core (format 0 1)",
    };
    let mut text = format!("{head} (theory \"mltt-core\" 0 1) (declarations").into_bytes();
    for record in module.declarations.chunks_exact(RECORD).take(declarations) {
        text.push(b' ');
        module.declaration(record, &mut text);
    }
    if declarations == 0 && is("space-behind-declarations") {
        text.push(b' ');
    }
    text.extend(b"))");
    if !is("no-newline-behind-the-text") {
        text.push(b'\n');
    }
    text
}

impl Module<'_> {
    fn declaration(&self, record: &[u32], text: &mut Vec<u8>) {
        let &[kind, start, length, ty, body] = record else { unreachable!("a record") };
        let opaque = kind == 2 && is("transparent-printed-as-opaque");
        let word = DECLARATION_KINDS[if opaque { 2 } else { kind as usize - 1 }];
        text.extend(format!("({word} ").bytes());
        let quote: &[u8] = if is("names-without-quotes") { b"" } else { b"\"" };
        text.extend([quote, self.part(start, length), quote].concat());
        text.push(b' ');
        self.term(ty, text);
        if kind != 1 || is("body-for-a-postulate") {
            text.push(b' ');
            self.term(if is("type-for-body") { ty } else { body }, text);
        }
        text.push(b')');
    }

    fn term(&self, number: u32, text: &mut Vec<u8>) {
        let row = &self.core[number as usize * ROW..][..ROW];
        let word = KINDS[row[0] as usize - 1];
        let arity = FORMS.iter().find(|form| form.word == word).map_or(0, |form| form.arity);
        let numeral = ["var", "global", "universe"].contains(&word);
        if arity == 0 && !numeral {
            text.extend(word.bytes());
            return;
        }
        let arrow = word == "pi" && self.bytes[row[OFFSET] as usize + 1..].starts_with(b"arrow");
        let shown = match fault() {
            "var-printed-as-global" if word == "var" => "global",
            "arrow-in-the-text" if arrow => "arrow",
            _ => word,
        };
        text.extend(format!("({shown} ").bytes());
        if numeral {
            text.extend(self.numeral(word, row));
        }
        if is("binder-in-the-text") && ["pi", "sigma", "lam"].contains(&word) {
            text.extend(b"x ");
        }
        let mut children = row[1..=arity].to_vec();
        if is("children-from-behind") {
            children.reverse();
        }
        for (at, child) in children.into_iter().filter(|_| !numeral).enumerate() {
            text.extend(if at == 0 { &b""[..] } else { b" " });
            self.term(child, text);
        }
        text.push(b')');
    }

    fn numeral(&self, word: &str, row: &[u32]) -> Vec<u8> {
        match fault() {
            _ if word != "universe" && self.numerals == Numerals::Counts => {
                let count = if is("counts-of-one-digit") { row[1] % 10 } else { row[1] };
                count.to_string().into_bytes()
            }
            "universe-digits-from-the-term" => self.part(row[OFFSET], row[2]).to_vec(),
            _ => self.part(row[1], row[2]).to_vec(),
        }
    }

    /// Nothing, where a mistake leads out of the bytes.
    fn part(&self, start: u32, length: u32) -> &[u8] {
        self.bytes.get(start as usize..start as usize + length as usize).unwrap_or_default()
    }
}
