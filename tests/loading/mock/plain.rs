//! Reading as the grammar reads: a form reads its arguments one behind the other, and a term calls itself for each. The mistakes
//! whose names begin with `plain` are made by this reader alone.
use super::reading::{Node, Reader, Result, malformed};
use crate::loading::station;
use crate::loading::tables::Tables;
use common::fault::{self, fault};
use common::refusal::Refusal;
use common::tokens::{Kind, Token};

/// Whether this reader makes a mistake.
pub fn is(reader: station::Reader, mistake: &str) -> bool {
    reader == station::Reader::Plain && fault::is(mistake)
}

/// Keeps back what a mistake leaves as it was.
pub fn keep(reader: station::Reader, lent: &mut Tables<&mut [u32]>, outcome: Result<()>) {
    if is(reader, "plain-work-left") {
        lent.work = &mut [];
    }
    if is(reader, "plain-refused-not-cleared") && outcome.is_err() {
        lent.surface = &mut [];
    }
}

impl Reader<'_> {
    /// A term inside the open frames: its node.
    pub fn plain_term(&mut self) -> Result<usize> {
        self.full_if("plain-leaf-is-a-frame", 7, self.open == 512)?;
        let token = self.token()?;
        let node = match token.kind {
            Kind::Atom => self.leaf(token, self.open)?,
            Kind::LParen => {
                self.full_if("plain-seven-before-tag", 7, self.open == 512)?;
                let tag = self.expect(Kind::Atom)?;
                match self.small(token, tag, self.open)? {
                    Some(node) => node,
                    None => self.plain_form(token, tag)?,
                }
            }
            _ => return Err(malformed(token)),
        };
        self.store(node)
    }

    /// A form behind its tag, up to its closing parenthesis.
    fn plain_form(&mut self, parenthesis: Token, tag: Token) -> Result<Node> {
        self.open += 1;
        let number = match fault() {
            "plain-seven-one-late" => self.open - 1,
            "plain-seven-one-early" => self.open + 1,
            _ => self.open,
        };
        let (arity, mut node) = self.frame(parenthesis, tag, number)?;
        let full = |reader: &Self| reader.read.nodes.len() == reader.rows;
        self.full_if("plain-eight-at-the-opening", 8, full(self))?;
        let arity = if fault::is("plain-j-of-five") { arity.min(5) } else { arity };
        let first = self.at;
        for argument in 0..arity {
            if argument == 1 && fault::is("plain-second-argument-at-the-first") {
                self.at = first;
            }
            let child = self.plain_term().map_err(|refusal| mistaken(refusal, parenthesis))?;
            let of_the_first = fault::is("plain-second-argument-in-the-row-of-the-first");
            node.children.push(*node.children.first().filter(|_| of_the_first).unwrap_or(&child));
        }
        self.full_if("plain-eight-before-parenthesis", 8, full(self))?;
        self.expect(Kind::RParen)?;
        self.open -= usize::from(!fault::is("plain-frames-not-given-back"));
        Ok(node)
    }
}

/// The refusal of an argument, as the form gives it back.
fn mistaken(refusal: Refusal, parenthesis: Token) -> Refusal {
    match (fault(), refusal.offset) {
        ("plain-argument-refused-at-the-form", Some(_)) => Refusal::at(refusal.class, parenthesis.start),
        _ => refusal,
    }
}
