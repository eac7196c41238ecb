//! Reading with a list of open frames, and what the plain reader shares.
use super::{plain, resolving};
use crate::faults;
use crate::loading::station;
use crate::loading::tables::{RECORD, ROW, Tables};
use common::fault::{fault, is};
use common::refusal::Refusal;
use common::tokens::{Kind, Token};
use common::vocabulary::{ARROW, DECLARATION_KINDS, Edition, FORMS, KINDS, LEAVES, RESERVED, kind_number};

/// A completed term. Children are places in the list of nodes.
pub struct Node {
    pub kind: u32,
    /// Where the term starts.
    pub offset: usize,
    pub tag: Token,
    /// The name, numeral or binder.
    pub atom: Option<Token>,
    pub children: Vec<usize>,
}

pub struct Declared {
    pub kind: u32,
    pub tag: Token,
    pub name: Token,
    pub ty: usize,
    pub body: Option<usize>,
}

#[derive(Default)]
pub struct Read {
    pub nodes: Vec<Node>,
    pub declared: Vec<Declared>,
    pub module_name: Option<Token>,
    /// Whether `arrow` is reserved, and a form.
    arrows: bool,
    /// Whether a frame was opened.
    pub forms: bool,
}

pub struct Reader<'a> {
    by: station::Reader,
    source: &'a [u8],
    pub at: usize,
    pub rows: usize,
    records: usize,
    core_rows: usize,
    /// So many frames may be open.
    frames: usize,
    /// The plain reader's.
    pub open: usize,
    pub read: Read,
}

pub type Result<T> = std::result::Result<T, Refusal>;

impl<'a> Reader<'a> {
    pub fn new(by: station::Reader, source: &'a [u8], lent: &Tables<&mut [u32]>, at: usize) -> Self {
        let whole = |words: usize, width: usize, up: &str, left: &str| {
            let count = if is(up) { words.div_ceil(width) } else { words / width };
            count.saturating_sub(usize::from(is(left)))
        };
        Self {
            by,
            source,
            at,
            rows: whole(lent.surface.len(), ROW, "rows-rounded-up", "eight-with-space-left"),
            records: whole(lent.declarations.len(), RECORD, "records-rounded-up", "nine-with-space-left"),
            core_rows: lent.core.len() / ROW,
            frames: match fault() {
                "frames-511" => 511,
                "frames-513" => 513,
                _ => 512,
            },
            open: 0,
            read: Read::default(),
        }
    }

    /// With tables that are never full.
    pub fn unbounded(source: &'a [u8], at: usize, frames: usize) -> Self {
        let (by, most) = (station::Reader::Frames, usize::MAX);
        Self { by, source, at, rows: most, records: most, core_rows: most, frames, open: 0, read: Read::default() }
    }

    pub fn module(&mut self) -> Result<()> {
        self.head()?;
        loop {
            let full = self.read.declared.len() == self.records;
            self.full_if("nine-at-the-end-of-the-source", 9, full)?;
            let token = self.token()?;
            match token.kind {
                Kind::Eof => return Ok(()),
                Kind::LParen => {
                    self.full_if("eight-before-nine", 8, full && self.read.nodes.len() == self.rows)?;
                    if full && !self.is_late_with_nine() && !is("nine-when-complete") {
                        return Err(Refusal::nowhere(9));
                    }
                    self.declaration(full)?;
                }
                _ if is("nothing-behind-the-last-declaration") => return Ok(()),
                _ => return Err(malformed(token)),
            }
        }
    }

    fn head(&mut self) -> Result<()> {
        self.expect(Kind::LParen)?;
        self.word("surface")?;
        let major = self.numeral()?;
        let minor = self.numeral()?;
        let is_version = |edition: &Edition| {
            let [first, second] = edition.version();
            self.is(major, first) && self.is(minor, second)
        };
        let edition = Edition::BOTH.into_iter().find(is_version);
        let edition = if is("two-for-0-2") { edition.filter(|edition| *edition == Edition::First) } else { edition };
        let supported = edition.is_some() || is("version-not-compared");
        let two = match fault() {
            "version-with-offset" => Refusal::at(2, major.start),
            _ => Refusal::nowhere(2),
        };
        if !supported && is("version-before-parenthesis") {
            return Err(two);
        }
        self.expect(Kind::RParen)?;
        if !supported {
            return Err(two);
        }
        self.expect(Kind::LParen)?;
        self.word("module")?;
        let second = edition == Some(Edition::Second);
        self.read.arrows = second && !is("arrow-free-as-a-module-name") || is("arrow-a-form-in-0-1");
        self.read.module_name = Some(self.name()?);
        self.read.arrows |= second;
        self.expect(Kind::RParen)?;
        Ok(())
    }

    fn declaration(&mut self, full: bool) -> Result<()> {
        let tag = self.expect(Kind::Atom)?;
        let kind = self.kind_of(&DECLARATION_KINDS, tag).ok_or(malformed(tag))?;
        if full && self.is_late_with_nine() {
            return Err(Refusal::nowhere(9));
        }
        let name = self.name()?;
        if is("duplicates-while-reading") && resolving::place(self.source, &self.read.declared, name).is_some() {
            return Err(Refusal::nowhere(4));
        }
        let (ty, frames) = self.term(0)?;
        let before = if is("frames-of-type-and-body") { frames } else { 0 };
        let body = if kind == 1 { None } else { Some(self.term(before)?.0) };
        self.expect(Kind::RParen)?;
        if full && is("nine-when-complete") {
            return Err(Refusal::nowhere(9));
        }
        self.read.declared.push(Declared { kind, tag, name, ty, body });
        if is("names-while-reading") {
            resolving::resolve(self.source, &self.read)?;
        }
        Ok(())
    }

    fn is_late_with_nine(&self) -> bool {
        is("nine-after-tag") || plain::is(self.by, "plain-nine-after-tag")
    }

    /// A type or body: its node, and the greatest number of frames that were open, which only a mistake asks for.
    fn term(&mut self, before: usize) -> Result<(usize, usize)> {
        match self.by {
            station::Reader::Frames => self.framed_term(before),
            station::Reader::Plain => {
                self.open = 0;
                Ok((self.plain_term()?, 0))
            }
        }
    }

    /// `before` is 0 but for a mistake.
    fn framed_term(&mut self, before: usize) -> Result<(usize, usize)> {
        let mut frames: Vec<(usize, Node)> = Vec::new();
        let (mut greatest, mut opened) = (0, 0);
        loop {
            let token = self.token()?;
            let leaf = match token.kind {
                Kind::Atom => self.leaf(token, frames.len())?,
                Kind::LParen => {
                    self.full_if("seven-before-tag", 7, frames.len() == 512)?;
                    let tag = self.expect(Kind::Atom)?;
                    match self.small(token, tag, frames.len())? {
                        Some(node) => node,
                        None => {
                            opened += 1;
                            greatest = greatest.max(frames.len() + 1);
                            let open = if is("frames-not-given-back") { opened } else { frames.len() + 1 };
                            frames.push(self.frame(token, tag, before + open)?);
                            continue;
                        }
                    }
                }
                _ => return Err(malformed(token)),
            };
            let mut number = self.store(leaf)?;
            loop {
                let Some((arity, node)) = frames.last_mut() else {
                    return Ok((number, greatest));
                };
                node.children.push(number);
                if node.children.len() < *arity {
                    break;
                }
                self.full_if("eight-before-parenthesis", 8, self.read.nodes.len() == self.rows)?;
                self.expect(Kind::RParen)?;
                let (_, node) = frames.pop().expect("the frame just filled");
                number = self.store(node)?;
            }
        }
    }

    /// A class that only a mistake gives here.
    pub fn full_if(&self, mistake: &str, class: u8, full: bool) -> Result<()> {
        if full && is(mistake) { Err(Refusal::nowhere(class)) } else { Ok(()) }
    }

    pub fn leaf(&mut self, token: Token, open: usize) -> Result<Node> {
        let kind = self.kind_of(&KINDS, token).filter(|_| LEAVES.iter().any(|word| self.is(token, word)));
        self.full_if("leaf-is-a-frame", 7, open == 512 && kind.is_some())?;
        let offset = if is("leaf-without-offset") { 0 } else { token.start };
        Ok(Node { kind: kind.ok_or(malformed(token))?, offset, tag: token, atom: None, children: Vec::new() })
    }

    /// A ref or universe behind its parenthesis; None for another tag.
    pub fn small(&mut self, parenthesis: Token, tag: Token, open: usize) -> Result<Option<Node>> {
        let Some(word) = ["ref", "universe"].into_iter().find(|word| self.is(tag, word)) else {
            return Ok(None);
        };
        self.full_if("ref-is-a-frame", 7, open == 512)?;
        let atom = if word == "ref" { self.name()? } else { self.numeral()? };
        self.full_if("eight-before-parenthesis", 8, self.read.nodes.len() == self.rows)?;
        self.expect(Kind::RParen)?;
        let kind = kind_number(&KINDS, word).expect("a kind");
        let offset = if is("offset-of-the-atom") { atom.start } else { offset(parenthesis, tag) };
        Ok(Some(Node { kind, offset, tag, atom: Some(atom), children: Vec::new() }))
    }

    /// Opens the frame of this number: its arity, and the node to be filled.
    pub fn frame(&mut self, parenthesis: Token, tag: Token, number: usize) -> Result<(usize, Node)> {
        let arrows = self.read.arrows && !plain::is(self.by, "plain-without-arrow");
        let arrow = Some(&ARROW).filter(|form| arrows && self.is(tag, form.word));
        let form = arrow.or(FORMS.iter().find(|form| self.is(tag, form.word))).ok_or(malformed(tag))?;
        self.full_if("seven-before-binder", 7, number > self.frames)?;
        self.full_if("plain-seven-before-binder", 7, self.by == station::Reader::Plain && number > self.frames)?;
        let binds = form.binds || arrow.is_some() && is("arrow-with-a-name");
        let atom = if binds { Some(self.name()?) } else { None };
        let late = arrow.is_some() && is("seven-late-for-arrows");
        if number > self.frames && !(arrow.is_some() && is("arrow-no-frame")) {
            if is("seven-at-the-first-argument") || late || plain::is(self.by, "plain-seven-at-the-first-argument") {
                self.token()?;
            }
            return Err(Refusal::nowhere(7));
        }
        self.full_if("eight-for-open-terms", 8, self.read.nodes.len() + number > self.rows)?;
        self.read.forms = true;
        let arity = if is("j-of-five") { form.arity.min(5) } else { form.arity };
        let kind = kind_number(&KINDS, form.word).expect("a kind");
        Ok((arity, Node { kind, offset: offset(parenthesis, tag), tag, atom, children: Vec::new() }))
    }

    pub fn store(&mut self, node: Node) -> Result<usize> {
        let number = self.read.nodes.len();
        if number == self.rows {
            return Err(Refusal::nowhere(8));
        }
        self.full_if("ten-while-reading", 10, number == self.core_rows)?;
        self.read.nodes.push(node);
        Ok(number)
    }

    pub fn token(&mut self) -> Result<Token> {
        let token = faults::next_token(self.source, self.at);
        self.at = token.end;
        if token.kind == Kind::Refused { Err(malformed(token)) } else { Ok(token) }
    }

    pub fn expect(&mut self, kind: Kind) -> Result<Token> {
        let token = self.token()?;
        if token.kind == kind { Ok(token) } else { Err(malformed(token)) }
    }

    fn word(&mut self, word: &str) -> Result<()> {
        let token = self.expect(Kind::Atom)?;
        if self.is(token, word) { Ok(()) } else { Err(malformed(token)) }
    }

    fn numeral(&mut self) -> Result<Token> {
        let token = self.expect(Kind::Atom)?;
        let atom = bytes(self.source, token);
        let digits = atom.iter().all(u8::is_ascii_digit) && (atom[0] != b'0' || atom.len() == 1);
        if faults::is_numeral(atom).unwrap_or(digits) { Ok(token) } else { Err(malformed(token)) }
    }

    fn name(&mut self) -> Result<Token> {
        let before = self.at;
        let token = self.expect(Kind::Atom)?;
        let atom = bytes(self.source, token);
        if is_mistaken_name(atom, self.source[before..token.start].contains(&b';')) {
            return Ok(token);
        }
        let reserved = RESERVED.iter().any(|word| word.as_bytes() == atom);
        let arrow = self.read.arrows && !is("arrow-a-name-in-0-2") || is("arrow-reserved-in-0-1");
        let reserved = reserved || arrow && atom == ARROW.word.as_bytes();
        let reserved = faults::word_index(atom).map_or(reserved, |index| index != 0);
        let letters = atom.iter().all(|byte| byte.is_ascii_alphanumeric() || *byte == b'_');
        let own = match (reserved, letters && !atom[0].is_ascii_digit()) {
            (true, _) => 3,
            (false, true) => 0,
            (false, false) => 1,
        };
        match faults::name_test(atom).unwrap_or(own) {
            0 => Ok(token),
            class => Err(Refusal::at(class, token.start)),
        }
    }

    fn is(&self, token: Token, word: &str) -> bool {
        bytes(self.source, token) == word.as_bytes()
    }

    fn kind_of(&self, kinds: &[&str], token: Token) -> Option<u32> {
        kinds.iter().find_map(|word| kind_number(kinds, word).filter(|_| self.is(token, word)))
    }
}

/// Whether a mistake takes the atom behind blank or a comment for a name.
fn is_mistaken_name(atom: &[u8], behind_comment: bool) -> bool {
    let letters = |byte: &u8| byte.is_ascii_alphanumeric() || *byte == b'_';
    let digit_first = atom[0].is_ascii_digit() && atom.iter().all(letters);
    match fault() {
        "digit-begins-a-name-behind-blank" => !behind_comment && digit_first,
        "digit-begins-a-name-behind-a-comment" => behind_comment && digit_first,
        "reserved-word-behind-blank-is-a-name" => {
            !behind_comment && RESERVED.iter().any(|word| word.as_bytes() == atom)
        }
        "hyphen-behind-16-bytes-of-a-name" => {
            atom.len() > 16 && !atom[0].is_ascii_digit() && atom[..16].iter().all(letters)
        }
        _ => false,
    }
}

/// Where a form starts: at its parenthesis.
fn offset(parenthesis: Token, tag: Token) -> usize {
    if is("offset-of-the-tag") { tag.start } else { parenthesis.start }
}

pub fn bytes(source: &[u8], token: Token) -> &[u8] {
    &source[token.start..token.end.min(source.len())]
}

pub fn malformed(token: Token) -> Refusal {
    Refusal::at(1, token.start)
}
