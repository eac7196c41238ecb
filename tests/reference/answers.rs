//! The Rust's answers: loading as values and as lines of text, core text, tokens, words, UTF-8. Of a source whose head is 0 2 they
//! are its answers to the 0 1 spelling of it, by `editions`.
//! Only the public interface of the reference library is used, so that rows are those that a caller sees.
mod editions;
pub mod rows;

use common::refusal::Refusal;
use common::tokens::{self, Kind, Token};
use common::unicode::MARK;
use hott_kernel::error::{FormatError, FormatErrorClass};
use hott_kernel::format::parser::{parse_canonical, parse_transport};
use hott_kernel::format::printer::print_canonical;
use hott_kernel::surface::{SurfaceError, SurfaceErrorClass, SurfaceModule, elaborate_surface, parse_surface};
use hott_kernel::syntax::Module;
use hott_kernel::{Lexed, ParserParts};

/// `refused C`, `refused C at P`, or document 01's listing with its lines joined by `|`.
pub fn answer(source: &[u8]) -> String {
    let listing = |read: Read| Ok(rows::listing(&read, &resolve(&read)?));
    read(source).and_then(listing).unwrap_or_else(|refusal| refusal.to_string())
}

/// A source that was read.
pub struct Read {
    module: SurfaceModule,
    /// The binder that stands for none: the pi that has it is an arrow of the source.
    arrow: Option<[u8; 2]>,
}

impl Read {
    /// The module's name.
    pub fn name(&self) -> &str {
        self.module.name().as_str()
    }
}

/// Whether the head of a source is 0 2, so that the Rust is not asked about it as it is.
pub fn is_second(source: &[u8]) -> bool {
    editions::spelt(source).is_some()
}

pub fn read(source: &[u8]) -> Result<Read, Refusal> {
    let spelling = editions::spelt(source);
    let given = spelling.as_ref().map_or(source, |spelling| &spelling.source);
    let module = parse_surface(given).map_err(refusal)?;
    Ok(Read { module, arrow: spelling.map(|spelling| spelling.binder) })
}

pub fn resolve(read: &Read) -> Result<Module, Refusal> {
    elaborate_surface(&read.module).map_err(refusal)
}

fn refusal(error: SurfaceError) -> Refusal {
    let class = match error.class() {
        SurfaceErrorClass::MalformedSyntax => 1,
        SurfaceErrorClass::UnsupportedVersion => 2,
        SurfaceErrorClass::ReservedIdentifier => 3,
        SurfaceErrorClass::DuplicateGlobalDeclarationName => 4,
        SurfaceErrorClass::UnknownName => 5,
        other => panic!("document 01 has no number for {other:?}"),
    };
    Refusal { class, offset: error.offset() }
}

/// The core text of a module.
pub fn print(module: &Module) -> Vec<u8> {
    print_canonical(module).expect("memory suffices")
}

/// The module of a core text in any layout; or 2, or 13 with its offset.
pub fn read_core(text: &[u8]) -> Result<Module, Refusal> {
    parse_transport(text).map_err(core_refusal)
}

/// The module of a core text that is its own print, else 13 without an offset.
pub fn read_canonical(text: &[u8]) -> Result<Module, Refusal> {
    parse_canonical(text).map_err(core_refusal)
}

/// "13: core text that the Rust refuses for a class other than version or exhausted memory"
fn core_refusal(error: FormatError) -> Refusal {
    let class = match error.class() {
        FormatErrorClass::UnsupportedVersion => 2,
        FormatErrorClass::ResourceExhausted => panic!("memory suffices"),
        _ => 13,
    };
    Refusal { class, offset: error.offset() }
}

/// The first token of a source at or behind an offset, by the Rust's lexer.
pub fn token_at(source: &str, at: usize) -> Token {
    match ParserParts::token_at(source, at) {
        Lexed::LParen(start) => Token::new(Kind::LParen, start),
        Lexed::RParen(start) => Token::new(Kind::RParen, start),
        Lexed::Atom { start, end } => Token::atom(start, end),
        Lexed::Eof(start) => Token::new(Kind::Eof, start),
        Lexed::Refused(start) => Token::new(Kind::Refused, start),
    }
}

/// The tokens of a source, which is UTF-8.
pub fn token_line(source: &[u8]) -> String {
    let text = std::str::from_utf8(source).expect("the Rust's lexer takes UTF-8");
    tokens::line(&tokens::stream(text.len(), |at| token_at(text, at)))
}

/// `reserved=0/1 identifier=0/1 numeral=0/1` of an atom.
pub fn word_line(atom: &[u8]) -> String {
    let text = std::str::from_utf8(atom).expect("an atom is ASCII");
    format!(
        "reserved={} identifier={} numeral={}",
        u8::from(ParserParts::is_reserved(text)),
        u8::from(ParserParts::is_identifier(text)),
        u8::from(ParserParts::is_natural(text)),
    )
}

/// The length of the longest valid beginning.
pub fn valid_up_to(source: &[u8]) -> usize {
    match std::str::from_utf8(source) {
        Ok(_) => source.len(),
        Err(error) => error.valid_up_to(),
    }
}

/// The length of the longest valid beginning, and whether EF BB BF leads.
pub fn utf8_line(source: &[u8]) -> String {
    let mark = u8::from(source.starts_with(MARK));
    format!("{} mark={mark}", valid_up_to(source))
}
