// Stands in for surface/compile.rs, which docs/src does not have. Nothing calls these two.
pub enum SurfaceCompileError {}
pub fn compile_surface() {}

// A second copy of the parser, as text, so that functions beside it can reach what it keeps private.
mod parts {
    include!("parser.rs");

    use crate::{Lexed, ParserParts};

    impl ParserParts {
        /// The first token of a source at or behind an offset.
        pub fn token_at(source: &str, at: usize) -> Lexed {
            let mut lexer = Lexer { input: source, pos: at };
            match lexer.next_token() {
                Ok(token) => match token.kind {
                    TokenKind::LParen => Lexed::LParen(token.start),
                    TokenKind::RParen => Lexed::RParen(token.start),
                    TokenKind::Atom(_) => Lexed::Atom { start: token.start, end: lexer.pos },
                    TokenKind::Eof => Lexed::Eof(token.start),
                },
                Err(error) => Lexed::Refused(error.offset().expect("a lexer's refusal has an offset")),
            }
        }

        pub fn is_reserved(atom: &str) -> bool {
            is_reserved(atom)
        }

        pub fn is_identifier(atom: &str) -> bool {
            is_identifier(atom)
        }

        /// The test inside `parse_natural`, which is no function of its own.
        pub fn is_natural(atom: &str) -> bool {
            assert!(atom.bytes().all(is_atom_byte), "not an atom: {atom}");
            Parser::new(atom).parse_natural().is_ok()
        }
    }
}
