//! Stands in for the crate `lalrpop-util`, whose Debian version spells one of
//! these cases differently. The schedule never parses.

pub mod lexer {
    #[derive(Clone, Debug, PartialEq)]
    pub struct Token<'input>(pub usize, pub &'input str);
}

#[derive(Clone, Debug, PartialEq)]
pub enum ParseError<L, T, E> {
    InvalidToken { location: L },
    UnrecognizedEof { location: L, expected: Vec<String> },
    UnrecognizedToken { token: (L, T, L), expected: Vec<String> },
    ExtraToken { token: (L, T, L) },
    User { error: E },
}
