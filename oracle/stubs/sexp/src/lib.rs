//! Stands in for the crate `sexp`. The schedule never builds an expression of it.

#[derive(Clone, Debug, PartialEq)]
pub enum Sexp {
    Atom(String),
    List(Vec<Sexp>),
}

pub fn atom_s(s: &str) -> Sexp {
    Sexp::Atom(s.to_owned())
}

pub fn list(xs: &[Sexp]) -> Sexp {
    Sexp::List(xs.to_owned())
}
