//! The root of the Rust's modules. `functions` and `util` are stubs, `compile`
//! holds the extracted functions, the others are the originals.
#![allow(dead_code, unused_imports, clippy::all)]

pub mod alias_map;
pub mod annotations;
pub mod ast;
pub mod compile;
pub mod constants;
pub mod context;
pub mod error;
pub mod functions;
pub mod internal_rep;
pub mod util;
pub mod warning;

pub use crate::error::CascadeErrors;
