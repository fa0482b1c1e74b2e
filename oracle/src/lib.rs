//! The Rust ActionEncoder, as it stands, behind a reader of sheets of its own; and a generator of sheets.
//! Document 01 gives the sheet, the answers and their order, document 02 the modes, editions 2 and 3, the word book, stepping and
//! action numbers. Nothing here leans on anything in `crates/`.

pub mod answer;
pub mod book;
pub mod generate;
pub mod pack;
pub mod sheet;
pub mod steps;
pub mod stream;

mod branches;
mod source;
mod swf;

// The names by which the source files know each other.
use source::{internal, program};
