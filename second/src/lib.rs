//! A second referee, written only from document 01, and the tools that hold
//! it against another program: random lines, a comparison, a check.
//!
//! "The document" in every comment is document 01, `01-scope.md`. Words in
//! quotation marks are its words.

#![forbid(unsafe_code)]
#![warn(missing_docs)]

pub mod compare;
pub mod line;
pub mod maker;
pub mod nodes;
pub mod random;
pub mod record;
pub mod refusal;
pub mod replay;
pub mod report;
pub mod state;
pub mod watch;
pub mod wild;
