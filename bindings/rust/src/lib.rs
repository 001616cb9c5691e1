//! Regular expressions with look-around, back references and more: a safe wrapper of a static library whose every match is
//! proved to be the one that the pattern's meaning defines; the wrapper itself is not proved. The names are those of the crate
//! `fancy-regex` 0.20.0.
//!
//! ```
//! use proved_fancy_regex::Regex;
//!
//! # fn main() -> Result<(), proved_fancy_regex::Error> {
//! let regex = Regex::new(r"(?<year>\d{4})-(?<month>\d{2})")?;
//! let groups = regex.captures("on 2018-04-07")?.unwrap();
//! assert_eq!((&groups["year"], &groups["month"]), ("2018", "04"));
//! # Ok(())
//! # }
//! ```
//!
//! A [`Regex`] is searched for its first match or for all of them, splits texts, and replaces matches by templates or functions. A
//! [`RegexSet`] is searched for several patterns at once. [`RegexBuilder`] has the options of a pattern. What of the crate is not
//! there, or differs, stands in the README of the folder `bindings`.

#![deny(missing_docs)]
#![deny(missing_debug_implementations)]

mod byte_set;
mod captures;
mod error;
mod expander;
mod handle;
mod input;
mod iter;
mod options;
mod pool;
mod raw;
mod regex;
mod replacer;
mod set;

pub use byte_set::ByteSet;
pub use captures::{CaptureNames, Captures, Match, MatchBytes, SubCaptureMatches};
pub use error::{CompileError, Error, ParseError, Result, RuntimeError};
pub use expander::{escape, Expander};
pub use input::{Input, RegexInput};
pub use iter::{CaptureMatches, Matches, Split, SplitN};
pub use options::{seek_pattern_is_useful, BytesMode, RegexBuilder, RegexOptionsBuilder};
pub use regex::Regex;
pub use replacer::{NoExpand, Replacer, ReplacerRef};
pub use set::{RegexSet, RegexSetMatch, RegexSetMatchesAt, RegexSetOptions};
