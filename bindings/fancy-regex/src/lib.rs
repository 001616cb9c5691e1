//! The proved port of the crate of this name, 0.20.0: all items of [`proved_fancy_regex`] under the paths of that crate.
//!
//! ```
//! use fancy_regex::Regex;
//!
//! # fn main() -> Result<(), fancy_regex::Error> {
//! let regex = Regex::new(r"(\w+) \1")?;
//! assert!(regex.is_match("mirror mirror on the wall")?);
//! # Ok(())
//! # }
//! ```
//!
//! A program reaches it by a patch, which also has the crates that it uses take it, or by a name in its `Cargo.toml`. The README of the
//! folder `bindings` shows both, and lists what is not there or differs.

pub use proved_fancy_regex::*;

#[cfg(doctest)]
mod left_out;
