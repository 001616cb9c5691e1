use crate::error::Result;
use crate::handle::{Marks, Owned};
use crate::raw::{self, Options};
use std::fmt;

/// A set of bytes, from [`RegexOptionsBuilder::start_bytes`](crate::RegexOptionsBuilder::start_bytes) and
/// [`RegexOptionsBuilder::required_bytes`](crate::RegexOptionsBuilder::required_bytes).
///
/// ```
/// let set = proved_fancy_regex::RegexOptionsBuilder::new().required_bytes("a?b").unwrap();
/// assert!(set.contains(b'b') && !set.contains(b'a'));
/// assert_eq!(set.iter().collect::<Vec<_>>(), [b'b']);
/// ```
#[derive(Clone, Copy, PartialEq, Eq)]
pub struct ByteSet {
    table: [bool; 256],
}

impl ByteSet {
    /// The bytes that matches of the pattern start with, if they are known.
    pub(crate) fn start(pattern: &str, options: &Options) -> Result<Option<ByteSet>> {
        ByteSet::marked(raw::fancy_regex_raw_start_bytes, pattern, options)
    }

    /// Bytes that each text has in which the pattern matches.
    pub(crate) fn required(pattern: &str, options: &Options) -> Result<ByteSet> {
        let set = ByteSet::marked(raw::fancy_regex_raw_required_bytes, pattern, options)?;
        Ok(set.expect("the bytes are known"))
    }

    fn marked(marks: Marks, pattern: &str, options: &Options) -> Result<Option<ByteSet>> {
        let mut table = [false; 256];
        let known = Owned::empty().mark(marks, pattern, options, &mut table)?;
        Ok(known.then_some(ByteSet { table }))
    }

    /// Whether the byte is in the set.
    ///
    /// ```
    /// let set = proved_fancy_regex::RegexOptionsBuilder::new().required_bytes("a?bc").unwrap();
    /// assert!(set.contains(b'c') && !set.contains(b'a'));
    /// ```
    pub fn contains(&self, byte: u8) -> bool {
        self.table[usize::from(byte)]
    }

    /// The bytes of the set, in ascending order.
    ///
    /// ```
    /// let set = proved_fancy_regex::RegexOptionsBuilder::new().required_bytes("a?bc").unwrap();
    /// assert_eq!(set.iter().collect::<Vec<_>>(), [b'b', b'c']);
    /// ```
    pub fn iter(&self) -> impl Iterator<Item = u8> + '_ {
        (0..=u8::MAX).filter(|&byte| self.contains(byte))
    }
}

impl fmt::Debug for ByteSet {
    fn fmt(&self, f: &mut fmt::Formatter<'_>) -> fmt::Result {
        f.debug_set().entries(self.iter()).finish()
    }
}
