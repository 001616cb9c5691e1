use crate::captures::{Match, MatchBytes};
use crate::error::{Result, RuntimeError};
use crate::raw::Span;
use std::borrow::Cow;
use std::fmt;
use std::ops::Range;

/// What can be searched: texts, and bytes that are UTF-8. A search of bytes that are not is an error.
///
/// ```
/// use proved_fancy_regex::{Input, Regex};
///
/// fn count<S: Input + ?Sized>(regex: &Regex, input: &S) -> usize {
///     regex.find_iter(input).count()
/// }
/// let regex = Regex::new(r"\w+").unwrap();
/// assert_eq!(count(&regex, "one two"), 2);
/// assert_eq!(count(&regex, b"one two"), 2);
/// ```
pub trait Input {
    /// What a match in this input is: a [`Match`] in texts, and a [`MatchBytes`] in bytes.
    type Match<'t>
    where
        Self: 't;

    /// The length in bytes.
    ///
    /// ```
    /// use proved_fancy_regex::Input;
    ///
    /// assert_eq!((Input::len("né"), Input::len(b"ab")), (3, 2));
    /// ```
    fn len(&self) -> usize;

    /// The bytes.
    ///
    /// ```
    /// use proved_fancy_regex::Input;
    ///
    /// assert_eq!(Input::as_bytes("ab"), b"ab");
    /// ```
    fn as_bytes(&self) -> &[u8];

    /// Whether a character starts at the byte offset, or the input ends there.
    ///
    /// ```
    /// use proved_fancy_regex::Input;
    ///
    /// assert!(Input::is_char_boundary("né", 1) && !Input::is_char_boundary("né", 2));
    /// ```
    fn is_char_boundary(&self, index: usize) -> bool;

    /// Whether all characters are ASCII.
    ///
    /// ```
    /// use proved_fancy_regex::Input;
    ///
    /// assert!(Input::is_ascii("ne") && !Input::is_ascii("né"));
    /// ```
    fn is_ascii(&self) -> bool;

    /// The byte offset of the character before this offset, which is above 0.
    ///
    /// ```
    /// use proved_fancy_regex::Input;
    ///
    /// assert_eq!("né".prev_codepoint_ix(3), 1);
    /// ```
    fn prev_codepoint_ix(&self, index: usize) -> usize;

    /// Whether there are no bytes.
    ///
    /// ```
    /// use proved_fancy_regex::Input;
    ///
    /// assert!(Input::is_empty("") && !Input::is_empty(b"a"));
    /// ```
    fn is_empty(&self) -> bool {
        self.len() == 0
    }

    /// The match from one byte offset to another.
    ///
    /// ```
    /// use proved_fancy_regex::Input;
    ///
    /// assert_eq!("abc".make_match(1, 3).as_str(), "bc");
    /// assert_eq!(b"abc".make_match(1, 3).as_bytes(), b"bc");
    /// ```
    fn make_match(&self, start: usize, end: usize) -> Self::Match<'_>;

    /// The byte offset after the character at this offset; at the end one more than the length.
    ///
    /// ```
    /// use proved_fancy_regex::Input;
    ///
    /// assert_eq!(("né".advance_position(1), "né".advance_position(3)), (3, 4));
    /// ```
    fn advance_position(&self, index: usize) -> usize;

    /// The input as a text, if it is UTF-8.
    #[doc(hidden)]
    fn text(&self) -> Option<&str> {
        std::str::from_utf8(self.as_bytes()).ok()
    }
}

/// Inputs that are texts.
macro_rules! texts {
    ($($text:ty),*) => {
        $(impl Input for $text {
            type Match<'t> = Match<'t> where Self: 't;

            fn len(&self) -> usize {
                str::len(self)
            }

            fn as_bytes(&self) -> &[u8] {
                str::as_bytes(self)
            }

            fn is_char_boundary(&self, index: usize) -> bool {
                str::is_char_boundary(self, index)
            }

            fn is_ascii(&self) -> bool {
                str::is_ascii(self)
            }

            fn prev_codepoint_ix(&self, index: usize) -> usize {
                before(str::as_bytes(self), index)
            }

            #[inline]
            fn make_match(&self, start: usize, end: usize) -> Match<'_> {
                Match::new(self, Span { start, end })
            }

            fn advance_position(&self, index: usize) -> usize {
                after(str::as_bytes(self), index)
            }

            #[inline]
            fn text(&self) -> Option<&str> {
                Some(self)
            }
        })*
    };
}

texts!(str, String, Cow<'_, str>, Box<str>);

macro_rules! bytes_input {
    () => {
        type Match<'t> = MatchBytes<'t>;

        fn len(&self) -> usize {
            <[u8]>::len(self)
        }

        fn as_bytes(&self) -> &[u8] {
            self
        }

        fn is_char_boundary(&self, index: usize) -> bool {
            self.get(index).map_or(true, |&byte| !continues(byte))
        }

        fn is_ascii(&self) -> bool {
            <[u8]>::is_ascii(self)
        }

        fn prev_codepoint_ix(&self, index: usize) -> usize {
            before(self, index)
        }

        fn make_match(&self, start: usize, end: usize) -> MatchBytes<'_> {
            MatchBytes::new(self, Span { start, end })
        }

        fn advance_position(&self, index: usize) -> usize {
            index + 1
        }
    };
}

impl Input for [u8] {
    bytes_input!();
}

impl<const N: usize> Input for [u8; N] {
    bytes_input!();
}

impl<S: Input + ?Sized> Input for &S {
    type Match<'t>
        = S::Match<'t>
    where
        Self: 't;

    fn len(&self) -> usize {
        (**self).len()
    }

    fn as_bytes(&self) -> &[u8] {
        (**self).as_bytes()
    }

    fn is_char_boundary(&self, index: usize) -> bool {
        (**self).is_char_boundary(index)
    }

    fn is_ascii(&self) -> bool {
        (**self).is_ascii()
    }

    fn prev_codepoint_ix(&self, index: usize) -> usize {
        (**self).prev_codepoint_ix(index)
    }

    fn make_match(&self, start: usize, end: usize) -> Self::Match<'_> {
        (**self).make_match(start, end)
    }

    fn advance_position(&self, index: usize) -> usize {
        (**self).advance_position(index)
    }

    fn text(&self) -> Option<&str> {
        (**self).text()
    }
}

/// Whether a byte goes on with a character.
fn continues(byte: u8) -> bool {
    byte & 0xC0 == 0x80
}

/// The start of the character before an offset above 0.
fn before(bytes: &[u8], index: usize) -> usize {
    let starts = |&place: &usize| !continues(bytes[place]);
    (0..index).rev().find(starts).unwrap_or(0)
}

/// The offset after the character at an offset.
fn after(bytes: &[u8], index: usize) -> usize {
    match bytes.get(index) {
        None | Some(..=0x7F) => index + 1,
        Some(0x80..=0xDF) => index + 2,
        Some(0xE0..=0xEF) => index + 3,
        Some(0xF0..) => index + 4,
    }
}

/// What is searched, where the search begins, and what it asks for besides.
///
/// ```
/// use proved_fancy_regex::{Regex, RegexInput};
///
/// let regex = Regex::new(r"\w+").unwrap();
/// let input = RegexInput::new("one two").from_pos(3);
/// assert_eq!(regex.find_input(input.clone()).unwrap().unwrap().as_str(), "two");
/// assert!(regex.find_input(input.anchored(true)).unwrap().is_none());
/// ```
pub struct RegexInput<'h, S: Input + ?Sized = str> {
    haystack: &'h S,
    start: usize,
    range_start: usize,
    range_end: usize,
    anchored: bool,
    start_text: bool,
    end_text: bool,
    continues: bool,
}

impl<'h, S: Input + ?Sized> RegexInput<'h, S> {
    /// The whole input, from its start.
    ///
    /// ```
    /// let input = proved_fancy_regex::RegexInput::new("abc");
    /// assert_eq!((input.haystack(), input.start(), input.get_range()), ("abc", 0, 0..3));
    /// ```
    pub fn new(haystack: &'h S) -> RegexInput<'h, S> {
        RegexInput {
            haystack,
            start: 0,
            range_start: 0,
            range_end: haystack.len(),
            anchored: false,
            start_text: true,
            end_text: true,
            continues: true,
        }
    }

    /// What is searched.
    ///
    /// ```
    /// assert_eq!(proved_fancy_regex::RegexInput::new("abc").haystack(), "abc");
    /// ```
    pub fn haystack(&self) -> &'h S {
        self.haystack
    }

    /// The byte offset at which the search begins, unless the range starts later.
    ///
    /// ```
    /// assert_eq!(proved_fancy_regex::RegexInput::new("abc").from_pos(1).start(), 1);
    /// ```
    pub fn start(&self) -> usize {
        self.start
    }

    /// The byte range in which a match lies.
    ///
    /// ```
    /// assert_eq!(proved_fancy_regex::RegexInput::new("abc").range(1..3).get_range(), 1..3);
    /// ```
    pub fn get_range(&self) -> Range<usize> {
        self.range_start..self.range_end
    }

    /// The same from a byte offset on; `\G` matches there. Past the end nothing is found. What stands before is still seen by
    /// look-behind, `^` and `\b`.
    ///
    /// ```
    /// use proved_fancy_regex::{Regex, RegexInput};
    ///
    /// let regex = Regex::new(r"\bb").unwrap();
    /// assert!(regex.find_input(RegexInput::new("ab").from_pos(1)).unwrap().is_none());
    /// ```
    pub fn from_pos(mut self, start: usize) -> RegexInput<'h, S> {
        self.start = start;
        self
    }

    /// The same with this range. The library is not asked for ranges that end before the input: a search of one is
    /// [`RuntimeError::InputNotSupported`].
    ///
    /// ```
    /// use proved_fancy_regex::{Regex, RegexInput};
    ///
    /// let regex = Regex::new(r"\w").unwrap();
    /// let input = RegexInput::new("abc");
    /// assert_eq!(regex.find_input(input.clone().range(1..3)).unwrap().unwrap().as_str(), "b");
    /// assert!(regex.find_input(input.range(1..2)).is_err());
    /// ```
    ///
    /// # Panics
    ///
    /// If the range starts after its end, or ends after the input.
    pub fn range(mut self, range: Range<usize>) -> RegexInput<'h, S> {
        assert!(
            range.start <= range.end,
            "the range starts after its end: {range:?}"
        );
        assert!(
            range.end <= self.haystack.len(),
            "the range ends after the input: {range:?}"
        );
        self.range_start = range.start;
        self.range_end = range.end;
        self
    }

    /// Whether `^` and `\A` match at the start of the input. `false` is heeded only by a regex that is built with
    /// `allow_input_assertion_overrides`, and its search is [`RuntimeError::InputNotSupported`], since the library cannot be asked
    /// for it.
    ///
    /// ```
    /// use proved_fancy_regex::{Regex, RegexInput};
    ///
    /// let input = RegexInput::new("abc").start_text(false);
    /// assert!(Regex::new("^a").unwrap().is_match_input(input).unwrap());
    /// ```
    pub fn start_text(mut self, yes: bool) -> RegexInput<'h, S> {
        self.start_text = yes;
        self
    }

    /// Whether `$` and `\z` match at the end of the input; as [`RegexInput::start_text`].
    ///
    /// ```
    /// use proved_fancy_regex::{RegexBuilder, RegexInput};
    ///
    /// let regex = RegexBuilder::new("c$").allow_input_assertion_overrides(true).build().unwrap();
    /// assert!(regex.is_match("abc").unwrap());
    /// assert!(regex.is_match_input(RegexInput::new("abc").end_text(false)).is_err());
    /// ```
    pub fn end_text(mut self, yes: bool) -> RegexInput<'h, S> {
        self.end_text = yes;
        self
    }

    /// Whether `\G` matches where the search begins; otherwise it never matches.
    ///
    /// ```
    /// use proved_fancy_regex::{Regex, RegexInput};
    ///
    /// let regex = Regex::new(r"\Ga").unwrap();
    /// let input = RegexInput::new("ba").from_pos(1);
    /// assert!(regex.is_match_input(input.clone()).unwrap());
    /// assert!(!regex.is_match_input(input.continue_from_previous_match_end(false)).unwrap());
    /// ```
    pub fn continue_from_previous_match_end(mut self, yes: bool) -> RegexInput<'h, S> {
        self.continues = yes;
        self
    }

    /// Whether a match has to start where the search begins. A regex that is searched so for the first time is compiled once more.
    ///
    /// ```
    /// use proved_fancy_regex::{Regex, RegexInput};
    ///
    /// let regex = Regex::new("b").unwrap();
    /// let input = RegexInput::new("ab").anchored(true);
    /// assert!(!regex.is_match_input(input.clone()).unwrap());
    /// assert!(regex.is_match_input(input.from_pos(1)).unwrap());
    /// ```
    pub fn anchored(mut self, yes: bool) -> RegexInput<'h, S> {
        self.anchored = yes;
        self
    }

    /// The byte offset at which the search begins.
    pub(crate) fn effective_start(&self) -> usize {
        self.start.max(self.range_start)
    }

    pub(crate) fn set_start(&mut self, start: usize) {
        self.start = start;
    }

    /// The search that this input asks for, in its text; `None` past the end of the range, where nothing is found. The regex heeds
    /// `start_text` and `end_text` if it `overrides` assertions.
    #[inline]
    pub(crate) fn search(
        &self,
        text: Option<&'h str>,
        overrides: bool,
    ) -> Result<Option<Search<'h>>> {
        let position = self.effective_start();
        if position > self.range_end {
            return Ok(None);
        }
        let text = text.ok_or(RuntimeError::NotUtf8)?;
        if self.range_end < text.len() {
            let what = "a range that ends before the input";
            return Err(RuntimeError::InputNotSupported(what).into());
        }
        if overrides && !(self.start_text && self.end_text) {
            let what = "a text whose start or end no assertion sees";
            return Err(RuntimeError::InputNotSupported(what).into());
        }
        if !text.is_char_boundary(position) {
            return Err(RuntimeError::InsideCharacter.into());
        }
        Ok(Some(Search {
            text,
            position,
            continues: self.continues,
            anchored: self.anchored,
        }))
    }
}

/// A search of a text from a character boundary on.
#[derive(Clone, Copy)]
pub(crate) struct Search<'t> {
    pub text: &'t str,
    pub position: usize,
    pub continues: bool,
    pub anchored: bool,
}

impl<'t> Search<'t> {
    /// The search of a whole input, if that is a text.
    #[inline]
    pub fn whole<S: Input + ?Sized>(input: &'t S) -> Result<Search<'t>> {
        let text = input.text().ok_or(RuntimeError::NotUtf8)?;
        Ok(Search {
            text,
            position: 0,
            continues: true,
            anchored: false,
        })
    }
}

impl<S: Input + ?Sized> Clone for RegexInput<'_, S> {
    fn clone(&self) -> Self {
        RegexInput {
            haystack: self.haystack,
            start: self.start,
            range_start: self.range_start,
            range_end: self.range_end,
            anchored: self.anchored,
            start_text: self.start_text,
            end_text: self.end_text,
            continues: self.continues,
        }
    }
}

impl<S: Input + fmt::Debug + ?Sized> fmt::Debug for RegexInput<'_, S> {
    fn fmt(&self, f: &mut fmt::Formatter<'_>) -> fmt::Result {
        f.debug_struct("RegexInput")
            .field("haystack", &self.haystack)
            .field("start", &self.start)
            .field("range", &self.get_range())
            .field("anchored", &self.anchored)
            .field("start_text", &self.start_text)
            .field("end_text", &self.end_text)
            .field("continue_from_previous_match_end", &self.continues)
            .finish()
    }
}

impl<'h, S: Input + ?Sized> From<&'h S> for RegexInput<'h, S> {
    fn from(haystack: &'h S) -> RegexInput<'h, S> {
        RegexInput::new(haystack)
    }
}
