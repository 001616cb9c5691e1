use crate::expander::Expander;
use crate::input::Input;
use crate::raw::Span;
use std::borrow::Cow;
use std::fmt;
use std::iter::FusedIterator;
use std::ops::{Index, Range};
use std::slice;
use std::sync::Arc;

/// A match in a text.
///
/// ```
/// let regex = proved_fancy_regex::Regex::new("b+").unwrap();
/// let found = regex.find("abbc").unwrap().unwrap();
/// assert_eq!((found.start(), found.end(), found.as_str()), (1, 3, "bb"));
/// assert_eq!(std::ops::Range::from(found), found.range());
/// ```
#[derive(Clone, Copy, Debug, PartialEq, Eq)]
pub struct Match<'t> {
    text: &'t str,
    span: Span,
}

impl<'t> Match<'t> {
    pub(crate) fn new(text: &'t str, span: Span) -> Match<'t> {
        Match { text, span }
    }

    /// The byte offset at which the match starts.
    ///
    /// ```
    /// let found = proved_fancy_regex::Regex::new("b+").unwrap().find("abbc").unwrap().unwrap();
    /// assert_eq!(found.start(), 1);
    /// ```
    pub fn start(&self) -> usize {
        self.span.start
    }

    /// The byte offset at which the match ends, exclusive.
    ///
    /// ```
    /// let found = proved_fancy_regex::Regex::new("b+").unwrap().find("abbc").unwrap().unwrap();
    /// assert_eq!(found.end(), 3);
    /// ```
    pub fn end(&self) -> usize {
        self.span.end
    }

    /// The byte range of the match.
    ///
    /// ```
    /// let found = proved_fancy_regex::Regex::new("b+").unwrap().find("abbc").unwrap().unwrap();
    /// assert_eq!(found.range(), 1..3);
    /// ```
    pub fn range(&self) -> Range<usize> {
        self.span.start..self.span.end
    }

    /// The text that matched.
    ///
    /// ```
    /// let found = proved_fancy_regex::Regex::new("b+").unwrap().find("abbc").unwrap().unwrap();
    /// assert_eq!(found.as_str(), "bb");
    /// ```
    pub fn as_str(&self) -> &'t str {
        &self.text[self.range()]
    }
}

impl<'t> From<Match<'t>> for &'t str {
    fn from(found: Match<'t>) -> &'t str {
        found.as_str()
    }
}

impl From<Match<'_>> for Range<usize> {
    fn from(found: Match<'_>) -> Range<usize> {
        found.range()
    }
}

/// A match in bytes.
///
/// ```
/// let regex = proved_fancy_regex::Regex::new("b+").unwrap();
/// let found = regex.find(b"abbc").unwrap().unwrap();
/// assert_eq!((found.start(), found.end(), found.as_bytes()), (1, 3, &b"bb"[..]));
/// assert_eq!(std::ops::Range::from(found), found.range());
/// ```
#[derive(Clone, Copy, Debug, PartialEq, Eq)]
pub struct MatchBytes<'t> {
    bytes: &'t [u8],
    span: Span,
}

impl<'t> MatchBytes<'t> {
    pub(crate) fn new(bytes: &'t [u8], span: Span) -> MatchBytes<'t> {
        MatchBytes { bytes, span }
    }

    /// The byte offset at which the match starts.
    ///
    /// ```
    /// let found = proved_fancy_regex::Regex::new("b+").unwrap().find(b"abbc").unwrap().unwrap();
    /// assert_eq!(found.start(), 1);
    /// ```
    pub fn start(&self) -> usize {
        self.span.start
    }

    /// The byte offset at which the match ends, exclusive.
    ///
    /// ```
    /// let found = proved_fancy_regex::Regex::new("b+").unwrap().find(b"abbc").unwrap().unwrap();
    /// assert_eq!(found.end(), 3);
    /// ```
    pub fn end(&self) -> usize {
        self.span.end
    }

    /// The byte range of the match.
    ///
    /// ```
    /// let found = proved_fancy_regex::Regex::new("b+").unwrap().find(b"abbc").unwrap().unwrap();
    /// assert_eq!(found.range(), 1..3);
    /// ```
    pub fn range(&self) -> Range<usize> {
        self.span.start..self.span.end
    }

    /// The bytes that matched.
    ///
    /// ```
    /// let found = proved_fancy_regex::Regex::new("b+").unwrap().find(b"abbc").unwrap().unwrap();
    /// assert_eq!(found.as_bytes(), b"bb");
    /// ```
    pub fn as_bytes(&self) -> &'t [u8] {
        &self.bytes[self.range()]
    }
}

impl<'t> From<MatchBytes<'t>> for &'t [u8] {
    fn from(found: MatchBytes<'t>) -> &'t [u8] {
        found.as_bytes()
    }
}

impl From<MatchBytes<'_>> for Range<usize> {
    fn from(found: MatchBytes<'_>) -> Range<usize> {
        found.range()
    }
}

/// The names of the groups of a regex, by number; `None` for a group without a name.
pub(crate) type Names = Arc<[Option<String>]>;

/// The names of the groups of a regex, in order of their numbers; `None` for a group without a name, as group 0 is. They come from
/// [`Regex::capture_names`](crate::Regex::capture_names).
///
/// ```
/// use proved_fancy_regex::{CaptureNames, Regex};
///
/// let regex = Regex::new("(?<a>.)(.)").unwrap();
/// let names: CaptureNames<'_> = regex.capture_names();
/// assert_eq!(names.collect::<Vec<_>>(), [None, Some("a"), None]);
/// ```
#[derive(Clone)]
pub struct CaptureNames<'r>(pub(crate) slice::Iter<'r, Option<String>>);

impl<'r> Iterator for CaptureNames<'r> {
    type Item = Option<&'r str>;

    fn next(&mut self) -> Option<Option<&'r str>> {
        self.0.next().map(Option::as_deref)
    }

    fn size_hint(&self) -> (usize, Option<usize>) {
        self.0.size_hint()
    }
}

impl ExactSizeIterator for CaptureNames<'_> {}
impl FusedIterator for CaptureNames<'_> {}

impl fmt::Debug for CaptureNames<'_> {
    fn fmt(&self, f: &mut fmt::Formatter<'_>) -> fmt::Result {
        f.write_str("<CaptureNames>")
    }
}

/// The groups of one match. Group 0 is the whole match.
///
/// ```
/// use proved_fancy_regex::{Captures, Regex};
///
/// let regex = Regex::new(r"(?<year>\d{4})-(\d{2})(x)?").unwrap();
/// let groups: Captures<'_, str> = regex.captures("on 2018-04").unwrap().unwrap();
/// assert_eq!((&groups["year"], &groups[2]), ("2018", "04"));
/// assert!(groups.get(3).is_none());
/// ```
///
/// `groups[1]` and `groups["year"]` are the texts of groups, and panic where the group took no part in the match or is not there.
pub struct Captures<'t, S: Input + ?Sized = str> {
    input: &'t S,
    spans: Vec<Span>,
    names: Names,
}

impl<'t, S: Input + ?Sized> Captures<'t, S> {
    pub(crate) fn new(input: &'t S, spans: Vec<Span>, names: Names) -> Captures<'t, S> {
        Captures {
            input,
            spans,
            names,
        }
    }

    /// The match of the group with this number; `None` if it took no part, or if there is none.
    ///
    /// ```
    /// let regex = proved_fancy_regex::Regex::new("(a)|(b)").unwrap();
    /// let groups = regex.captures("b").unwrap().unwrap();
    /// assert!(groups.get(1).is_none());
    /// assert_eq!(groups.get(2).unwrap().as_str(), "b");
    /// ```
    pub fn get(&self, group: usize) -> Option<S::Match<'t>> {
        let span = self.span(group)?;
        Some(self.input.make_match(span.start, span.end))
    }

    /// The match of the last group with this name; `None` if it took no part, or if there is none.
    ///
    /// ```
    /// let regex = proved_fancy_regex::Regex::new("(?<first>.)").unwrap();
    /// let groups = regex.captures("ab").unwrap().unwrap();
    /// assert_eq!(groups.name("first").unwrap().as_str(), "a");
    /// assert!(groups.name("last").is_none());
    /// ```
    pub fn name(&self, name: &str) -> Option<S::Match<'t>> {
        let is_named = |other: &Option<String>| other.as_deref() == Some(name);
        self.get(self.names.iter().rposition(is_named)?)
    }

    /// The number of groups, the whole match included.
    ///
    /// ```
    /// let regex = proved_fancy_regex::Regex::new("(a)(b)?").unwrap();
    /// assert_eq!(regex.captures("a").unwrap().unwrap().len(), 3);
    /// ```
    #[allow(clippy::len_without_is_empty)]
    pub fn len(&self) -> usize {
        self.spans.len()
    }

    /// The groups in order of their numbers.
    ///
    /// ```
    /// let regex = proved_fancy_regex::Regex::new("(a)(b)?").unwrap();
    /// let groups = regex.captures("a").unwrap().unwrap();
    /// let texts: Vec<_> = groups.iter().map(|group| group.map(|found| found.as_str())).collect();
    /// assert_eq!(texts, [Some("a"), Some("a"), None]);
    /// ```
    pub fn iter<'c>(&'c self) -> SubCaptureMatches<'c, 't, S> {
        SubCaptureMatches {
            groups: self,
            next: 0,
        }
    }

    /// The bytes of the whole input that was searched.
    ///
    /// ```
    /// let regex = proved_fancy_regex::Regex::new("b").unwrap();
    /// assert_eq!(regex.captures("abc").unwrap().unwrap().input_as_bytes(), b"abc");
    /// ```
    pub fn input_as_bytes(&self) -> &'t [u8] {
        self.input.as_bytes()
    }

    /// The span of the group, if it took part.
    fn span(&self, group: usize) -> Option<Span> {
        let span = *self.spans.get(group)?;
        (span != Span::UNSET).then_some(span)
    }

    /// The span of the whole match.
    pub(crate) fn whole(&self) -> Span {
        self.spans[0]
    }
}

impl<'t> Captures<'t, str> {
    /// Appends a template with the texts of groups in the place of `$name`, `${name}`, `$1` and `${1}`, and `$` for `$$`. A name is as
    /// long as it can be. A group that is not there or took no part has no text. [`Expander`] has another form of templates.
    ///
    /// ```
    /// let regex = proved_fancy_regex::Regex::new(r"(?<year>\d{4})-(\d{2})").unwrap();
    /// let groups = regex.captures("2018-04").unwrap().unwrap();
    /// let mut text = String::new();
    /// groups.expand("${2}_$year", &mut text);
    /// assert_eq!(text, "04_2018");
    /// ```
    pub fn expand(&self, template: &str, to: &mut String) {
        Expander::default().append_expansion(to, template, self);
    }
}

impl<S: Input + ?Sized> Clone for Captures<'_, S> {
    fn clone(&self) -> Self {
        Captures {
            input: self.input,
            spans: self.spans.clone(),
            names: self.names.clone(),
        }
    }
}

impl<S: Input + fmt::Debug + ?Sized> fmt::Debug for Captures<'_, S> {
    fn fmt(&self, f: &mut fmt::Formatter<'_>) -> fmt::Result {
        let spans = (0..self.len()).map(|group| self.span(group));
        let ranges = spans.map(|span| span.map(|span| span.start..span.end));
        f.debug_struct("Captures")
            .field("input", &self.input)
            .field("groups", &ranges.collect::<Vec<_>>())
            .field("names", &self.names)
            .finish()
    }
}

/// The texts of groups, where the input is a text.
macro_rules! indexed {
    ($($text:ty),*) => {
        $(impl Index<usize> for Captures<'_, $text> {
            type Output = str;

            /// The text of a group. Panics if it took no part in the match.
            fn index(&self, group: usize) -> &str {
                match self.get(group) {
                    Some(found) => found.as_str(),
                    None => panic!("no group at index '{group}'"),
                }
            }
        }

        impl<'i> Index<&'i str> for Captures<'_, $text> {
            type Output = str;

            /// The text of a group. Panics if no group with this name took part in the match.
            fn index(&self, name: &'i str) -> &str {
                match self.name(name) {
                    Some(found) => found.as_str(),
                    None => panic!("no group named '{name}'"),
                }
            }
        })*
    };
}

indexed!(str, String, Cow<'_, str>, Box<str>);

/// The groups of one match in order of their numbers, from [`Captures::iter`].
///
/// ```
/// use proved_fancy_regex::{Regex, SubCaptureMatches};
///
/// let regex = Regex::new("(a)(b)?").unwrap();
/// let groups = regex.captures("a").unwrap().unwrap();
/// let all: SubCaptureMatches<'_, '_, str> = groups.iter();
/// assert_eq!(all.flatten().count(), 2);
/// ```
pub struct SubCaptureMatches<'c, 't, S: Input + ?Sized = str> {
    groups: &'c Captures<'t, S>,
    next: usize,
}

impl<'t, S: Input + ?Sized> Iterator for SubCaptureMatches<'_, 't, S> {
    type Item = Option<S::Match<'t>>;

    fn next(&mut self) -> Option<Option<S::Match<'t>>> {
        if self.next == self.groups.len() {
            return None;
        }
        self.next += 1;
        Some(self.groups.get(self.next - 1))
    }

    fn size_hint(&self) -> (usize, Option<usize>) {
        let left = self.groups.len() - self.next;
        (left, Some(left))
    }
}

impl<S: Input + ?Sized> ExactSizeIterator for SubCaptureMatches<'_, '_, S> {}
impl<S: Input + ?Sized> FusedIterator for SubCaptureMatches<'_, '_, S> {}

impl<S: Input + ?Sized> Clone for SubCaptureMatches<'_, '_, S> {
    fn clone(&self) -> Self {
        SubCaptureMatches {
            groups: self.groups,
            next: self.next,
        }
    }
}

impl<S: Input + fmt::Debug + ?Sized> fmt::Debug for SubCaptureMatches<'_, '_, S> {
    fn fmt(&self, f: &mut fmt::Formatter<'_>) -> fmt::Result {
        f.debug_struct("SubCaptureMatches")
            .field("groups", &self.groups)
            .field("next", &self.next)
            .finish()
    }
}
