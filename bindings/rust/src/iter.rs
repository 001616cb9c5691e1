use crate::captures::Captures;
use crate::error::Result;
use crate::input::{Input, RegexInput, Search};
use crate::raw::Span;
use crate::regex::Regex;
use std::fmt;
use std::iter::FusedIterator;

/// The matches of an input from left to right, from [`Regex::find_iter`]. An error is the last item.
///
/// ```
/// use proved_fancy_regex::{Matches, Regex};
///
/// let regex = Regex::new(r"\w+").unwrap();
/// let mut words: Matches<'_, '_, str> = regex.find_iter("one two");
/// assert_eq!(words.next().unwrap().unwrap().as_str(), "one");
/// assert_eq!((words.regex().as_str(), words.text(), words.input().start()), (r"\w+", "one two", 3));
/// ```
pub struct Matches<'r, 't, S: Input + ?Sized = str> {
    regex: &'r Regex,
    /// The input, with the start of the next search.
    input: RegexInput<'t, S>,
    /// The input as a text, if it is UTF-8.
    text: Option<&'t str>,
    /// Where the last match ended.
    last: Option<usize>,
    /// Whether the next search begins a character after an empty match, so that `\G` does not match there.
    stepped: bool,
    done: bool,
    ahead: Ahead,
}

/// The most matches that one call of the library finds ahead.
const MOST_AHEAD: usize = 16;

/// Matches that one call of the library found, of which some were not asked for yet. Each call finds at most twice as many as the one
/// before it, and the first one a single match: so who asks for few does not wait for many.
struct Ahead {
    spans: [Span; MOST_AHEAD],
    /// How many were found.
    count: usize,
    /// How many of those were asked for.
    taken: usize,
    /// How many the last call might find.
    room: usize,
}

impl Ahead {
    fn new() -> Ahead {
        Ahead {
            spans: [Span::UNSET; MOST_AHEAD],
            count: 0,
            taken: 0,
            room: 0,
        }
    }

    /// The next match that was found.
    #[inline]
    fn take(&mut self) -> Option<Span> {
        let span = *self.spans[..self.count].get(self.taken)?;
        self.taken += 1;
        Some(span)
    }

    /// Finds matches by a search, and takes the first one.
    fn find(&mut self, regex: &Regex, search: &Search<'_>) -> Result<Option<Span>> {
        self.room = (2 * self.room).clamp(1, MOST_AHEAD);
        // Later searches of a row let `\G` match where they begin if the first one does.
        let room = if search.continues { self.room } else { 1 };
        (self.count, self.taken) = (0, 0);
        self.count = regex.find_row(search, &mut self.spans[..room])?;
        Ok(self.take())
    }
}

impl<'r, 't, S: Input + ?Sized> Matches<'r, 't, S> {
    pub(crate) fn new(regex: &'r Regex, input: RegexInput<'t, S>) -> Matches<'r, 't, S> {
        Matches {
            regex,
            text: input.haystack().text(),
            input,
            last: None,
            stepped: false,
            done: false,
            ahead: Ahead::new(),
        }
    }

    /// The regex.
    ///
    /// ```
    /// let regex = proved_fancy_regex::Regex::new(r"\w+").unwrap();
    /// assert_eq!(regex.find_iter("one two").regex().as_str(), r"\w+");
    /// ```
    pub fn regex(&self) -> &'r Regex {
        self.regex
    }

    /// The searched input.
    ///
    /// ```
    /// let regex = proved_fancy_regex::Regex::new(r"\w+").unwrap();
    /// assert_eq!(regex.find_iter("one two").text(), "one two");
    /// ```
    pub fn text(&self) -> &'t S {
        self.input.haystack()
    }

    /// The input, with the start of the next search.
    ///
    /// ```
    /// let regex = proved_fancy_regex::Regex::new(r"\w+").unwrap();
    /// let mut words = regex.find_iter("one two");
    /// words.next();
    /// assert_eq!(words.input().start(), 3);
    /// ```
    pub fn input(&self) -> &RegexInput<'t, S> {
        &self.input
    }

    /// The next item, by a search that is described.
    #[inline]
    fn step<T>(
        &mut self,
        search: impl Fn(&mut Self) -> Result<Option<T>>,
        span: impl Fn(&T) -> Span,
    ) -> Option<Result<T>> {
        while !self.done {
            let found = match search(self) {
                Ok(Some(found)) => found,
                Ok(None) => break,
                Err(error) => {
                    self.done = true;
                    self.input.set_start(self.input.get_range().end + 1);
                    return Some(Err(error));
                }
            };
            if self.take(span(&found)) {
                return Some(Ok(found));
            }
        }
        self.done = true;
        None
    }

    /// The next search, if there is one.
    fn next_search(&self) -> Result<Option<Search<'t>>> {
        let overrides = self.regex.overrides_assertions();
        let search = self.input.search(self.text, overrides)?;
        Ok(search.map(|search| Search {
            continues: search.continues && !self.stepped,
            ..search
        }))
    }

    /// The span of the next match: one that was found ahead, or by the next search.
    #[inline]
    fn next_span(&mut self) -> Result<Option<Span>> {
        match self.ahead.take() {
            Some(span) => Ok(Some(span)),
            None => self.find_span(),
        }
    }

    #[inline(never)]
    fn find_span(&mut self) -> Result<Option<Span>> {
        match self.next_search()? {
            Some(search) if !search.anchored => self.ahead.find(self.regex, &search),
            Some(search) => self.regex.find_span(&search),
            None => Ok(None),
        }
    }

    /// The spans of the groups of the next match.
    fn next_groups(&mut self) -> Result<Option<Vec<Span>>> {
        match self.next_search()? {
            Some(search) => self.regex.group_spans(&search),
            None => Ok(None),
        }
    }

    /// Goes on after a match, and tells whether it counts: an empty one right after another does not.
    #[inline]
    fn take(&mut self, found: Span) -> bool {
        let empty = found.start >= found.end;
        self.stepped = empty && found.end == self.input.effective_start();
        let counts = !(empty && self.last == Some(found.end));
        let next = if empty {
            self.after(found.end)
        } else {
            found.end
        };
        self.input.set_start(next);
        if counts {
            self.last = Some(found.end);
        }
        counts
    }

    /// The place a character further.
    fn after(&self, place: usize) -> usize {
        let rest = self.text.map_or("", |text| &text[place..]);
        place + rest.chars().next().map_or(1, char::len_utf8)
    }
}

impl<'t, S: Input + ?Sized> Iterator for Matches<'_, 't, S> {
    type Item = Result<S::Match<'t>>;

    #[inline]
    fn next(&mut self) -> Option<Result<S::Match<'t>>> {
        let found = self.step(Self::next_span, |span| *span)?;
        let input = self.text();
        Some(found.map(|span| input.make_match(span.start, span.end)))
    }
}

impl<S: Input + ?Sized> FusedIterator for Matches<'_, '_, S> {}

impl<S: Input + fmt::Debug + ?Sized> fmt::Debug for Matches<'_, '_, S> {
    fn fmt(&self, f: &mut fmt::Formatter<'_>) -> fmt::Result {
        f.debug_struct("Matches")
            .field("regex", &self.regex)
            .field("input", &self.input)
            .field("last", &self.last)
            .finish_non_exhaustive()
    }
}

/// The groups of the matches of an input from left to right, from [`Regex::captures_iter`]. An error is the last item.
///
/// ```
/// use proved_fancy_regex::{CaptureMatches, Regex};
///
/// let regex = Regex::new(r"(\w)=(\w)").unwrap();
/// let mut pairs: CaptureMatches<'_, '_, str> = regex.captures_iter("a=1 b=2");
/// assert_eq!((pairs.text(), pairs.regex().as_str()), ("a=1 b=2", r"(\w)=(\w)"));
/// let values: Vec<_> = pairs.map(|groups| groups.unwrap()[2].to_string()).collect();
/// assert_eq!(values, ["1", "2"]);
/// ```
pub struct CaptureMatches<'r, 't, S: Input + ?Sized = str>(Matches<'r, 't, S>);

impl<'r, 't, S: Input + ?Sized> CaptureMatches<'r, 't, S> {
    pub(crate) fn new(matches: Matches<'r, 't, S>) -> CaptureMatches<'r, 't, S> {
        CaptureMatches(matches)
    }

    /// The searched input.
    ///
    /// ```
    /// let regex = proved_fancy_regex::Regex::new(r"\w+").unwrap();
    /// assert_eq!(regex.captures_iter("one two").text(), "one two");
    /// ```
    pub fn text(&self) -> &'t S {
        self.0.text()
    }

    /// The regex.
    ///
    /// ```
    /// let regex = proved_fancy_regex::Regex::new(r"\w+").unwrap();
    /// assert_eq!(regex.captures_iter("one two").regex().as_str(), r"\w+");
    /// ```
    pub fn regex(&self) -> &'r Regex {
        self.0.regex()
    }
}

impl<'t, S: Input + ?Sized> Iterator for CaptureMatches<'_, 't, S> {
    type Item = Result<Captures<'t, S>>;

    fn next(&mut self) -> Option<Result<Captures<'t, S>>> {
        let spans = self.0.step(Matches::next_groups, |spans| spans[0])?;
        let groups = |spans| Captures::new(self.text(), spans, self.regex().names());
        Some(spans.map(groups))
    }
}

impl<S: Input + ?Sized> FusedIterator for CaptureMatches<'_, '_, S> {}

impl<S: Input + fmt::Debug + ?Sized> fmt::Debug for CaptureMatches<'_, '_, S> {
    fn fmt(&self, f: &mut fmt::Formatter<'_>) -> fmt::Result {
        f.debug_tuple("CaptureMatches").field(&self.0).finish()
    }
}

/// The pieces of a text between the matches, and last the rest of the text, from [`Regex::split`]. After an error the rest still comes.
///
/// ```
/// use proved_fancy_regex::{Regex, Split};
///
/// let regex = Regex::new(",").unwrap();
/// let pieces: Split<'_, '_> = regex.split("a,b");
/// assert_eq!(pieces.map(|piece| piece.unwrap()).collect::<Vec<_>>(), ["a", "b"]);
/// ```
#[derive(Debug)]
pub struct Split<'r, 't> {
    matches: Matches<'r, 't, str>,
    /// Where the next piece starts; `None` once the rest was given.
    next: Option<usize>,
}

impl<'r, 't> Split<'r, 't> {
    pub(crate) fn new(matches: Matches<'r, 't, str>) -> Split<'r, 't> {
        Split {
            matches,
            next: Some(0),
        }
    }

    /// The text after the last match, if it was not given yet.
    fn rest(&mut self) -> Option<&'t str> {
        self.next.take().map(|start| &self.matches.text()[start..])
    }
}

impl<'t> Iterator for Split<'_, 't> {
    type Item = Result<&'t str>;

    fn next(&mut self) -> Option<Result<&'t str>> {
        let start = self.next?;
        match self.matches.next() {
            Some(Ok(found)) => {
                self.next = Some(found.end());
                Some(Ok(&self.matches.text()[start..found.start()]))
            }
            Some(Err(error)) => Some(Err(error)),
            None => self.rest().map(Ok),
        }
    }
}

impl FusedIterator for Split<'_, '_> {}

/// At most so many items of a split, from [`Regex::splitn`]. The last one is the rest of the text, and an error is one of them.
///
/// ```
/// use proved_fancy_regex::{Regex, SplitN};
///
/// let regex = Regex::new(",").unwrap();
/// let pieces: SplitN<'_, '_> = regex.splitn("a,b,c", 2);
/// assert_eq!(pieces.map(|piece| piece.unwrap()).collect::<Vec<_>>(), ["a", "b,c"]);
/// ```
#[derive(Debug)]
pub struct SplitN<'r, 't> {
    pieces: Split<'r, 't>,
    left: usize,
}

impl<'r, 't> SplitN<'r, 't> {
    pub(crate) fn new(pieces: Split<'r, 't>, limit: usize) -> SplitN<'r, 't> {
        SplitN {
            pieces,
            left: limit,
        }
    }
}

impl<'t> Iterator for SplitN<'_, 't> {
    type Item = Result<&'t str>;

    fn next(&mut self) -> Option<Result<&'t str>> {
        self.left = self.left.checked_sub(1)?;
        if self.left == 0 {
            self.pieces.rest().map(Ok)
        } else {
            self.pieces.next()
        }
    }

    fn size_hint(&self) -> (usize, Option<usize>) {
        (0, Some(self.left))
    }
}

impl FusedIterator for SplitN<'_, '_> {}
