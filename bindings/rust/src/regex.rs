use crate::captures::{CaptureNames, Captures, Names};
use crate::error::{Error, Result};
use crate::handle::{Listed, Owned};
use crate::input::{Input, RegexInput, Search};
use crate::iter::{CaptureMatches, Matches, Split, SplitN};
use crate::options::RegexOptionsBuilder;
use crate::pool::Pool;
use crate::raw::{Options, Span};
use crate::replacer::Replacer;
use std::borrow::Cow;
use std::fmt;
use std::sync::{Arc, OnceLock};

/// A compiled pattern.
///
/// ```
/// use proved_fancy_regex::Regex;
///
/// let regex = Regex::new(r"(\w+) (?=world)").unwrap();
/// let found = regex.find("hello world").unwrap().unwrap();
/// assert_eq!(found.as_str(), "hello ");
/// ```
///
/// Threads can share it, and a clone is the same regex: it costs next to nothing. Threads that search at the same time do not wait for
/// one another. The library serves one search of a compiled pattern at a time, so where as many searches run at once as never before,
/// the pattern is compiled once more; what was compiled is kept as long as the regex, and so is the memory of the last search of a short
/// text.
///
/// ```
/// use proved_fancy_regex::Regex;
/// use std::thread;
///
/// let regex = Regex::new(r"(\w)\1").unwrap();
/// thread::scope(|scope| {
///     for text in ["aa", "xbb"] {
///         let regex = &regex;
///         scope.spawn(move || assert!(regex.is_match(text).unwrap()));
///     }
/// });
/// ```
///
/// # Errors of searches
///
/// A search is an error where it passes a limit, where memory runs out, where it begins inside a character, where bytes are searched that
/// are not UTF-8, or where a [`RegexInput`] asks for what the library cannot be asked for. The error is that of this search,
/// whatever other threads do, and the regex can be used again.
#[derive(Clone)]
pub struct Regex {
    compiled: Arc<Compiled>,
}

struct Compiled {
    pattern: String,
    options: RegexOptionsBuilder,
    names: Names,
    handles: Pool,
    /// Handles of sets of the pattern and the empty pattern, for anchored searches.
    anchored: OnceLock<Box<Pool>>,
}

impl Regex {
    /// Compiles a pattern with the default options.
    ///
    /// ```
    /// assert!(proved_fancy_regex::Regex::new(r"(?<=a)b").is_ok());
    /// ```
    ///
    /// # Errors
    ///
    /// `ParseError` where the text is no pattern, `CompileError` where the pattern cannot be compiled, and `Memory` where memory runs out.
    pub fn new(pattern: &str) -> Result<Regex> {
        RegexOptionsBuilder::new().build(pattern.to_string())
    }

    pub(crate) fn with_options(pattern: String, options: &RegexOptionsBuilder) -> Result<Regex> {
        let handle = Owned::empty();
        handle.build(&pattern, &options.options)?;
        options.check()?;
        let lines = handle.group_lines()?;
        let name = |line: &str| (!line.is_empty()).then(|| line.to_string());
        let compiled = Compiled {
            pattern,
            options: options.clone(),
            names: lines.lines().map(name).collect(),
            handles: Pool::of(handle),
            anchored: OnceLock::new(),
        };
        Ok(Regex {
            compiled: Arc::new(compiled),
        })
    }

    /// Makes a search with a handle of the regex that no other search has.
    #[inline]
    fn with_handle<T>(&self, search: impl FnOnce(&Owned) -> Result<T>) -> Result<T> {
        let Compiled {
            pattern, options, ..
        } = &*self.compiled;
        let build = |handle: &Owned| handle.build(pattern, &options.options);
        self.compiled.handles.with(build, search)
    }

    /// Makes a search with a handle of the set of the pattern and the empty pattern. The empty pattern matches where a search begins,
    /// and a set asks its members at the first place alone at which one of them matches: so its answer has the match of the pattern that
    /// starts there.
    fn with_anchored<T>(&self, search: impl FnOnce(&Owned) -> Result<T>) -> Result<T> {
        let Compiled {
            pattern, options, ..
        } = &*self.compiled;
        let build = |handle: &Owned| {
            let patterns = Listed::of([pattern.as_str(), ""].into_iter());
            handle.build_mixed(&patterns, &[options.options, Options::DEFAULT])
        };
        let handles = self.compiled.anchored.get_or_init(|| Box::new(Pool::new()));
        handles.with(build, search)
    }

    /// The options of the pattern.
    pub(crate) fn options(&self) -> &RegexOptionsBuilder {
        &self.compiled.options
    }

    /// Whether inputs may say that the start and the end of a text are none.
    #[inline]
    pub(crate) fn overrides_assertions(&self) -> bool {
        self.compiled.options.overrides_assertions
    }

    /// The names of the groups.
    pub(crate) fn names(&self) -> Names {
        self.compiled.names.clone()
    }

    /// The first fault of a template from the left.
    pub(crate) fn check_template(&self, template: &str, is_python: bool) -> Result<()> {
        self.with_handle(|handle| handle.check_template(template, is_python))
    }

    /// The text of the pattern.
    ///
    /// ```
    /// assert_eq!(proved_fancy_regex::Regex::new("a+").unwrap().as_str(), "a+");
    /// ```
    pub fn as_str(&self) -> &str {
        &self.compiled.pattern
    }

    /// The number of groups, the whole match included.
    ///
    /// ```
    /// assert_eq!(proved_fancy_regex::Regex::new("(a)(?:b)").unwrap().captures_len(), 2);
    /// ```
    pub fn captures_len(&self) -> usize {
        self.compiled.names.len()
    }

    /// The names of the groups in order of their numbers; `None` for a group without a name, as group 0 is.
    ///
    /// ```
    /// let regex = proved_fancy_regex::Regex::new("(?<a>.)(.)").unwrap();
    /// assert_eq!(regex.capture_names().collect::<Vec<_>>(), [None, Some("a"), None]);
    /// ```
    pub fn capture_names(&self) -> CaptureNames<'_> {
        CaptureNames(self.compiled.names.iter())
    }

    /// Whether the input has a match.
    ///
    /// ```
    /// let regex = proved_fancy_regex::Regex::new(r"(\w+) \1").unwrap();
    /// assert!(regex.is_match("mirror mirror on the wall").unwrap());
    /// assert!(regex.is_match(b"mirror mirror on the wall").unwrap());
    /// ```
    ///
    /// # Errors
    ///
    /// Those of [searches](Regex#errors-of-searches).
    #[inline]
    pub fn is_match<S: Input + ?Sized>(&self, input: &S) -> Result<bool> {
        let search = Search::whole(input)?;
        self.with_handle(|handle| handle.is_match(&search))
    }

    /// Whether the input has a match from its start on.
    ///
    /// ```
    /// use proved_fancy_regex::{Regex, RegexInput};
    ///
    /// let regex = Regex::new("a").unwrap();
    /// assert!(!regex.is_match_input(RegexInput::new("ab").from_pos(1)).unwrap());
    /// ```
    ///
    /// # Errors
    ///
    /// Those of [searches](Regex#errors-of-searches).
    pub fn is_match_input<S: Input + ?Sized>(&self, input: RegexInput<'_, S>) -> Result<bool> {
        let text = input.haystack().text();
        match input.search(text, self.overrides_assertions())? {
            Some(search) if !search.anchored => self.with_handle(|handle| handle.is_match(&search)),
            Some(search) => Ok(self.find_span(&search)?.is_some()),
            None => Ok(false),
        }
    }

    /// The first match in the input.
    ///
    /// ```
    /// let regex = proved_fancy_regex::Regex::new(r"\w+(?=!)").unwrap();
    /// assert_eq!(regex.find("so fancy!").unwrap().unwrap().as_str(), "fancy");
    /// ```
    ///
    /// # Errors
    ///
    /// Those of [searches](Regex#errors-of-searches).
    #[inline]
    pub fn find<'t, S: Input + ?Sized>(&self, input: &'t S) -> Result<Option<S::Match<'t>>> {
        let search = Search::whole(input)?;
        let found = self.with_handle(|handle| handle.find(&search))?;
        Ok(found.map(|span| input.make_match(span.start, span.end)))
    }

    /// The first match that starts at the byte offset `position` or later; past the end of the input there is none. What stands before is
    /// still seen by look-behind, `^` and `\b`, so this is not a search of a slice.
    ///
    /// ```
    /// let regex = proved_fancy_regex::Regex::new(r"(?m:^)(\d+)").unwrap();
    /// let text = "1 test 123\n2 foo";
    /// assert_eq!(regex.find_from_pos(text, 7).unwrap().unwrap().range(), 11..12);
    /// assert_eq!(regex.find(&text[7..]).unwrap().unwrap().as_str(), "123");
    /// ```
    ///
    /// # Errors
    ///
    /// Those of [searches](Regex#errors-of-searches).
    pub fn find_from_pos<'t, S: Input + ?Sized>(
        &self,
        input: &'t S,
        position: usize,
    ) -> Result<Option<S::Match<'t>>> {
        self.find_input(RegexInput::new(input).from_pos(position))
    }

    /// The first match of an input from its start on.
    ///
    /// ```
    /// use proved_fancy_regex::{Regex, RegexInput};
    ///
    /// let regex = Regex::new("a").unwrap();
    /// let found = regex.find_input(RegexInput::new("aba").from_pos(1)).unwrap().unwrap();
    /// assert_eq!(found.range(), 2..3);
    /// ```
    ///
    /// # Errors
    ///
    /// Those of [searches](Regex#errors-of-searches).
    pub fn find_input<'t, S: Input + ?Sized>(
        &self,
        input: RegexInput<'t, S>,
    ) -> Result<Option<S::Match<'t>>> {
        let haystack = input.haystack();
        let found = self.span_in(&input)?;
        Ok(found.map(|span| haystack.make_match(span.start, span.end)))
    }

    /// The groups of the first match in the input.
    ///
    /// ```
    /// use proved_fancy_regex::Regex;
    ///
    /// let regex = Regex::new(r"(\d{4})-(\d{2})").unwrap();
    /// let groups = regex.captures("on 2018-04").unwrap().unwrap();
    /// assert_eq!(groups.get(2).unwrap().as_str(), "04");
    /// ```
    ///
    /// # Errors
    ///
    /// Those of [searches](Regex#errors-of-searches).
    pub fn captures<'t, S: Input + ?Sized>(&self, input: &'t S) -> Result<Option<Captures<'t, S>>> {
        self.captures_input(RegexInput::new(input))
    }

    /// The groups of the first match that starts at the byte offset `position` or later; as [`Regex::find_from_pos`].
    ///
    /// ```
    /// let regex = proved_fancy_regex::Regex::new(r"(?m:^)(\d+)").unwrap();
    /// let groups = regex.captures_from_pos("1 test 123\n2 foo", 7).unwrap().unwrap();
    /// assert_eq!(groups.get(1).unwrap().range(), 11..12);
    /// ```
    ///
    /// # Errors
    ///
    /// Those of [searches](Regex#errors-of-searches).
    pub fn captures_from_pos<'t, S: Input + ?Sized>(
        &self,
        input: &'t S,
        position: usize,
    ) -> Result<Option<Captures<'t, S>>> {
        self.captures_input(RegexInput::new(input).from_pos(position))
    }

    /// The groups of the first match of an input from its start on.
    ///
    /// ```
    /// use proved_fancy_regex::{Regex, RegexInput};
    ///
    /// let regex = Regex::new("(a)(b)").unwrap();
    /// let input = RegexInput::new("abab").from_pos(1);
    /// assert_eq!(regex.captures_input(input).unwrap().unwrap().get(2).unwrap().start(), 3);
    /// ```
    ///
    /// # Errors
    ///
    /// Those of [searches](Regex#errors-of-searches).
    pub fn captures_input<'t, S: Input + ?Sized>(
        &self,
        input: RegexInput<'t, S>,
    ) -> Result<Option<Captures<'t, S>>> {
        let haystack = input.haystack();
        let spans = match input.search(haystack.text(), self.overrides_assertions())? {
            Some(search) => self.group_spans(&search)?,
            None => None,
        };
        Ok(spans.map(|spans| Captures::new(haystack, spans, self.names())))
    }

    /// The span of the first match of an input.
    fn span_in<S: Input + ?Sized>(&self, input: &RegexInput<'_, S>) -> Result<Option<Span>> {
        let text = input.haystack().text();
        match input.search(text, self.overrides_assertions())? {
            Some(search) => self.find_span(&search),
            None => Ok(None),
        }
    }

    /// The span of the first match.
    #[inline]
    pub(crate) fn find_span(&self, search: &Search<'_>) -> Result<Option<Span>> {
        if search.anchored {
            return Ok(self.anchored_spans(search)?.map(|spans| spans[0]));
        }
        self.with_handle(|handle| handle.find(search))
    }

    /// Writes the spans of a row of matches, of which the first is that of the search, and returns how many.
    pub(crate) fn find_row(&self, search: &Search<'_>, spans: &mut [Span]) -> Result<usize> {
        self.with_handle(|handle| handle.find_row(search, spans))
    }

    /// The spans of the groups of the first match.
    pub(crate) fn group_spans(&self, search: &Search<'_>) -> Result<Option<Vec<Span>>> {
        if search.anchored {
            return self.anchored_spans(search);
        }
        self.with_handle(|handle| {
            let mut spans = vec![Span::UNSET; self.captures_len()];
            let found = handle.captures(search, &mut spans)?;
            Ok(found.then_some(spans))
        })
    }

    /// The spans of the groups of the match that starts where the search begins.
    fn anchored_spans(&self, search: &Search<'_>) -> Result<Option<Vec<Span>>> {
        let room = self.captures_len() + 1;
        let groups = self.with_anchored(|handle| handle.set_captures(search, room))?;
        let own = groups.iter().filter(|group| group.pattern == 0);
        let spans: Vec<Span> = own.map(|group| group.span()).collect();
        Ok((!spans.is_empty()).then_some(spans))
    }

    /// The matches of the input from left to right, none overlapping another. An error is the last item.
    ///
    /// ```
    /// use proved_fancy_regex::Regex;
    ///
    /// let regex = Regex::new(r"\w+(?=!)").unwrap();
    /// let found: Result<Vec<_>, _> = regex.find_iter("so fancy! even with! iterators!").collect();
    /// let texts: Vec<_> = found.unwrap().iter().map(|m| m.as_str()).collect();
    /// assert_eq!(texts, ["fancy", "with", "iterators"]);
    /// ```
    pub fn find_iter<'r, 't, S: Input + ?Sized>(&'r self, input: &'t S) -> Matches<'r, 't, S> {
        self.find_iter_input(RegexInput::new(input))
    }

    /// The matches of the input from its start on.
    ///
    /// ```
    /// use proved_fancy_regex::{Regex, RegexInput};
    ///
    /// let regex = Regex::new("a").unwrap();
    /// let input = RegexInput::new("aab").anchored(true);
    /// assert_eq!(regex.find_iter_input(input).count(), 2);
    /// ```
    pub fn find_iter_input<'r, 't, S: Input + ?Sized>(
        &'r self,
        input: RegexInput<'t, S>,
    ) -> Matches<'r, 't, S> {
        Matches::new(self, input)
    }

    /// The groups of the matches of the input from left to right. An error is the last item.
    ///
    /// ```
    /// let regex = proved_fancy_regex::Regex::new(r"(\d{4})-(\d{2})").unwrap();
    /// let all = regex.captures_iter("It was between 2018-04 and 2020-01");
    /// let months: Vec<_> = all.map(|groups| groups.unwrap()[2].to_string()).collect();
    /// assert_eq!(months, ["04", "01"]);
    /// ```
    pub fn captures_iter<'r, 't, S: Input + ?Sized>(
        &'r self,
        input: &'t S,
    ) -> CaptureMatches<'r, 't, S> {
        self.captures_iter_input(RegexInput::new(input))
    }

    /// The groups of the matches of the input from its start on.
    ///
    /// ```
    /// use proved_fancy_regex::{Regex, RegexInput};
    ///
    /// let regex = Regex::new("(a)").unwrap();
    /// assert_eq!(regex.captures_iter_input(RegexInput::new("aba").from_pos(1)).count(), 1);
    /// ```
    pub fn captures_iter_input<'r, 't, S: Input + ?Sized>(
        &'r self,
        input: RegexInput<'t, S>,
    ) -> CaptureMatches<'r, 't, S> {
        CaptureMatches::new(self.find_iter_input(input))
    }

    /// The pieces of the text between the matches, and last the rest of the text. After an error the rest still comes.
    ///
    /// ```
    /// let regex = proved_fancy_regex::Regex::new(r"[ \t]+").unwrap();
    /// let fields: Vec<&str> = regex.split("a b \t  c\td    e").map(|piece| piece.unwrap()).collect();
    /// assert_eq!(fields, ["a", "b", "c", "d", "e"]);
    /// ```
    pub fn split<'r, 't>(&'r self, text: &'t str) -> Split<'r, 't> {
        Split::new(self.find_iter(text))
    }

    /// At most `limit` pieces of the text: the last one is the rest, with what matches in it. None for limit 0.
    ///
    /// ```
    /// use proved_fancy_regex::Regex;
    ///
    /// let regex = Regex::new(r"[ \t]+").unwrap();
    /// let fields: Vec<&str> = regex.splitn("a b \t  c\td    e", 3).map(|piece| piece.unwrap()).collect();
    /// assert_eq!(fields, ["a", "b", "c\td    e"]);
    /// ```
    pub fn splitn<'r, 't>(&'r self, text: &'t str, limit: usize) -> SplitN<'r, 't> {
        SplitN::new(self.split(text), limit)
    }

    /// The text with its first match replaced. It is borrowed if nothing matches.
    ///
    /// What stands in the place of the match is most often a template:
    ///
    /// ```
    /// use proved_fancy_regex::Regex;
    ///
    /// let regex = Regex::new(r"(?P<last>[^,\s]+),\s+(?P<first>\S+)").unwrap();
    /// assert_eq!(regex.replace("Springsteen, Bruce", "$first $last"), "Bruce Springsteen");
    /// assert_eq!(regex.replace("Springsteen, Bruce", "$2 $1"), "Bruce Springsteen");
    /// ```
    ///
    /// In a template `$name`, `${name}`, `$1` and `${1}` stand for the text of a group, where group 0 is the whole match, and `$$`
    /// stands for `$`. A group that is not there or took no part in the match has no text. The longest name counts, so `$1a` is the
    /// group `1a`; `${1}a` is group 1, and then an `a`:
    ///
    /// ```
    /// # use proved_fancy_regex::Regex;
    /// let regex = Regex::new(r"(?P<first>\w+)\s+(?P<second>\w+)").unwrap();
    /// assert_eq!(regex.replace("deep fried", "${first}_$second"), "deep_fried");
    /// assert_eq!(regex.replace("deep fried", "$first_$second"), "fried");
    /// ```
    ///
    /// It may be a function of the groups, or a text that is no template, or any other [`Replacer`]:
    ///
    /// ```
    /// # use proved_fancy_regex::Regex;
    /// use proved_fancy_regex::{Captures, NoExpand};
    ///
    /// let regex = Regex::new(r"([^,\s]+),\s+(\S+)").unwrap();
    /// let swapped = regex.replace("Springsteen, Bruce", |groups: &Captures<'_, str>| {
    ///     format!("{} {}", &groups[2], &groups[1])
    /// });
    /// assert_eq!(swapped, "Bruce Springsteen");
    /// assert_eq!(regex.replace("Springsteen, Bruce", NoExpand("$2 $1")), "$2 $1");
    /// ```
    ///
    /// # Panics
    ///
    /// If a search fails; [`Regex::try_replacen`] returns the error.
    pub fn replace<'t, R: Replacer>(&self, text: &'t str, replacer: R) -> Cow<'t, str> {
        self.replacen(text, 1, replacer)
    }

    /// The text with each match replaced; as [`Regex::replace`].
    ///
    /// ```
    /// use proved_fancy_regex::{Captures, Regex};
    ///
    /// let regex = Regex::new(r"(\w)(\w*)").unwrap();
    /// let swapped = regex.replace_all("ab cd", |groups: &Captures<'_>| format!("{}{}", &groups[2], &groups[1]));
    /// assert_eq!(swapped, "ba dc");
    /// ```
    ///
    /// # Panics
    ///
    /// If a search fails; [`Regex::try_replacen`] returns the error.
    pub fn replace_all<'t, R: Replacer>(&self, text: &'t str, replacer: R) -> Cow<'t, str> {
        self.replacen(text, 0, replacer)
    }

    /// The text with its first `limit` matches replaced, or with all of them for limit 0; as [`Regex::replace`].
    ///
    /// ```
    /// let regex = proved_fancy_regex::Regex::new("a").unwrap();
    /// assert_eq!(regex.replacen("aaa", 2, "b"), "bba");
    /// ```
    ///
    /// # Panics
    ///
    /// If a search fails; [`Regex::try_replacen`] returns the error.
    pub fn replacen<'t, R: Replacer>(
        &self,
        text: &'t str,
        limit: usize,
        replacer: R,
    ) -> Cow<'t, str> {
        self.try_replacen(text, limit, replacer).unwrap()
    }

    /// The text with its first `limit` matches replaced, or with all of them for limit 0. It is borrowed if none matches, or if a
    /// template changes nothing.
    ///
    /// ```
    /// let regex = proved_fancy_regex::Regex::new("a").unwrap();
    /// assert_eq!(regex.try_replacen("aaa", 0, "b").unwrap(), "bbb");
    /// ```
    ///
    /// # Errors
    ///
    /// Those of [searches](Regex#errors-of-searches). With a limit above 0 one match more is searched for, and its error is that of
    /// the call.
    pub fn try_replacen<'t, R: Replacer>(
        &self,
        text: &'t str,
        limit: usize,
        mut replacer: R,
    ) -> Result<Cow<'t, str>> {
        if let (0, Some(template)) = (limit, replacer.template()) {
            let replaced = self.with_handle(|handle| handle.replace_all(text, template))?;
            return Ok(if replaced == text {
                Cow::Borrowed(text)
            } else {
                Cow::Owned(replaced)
            });
        }
        if let Some(same) = replacer.no_expansion() {
            let spans = self.find_iter(text).map(|found| Ok(found?.range()));
            return spliced(text, limit, spans, Clone::clone, |_, to| to.push_str(&same));
        }
        let whole = |groups: &Captures<'t>| groups.whole().start..groups.whole().end;
        let append = |groups: &Captures<'t>, to: &mut String| replacer.replace_append(groups, to);
        spliced(text, limit, self.captures_iter(text), whole, append)
    }
}

/// The text with what is appended for each of its first `limit` matches in the place of that match; all of them for limit 0.
fn spliced<'t, T>(
    text: &'t str,
    limit: usize,
    matches: impl Iterator<Item = Result<T>>,
    whole: impl Fn(&T) -> std::ops::Range<usize>,
    mut append: impl FnMut(&T, &mut String),
) -> Result<Cow<'t, str>> {
    let mut spliced = None;
    let mut last = 0;
    for (count, found) in matches.enumerate() {
        let found = found?;
        if limit != 0 && count >= limit {
            break;
        }
        let to = spliced.get_or_insert_with(String::new);
        to.push_str(&text[last..whole(&found).start]);
        append(&found, to);
        last = whole(&found).end;
    }
    Ok(match spliced {
        Some(mut to) => {
            to.push_str(&text[last..]);
            Cow::Owned(to)
        }
        None => Cow::Borrowed(text),
    })
}

impl fmt::Display for Regex {
    fn fmt(&self, f: &mut fmt::Formatter<'_>) -> fmt::Result {
        f.write_str(self.as_str())
    }
}

impl fmt::Debug for Regex {
    fn fmt(&self, f: &mut fmt::Formatter<'_>) -> fmt::Result {
        f.write_str(self.as_str())
    }
}

impl std::str::FromStr for Regex {
    type Err = Error;

    fn from_str(pattern: &str) -> Result<Regex> {
        Regex::new(pattern)
    }
}

impl TryFrom<&str> for Regex {
    type Error = Error;

    fn try_from(pattern: &str) -> Result<Regex> {
        Regex::new(pattern)
    }
}

impl TryFrom<String> for Regex {
    type Error = Error;

    fn try_from(pattern: String) -> Result<Regex> {
        RegexOptionsBuilder::new().build(pattern)
    }
}
