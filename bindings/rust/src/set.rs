use crate::captures::{Captures, Names};
use crate::error::Result;
use crate::handle::{Listed, Owned};
use crate::input::{Input, RegexInput, Search};
use crate::options::RegexOptionsBuilder;
use crate::pool::Pool;
use crate::raw::{self, Options};
use crate::regex::Regex;
use std::fmt;
use std::iter::{FusedIterator, Peekable};
use std::sync::atomic::{AtomicUsize, Ordering};
use std::sync::{Arc, OnceLock};
use std::vec;

/// Several patterns, its members, that are searched for together. They are numbered from 0. Threads can share a set as they can share
/// a [`Regex`], and a clone is the same set.
///
/// ```
/// use proved_fancy_regex::{RegexInput, RegexSet};
///
/// let set = RegexSet::new([r"\d+", r"\w+", r"(?<=\$)\d+\.\d+"]).unwrap();
/// let found = set.find_input(RegexInput::new("$29.99")).unwrap().unwrap();
/// let texts: Vec<_> = found.map(|m| m.unwrap()).map(|m| (m.pattern(), m.as_str())).collect();
/// assert_eq!(texts, [(0, "29"), (1, "29"), (2, "29.99")]);
/// ```
///
/// The groups of each match are there too:
///
/// ```
/// # use proved_fancy_regex::{RegexInput, RegexSet};
/// let set = RegexSet::new([r"(?<hour>\d\d):\d\d", r"\w+"]).unwrap();
/// let mut found = set.find_input(RegexInput::new("at 12:30").from_pos(2)).unwrap().unwrap();
/// let time = found.next().unwrap().unwrap();
/// assert_eq!((time.pattern(), &time.captures()["hour"]), (0, "12"));
/// ```
#[derive(Clone)]
pub struct RegexSet {
    compiled: Arc<Compiled>,
}

struct Compiled {
    members: Vec<Member>,
    /// Whether each member has options of its own.
    is_mixed: bool,
    handles: Pool,
    /// Handles of sets of the members and the empty pattern, for anchored searches.
    anchored: OnceLock<Box<Pool>>,
    /// The most groups that a search found so far: how much room the next one has.
    room: AtomicUsize,
}

/// A member of a set, and the names of its groups once they are known.
struct Member {
    pattern: String,
    options: RegexOptionsBuilder,
    names: OnceLock<Names>,
}

impl Member {
    /// The names of the groups, of which there are so many. The pattern is compiled once for them if there are more than group 0.
    fn names(&self, groups: usize) -> Result<Names> {
        if let Some(names) = self.names.get() {
            return Ok(names.clone());
        }
        let read = if groups == 1 {
            Names::from(vec![None])
        } else {
            self.options.build(self.pattern.clone())?.names()
        };
        Ok(self.names.get_or_init(|| read).clone())
    }

    /// Whether a match may start after the place at which it was tried.
    fn may_start_later(&self) -> bool {
        self.pattern.contains(r"\K")
    }
}

impl RegexSet {
    /// Compiles the patterns with the default options.
    ///
    /// ```
    /// let set = proved_fancy_regex::RegexSet::new(["a", "b+"]).unwrap();
    /// assert_eq!(set.len(), 2);
    /// ```
    ///
    /// # Errors
    ///
    /// The error of the first pattern that is refused, or `Memory` where memory runs out.
    pub fn new<I: IntoIterator<Item = S>, S: AsRef<str>>(patterns: I) -> Result<RegexSet> {
        RegexSet::new_with_options(patterns, &RegexOptionsBuilder::new())
    }

    /// Compiles the patterns with these options.
    ///
    /// ```
    /// use proved_fancy_regex::{RegexInput, RegexOptionsBuilder, RegexSet};
    ///
    /// let mut options = RegexOptionsBuilder::new();
    /// let set = RegexSet::new_with_options(["a"], options.case_insensitive(true)).unwrap();
    /// assert!(set.find_input(RegexInput::new("A")).unwrap().is_some());
    /// ```
    ///
    /// # Errors
    ///
    /// The error of the first pattern that is refused, or `Memory` where memory runs out.
    pub fn new_with_options<I: IntoIterator<Item = S>, S: AsRef<str>>(
        patterns: I,
        options: &RegexOptionsBuilder,
    ) -> Result<RegexSet> {
        let member = |pattern: S| Member {
            pattern: pattern.as_ref().to_string(),
            options: options.clone(),
            names: OnceLock::new(),
        };
        let members = patterns.into_iter().map(member).collect();
        let set = RegexSet::of(members, false)?;
        options.check()?;
        Ok(set)
    }

    /// The set of the patterns of these regexes, each with its own options. They are compiled again, and stay as they are. A search of
    /// this set asks each member at each place; a set that is made of patterns is faster.
    ///
    /// ```
    /// use proved_fancy_regex::{Regex, RegexInput, RegexSet, RegexSetOptions};
    /// use std::sync::Arc;
    ///
    /// let regexes = ["a", r"\w(?=c)"].map(|pattern| Arc::new(Regex::new(pattern).unwrap()));
    /// let set = RegexSet::from_regexes(regexes, RegexSetOptions::new()).unwrap();
    /// let found = set.find_input(RegexInput::new("bc")).unwrap().unwrap();
    /// assert_eq!(found.map(|m| m.unwrap().pattern()).collect::<Vec<_>>(), [1]);
    /// ```
    ///
    /// # Errors
    ///
    /// `Memory` where memory runs out.
    pub fn from_regexes<I: IntoIterator<Item = Arc<Regex>>>(
        regexes: I,
        _options: RegexSetOptions,
    ) -> Result<RegexSet> {
        let member = |regex: Arc<Regex>| Member {
            pattern: regex.as_str().to_string(),
            options: regex.options().clone(),
            names: OnceLock::from(regex.names()),
        };
        RegexSet::of(regexes.into_iter().map(member).collect(), true)
    }

    fn of(members: Vec<Member>, is_mixed: bool) -> Result<RegexSet> {
        let mut compiled = Compiled {
            members,
            is_mixed,
            handles: Pool::new(),
            anchored: OnceLock::new(),
            room: AtomicUsize::new(8),
        };
        let first = Owned::empty();
        compiled.build(&first)?;
        compiled.handles = Pool::of(first);
        Ok(RegexSet {
            compiled: Arc::new(compiled),
        })
    }

    /// The number of members.
    ///
    /// ```
    /// assert_eq!(proved_fancy_regex::RegexSet::new(["a", "b"]).unwrap().len(), 2);
    /// ```
    pub fn len(&self) -> usize {
        self.compiled.members.len()
    }

    /// Whether the set has no members.
    ///
    /// ```
    /// assert!(!proved_fancy_regex::RegexSet::new(["a", "b"]).unwrap().is_empty());
    /// ```
    pub fn is_empty(&self) -> bool {
        self.compiled.members.is_empty()
    }

    /// The members that match at the earliest place at which one of them matches, in the order of their numbers; `None` if no member
    /// matches anywhere. All of them are searched for at once: where one fails, its error is that of the call. The names of the groups
    /// of a member are read when it first matches: where it has groups, its pattern is compiled once more for that.
    ///
    /// ```
    /// use proved_fancy_regex::{RegexInput, RegexSet};
    ///
    /// let set = RegexSet::new(["b", "a", "ab"]).unwrap();
    /// let found = set.find_input(RegexInput::new("-ab")).unwrap().unwrap();
    /// assert_eq!(found.map(|m| m.unwrap().pattern()).collect::<Vec<_>>(), [1, 2]);
    /// ```
    ///
    /// # Errors
    ///
    /// Those of [searches](Regex#errors-of-searches), of each member that is asked.
    pub fn find_input<'r, 't, S: Input + ?Sized>(
        &'r self,
        input: RegexInput<'t, S>,
    ) -> Result<Option<RegexSetMatchesAt<'r, 't, S>>> {
        let members = &self.compiled.members;
        let overrides = members.iter().any(|m| m.options.overrides_assertions);
        let search = match input.search(input.haystack().text(), overrides)? {
            Some(search) => search,
            None => return Ok(None),
        };
        let groups = self.compiled.groups(&search)?;
        if groups.is_empty() {
            return Ok(None);
        }
        let start = self.compiled.place(&search, &groups)?;
        Ok(Some(RegexSetMatchesAt {
            set: self,
            haystack: input.haystack(),
            start,
            groups: groups.into_iter().peekable(),
        }))
    }
}

impl Compiled {
    /// Builds the set into a handle.
    fn build(&self, handle: &Owned) -> Result<()> {
        let patterns = Listed::of(self.members.iter().map(|m| m.pattern.as_str()));
        match (self.is_mixed, self.members.first()) {
            (false, Some(first)) => handle.build_set(&patterns, &first.options.options),
            _ => handle.build_mixed(&patterns, &self.options()),
        }
    }

    fn options(&self) -> Vec<Options> {
        self.members.iter().map(|m| m.options.options).collect()
    }

    /// Builds the set with the empty pattern as one member more. It matches where a search begins, so the members that match there are
    /// the answer.
    fn build_anchored(&self, handle: &Owned) -> Result<()> {
        let patterns = self.members.iter().map(|m| m.pattern.as_str());
        let mut options = self.options();
        options.push(Options::DEFAULT);
        handle.build_mixed(&Listed::of(patterns.chain([""])), &options)
    }

    /// The groups of the members that match.
    fn groups(&self, search: &Search<'_>) -> Result<Vec<raw::Member>> {
        let room = self.room.load(Ordering::Relaxed);
        let search_with = |handle: &Owned| handle.set_captures(search, room);
        let mut groups = if search.anchored {
            let handles = self.anchored.get_or_init(|| Box::new(Pool::new()));
            handles.with(|handle| self.build_anchored(handle), search_with)?
        } else {
            self.handles
                .with(|handle| self.build(handle), search_with)?
        };
        self.room.fetch_max(groups.len(), Ordering::Relaxed);
        groups.retain(|group| group.pattern < self.members.len());
        Ok(groups)
    }

    /// The place at which the members with these groups match. It is where a match starts whose pattern has no `\K`; if there is none,
    /// the first place at which an anchored search finds one.
    fn place(&self, search: &Search<'_>, groups: &[raw::Member]) -> Result<usize> {
        let is_whole =
            |number: &usize| *number == 0 || groups[number - 1].pattern != groups[*number].pattern;
        let wholes = (0..groups.len()).filter(is_whole).map(|n| groups[n]);
        let plain = |whole: &raw::Member| !self.members[whole.pattern].may_start_later();
        if let Some(whole) = wholes.clone().find(plain) {
            return Ok(whole.start);
        }
        let latest = wholes.map(|whole| whole.start).min().unwrap_or(0);
        for (step, _) in search.text[search.position..].char_indices() {
            let position = search.position + step;
            if search.anchored || position >= latest {
                break;
            }
            let here = Search {
                position,
                anchored: true,
                continues: search.continues && step == 0,
                ..*search
            };
            if !self.groups(&here)?.is_empty() {
                return Ok(position);
            }
        }
        Ok(if search.anchored {
            search.position
        } else {
            latest
        })
    }
}

impl fmt::Debug for RegexSet {
    fn fmt(&self, f: &mut fmt::Formatter<'_>) -> fmt::Result {
        write!(f, "RegexSet of {} patterns", self.len())
    }
}

/// The options of a set's automata. There are none here, so these options change nothing.
///
/// ```
/// use proved_fancy_regex::{RegexSet, RegexSetOptions};
///
/// let options = RegexSetOptions::new()
///     .delegate_size_limit(1)
///     .delegate_dfa_size_limit(1)
///     .meta_nfa_size_limit(None)
///     .meta_hybrid_cache_capacity(1)
///     .overlapping_dfa_cache_capacity(1)
///     .overlapping_dfa_skip_cache_capacity_check(true);
/// assert!(RegexSet::from_regexes([], options).unwrap().is_empty());
/// ```
#[derive(Clone, Debug, Default)]
pub struct RegexSetOptions {}

/// Setters that change nothing.
macro_rules! set_options {
    ($($(#[$doc:meta])* $name:ident($value:ident: $kind:ty);)*) => {
        impl RegexSetOptions {
            $(
                $(#[$doc])*
                ///
                /// It changes nothing here: there are no automata.
                pub fn $name(self, $value: $kind) -> RegexSetOptions {
                    self
                }
            )*
        }
    };
}

set_options! {
    /// How large delegated parts of a pattern may be.
    delegate_size_limit(_limit: usize);
    /// How large the automata of delegated parts may be.
    delegate_dfa_size_limit(_limit: usize);
    /// How large the automaton for the earliest place may be.
    meta_nfa_size_limit(_limit: Option<usize>);
    /// How large the cache of the automaton for the earliest place may be.
    meta_hybrid_cache_capacity(_limit: usize);
    /// How large the cache of the automaton for the members at a place may be.
    overlapping_dfa_cache_capacity(_limit: usize);
    /// Whether the automaton for the members at a place may have a cache that is too small.
    overlapping_dfa_skip_cache_capacity_check(_yes: bool);
}

impl RegexSetOptions {
    /// The default options.
    ///
    /// ```
    /// use proved_fancy_regex::{RegexSet, RegexSetOptions};
    ///
    /// assert!(RegexSet::from_regexes([], RegexSetOptions::new()).unwrap().is_empty());
    /// ```
    pub fn new() -> RegexSetOptions {
        RegexSetOptions::default()
    }
}

/// The match of one member of a set.
///
/// ```
/// use proved_fancy_regex::{RegexInput, RegexSet, RegexSetMatch};
///
/// let set = RegexSet::new([r"(\w)\w*"]).unwrap();
/// let mut found = set.find_input(RegexInput::new("-abc")).unwrap().unwrap();
/// let word: RegexSetMatch<'_, str> = found.next().unwrap().unwrap();
/// assert_eq!((word.pattern(), word.start(), word.end()), (0, 1, 4));
/// assert_eq!((word.as_str(), word.get().as_str(), &word.captures()[1]), ("abc", "abc", "a"));
/// ```
pub struct RegexSetMatch<'t, S: Input + ?Sized = str> {
    pattern: usize,
    groups: Captures<'t, S>,
}

impl<'t, S: Input + ?Sized> RegexSetMatch<'t, S> {
    /// The number of the member.
    ///
    /// ```
    /// use proved_fancy_regex::{RegexInput, RegexSet};
    ///
    /// let set = RegexSet::new(["x", r"(\w)\w*"]).unwrap();
    /// let word = set.find_input(RegexInput::new("-abc")).unwrap().unwrap().next().unwrap().unwrap();
    /// assert_eq!(word.pattern(), 1);
    /// ```
    pub fn pattern(&self) -> usize {
        self.pattern
    }

    /// The groups of the match.
    ///
    /// ```
    /// use proved_fancy_regex::{RegexInput, RegexSet};
    ///
    /// let set = RegexSet::new(["x", r"(\w)\w*"]).unwrap();
    /// let word = set.find_input(RegexInput::new("-abc")).unwrap().unwrap().next().unwrap().unwrap();
    /// assert_eq!(&word.captures()[1], "a");
    /// ```
    pub fn captures(&self) -> &Captures<'t, S> {
        &self.groups
    }

    /// The match.
    ///
    /// ```
    /// use proved_fancy_regex::{RegexInput, RegexSet};
    ///
    /// let set = RegexSet::new(["x", r"(\w)\w*"]).unwrap();
    /// let word = set.find_input(RegexInput::new("-abc")).unwrap().unwrap().next().unwrap().unwrap();
    /// assert_eq!(word.get().as_str(), "abc");
    /// ```
    pub fn get(&self) -> S::Match<'t> {
        self.groups.get(0).expect("a match has group 0")
    }

    /// The byte offset at which the match starts.
    ///
    /// ```
    /// use proved_fancy_regex::{RegexInput, RegexSet};
    ///
    /// let set = RegexSet::new(["x", r"(\w)\w*"]).unwrap();
    /// let word = set.find_input(RegexInput::new("-abc")).unwrap().unwrap().next().unwrap().unwrap();
    /// assert_eq!(word.start(), 1);
    /// ```
    pub fn start(&self) -> usize {
        self.groups.whole().start
    }

    /// The byte offset at which the match ends, exclusive.
    ///
    /// ```
    /// use proved_fancy_regex::{RegexInput, RegexSet};
    ///
    /// let set = RegexSet::new(["x", r"(\w)\w*"]).unwrap();
    /// let word = set.find_input(RegexInput::new("-abc")).unwrap().unwrap().next().unwrap().unwrap();
    /// assert_eq!(word.end(), 4);
    /// ```
    pub fn end(&self) -> usize {
        self.groups.whole().end
    }
}

impl<'t> RegexSetMatch<'t, str> {
    /// The text that matched.
    ///
    /// ```
    /// use proved_fancy_regex::{RegexInput, RegexSet};
    ///
    /// let set = RegexSet::new(["x", r"(\w)\w*"]).unwrap();
    /// let word = set.find_input(RegexInput::new("-abc")).unwrap().unwrap().next().unwrap().unwrap();
    /// assert_eq!(word.as_str(), "abc");
    /// ```
    pub fn as_str(&self) -> &'t str {
        self.get().as_str()
    }
}

impl<S: Input + ?Sized> Clone for RegexSetMatch<'_, S> {
    fn clone(&self) -> Self {
        RegexSetMatch {
            pattern: self.pattern,
            groups: self.groups.clone(),
        }
    }
}

impl<S: Input + fmt::Debug + ?Sized> fmt::Debug for RegexSetMatch<'_, S> {
    fn fmt(&self, f: &mut fmt::Formatter<'_>) -> fmt::Result {
        f.debug_struct("RegexSetMatch")
            .field("pattern", &self.pattern)
            .field("captures", &self.groups)
            .finish()
    }
}

/// The members of a set that match at one place, in the order of their numbers, from [`RegexSet::find_input`].
///
/// ```
/// use proved_fancy_regex::{RegexInput, RegexSet, RegexSetMatchesAt};
///
/// let set = RegexSet::new([r"a\Kb", "b"]).unwrap();
/// let found: RegexSetMatchesAt<'_, '_, str> = set.find_input(RegexInput::new("-ab")).unwrap().unwrap();
/// assert_eq!((found.regex_set().len(), found.haystack(), found.start()), (2, "-ab", 1));
/// ```
pub struct RegexSetMatchesAt<'r, 't, S: Input + ?Sized = str> {
    set: &'r RegexSet,
    haystack: &'t S,
    start: usize,
    groups: Peekable<vec::IntoIter<raw::Member>>,
}

impl<'r, 't, S: Input + ?Sized> RegexSetMatchesAt<'r, 't, S> {
    /// The set.
    ///
    /// ```
    /// use proved_fancy_regex::{RegexInput, RegexSet};
    ///
    /// let set = RegexSet::new([r"a\Kb", "b"]).unwrap();
    /// let found = set.find_input(RegexInput::new("-ab")).unwrap().unwrap();
    /// assert_eq!(found.regex_set().len(), 2);
    /// ```
    pub fn regex_set(&self) -> &'r RegexSet {
        self.set
    }

    /// The searched input.
    ///
    /// ```
    /// use proved_fancy_regex::{RegexInput, RegexSet};
    ///
    /// let set = RegexSet::new([r"a\Kb", "b"]).unwrap();
    /// let found = set.find_input(RegexInput::new("-ab")).unwrap().unwrap();
    /// assert_eq!(found.haystack(), "-ab");
    /// ```
    pub fn haystack(&self) -> &'t S {
        self.haystack
    }

    /// The byte offset at which the members match. By `\K` a match may start later.
    ///
    /// ```
    /// use proved_fancy_regex::{RegexInput, RegexSet};
    ///
    /// let set = RegexSet::new([r"a\Kb", "b"]).unwrap();
    /// let found = set.find_input(RegexInput::new("-ab")).unwrap().unwrap();
    /// assert_eq!(found.start(), 1);
    /// ```
    pub fn start(&self) -> usize {
        self.start
    }
}

impl<'t, S: Input + ?Sized> Iterator for RegexSetMatchesAt<'_, 't, S> {
    type Item = Result<RegexSetMatch<'t, S>>;

    fn next(&mut self) -> Option<Result<RegexSetMatch<'t, S>>> {
        let pattern = self.groups.peek()?.pattern;
        let mut spans = Vec::new();
        while let Some(group) = self.groups.next_if(|group| group.pattern == pattern) {
            spans.push(group.span());
        }
        let names = match self.set.compiled.members[pattern].names(spans.len()) {
            Ok(names) => names,
            Err(error) => return Some(Err(error)),
        };
        Some(Ok(RegexSetMatch {
            pattern,
            groups: Captures::new(self.haystack, spans, names),
        }))
    }
}

impl<S: Input + ?Sized> FusedIterator for RegexSetMatchesAt<'_, '_, S> {}

impl<S: Input + ?Sized> Clone for RegexSetMatchesAt<'_, '_, S> {
    fn clone(&self) -> Self {
        RegexSetMatchesAt {
            set: self.set,
            haystack: self.haystack,
            start: self.start,
            groups: self.groups.clone(),
        }
    }
}

impl<S: Input + fmt::Debug + ?Sized> fmt::Debug for RegexSetMatchesAt<'_, '_, S> {
    fn fmt(&self, f: &mut fmt::Formatter<'_>) -> fmt::Result {
        f.debug_struct("RegexSetMatchesAt")
            .field("regex_set", &self.set)
            .field("haystack", &self.haystack)
            .field("start", &self.start)
            .finish_non_exhaustive()
    }
}
