use crate::byte_set::ByteSet;
use crate::error::{CompileError, Result};
use crate::raw::Options;
use crate::regex::Regex;

/// What the bytes of an input are. The library searches UTF-8 alone: a pattern is compiled in the mode `Unicode`, and in no other.
///
/// ```
/// use proved_fancy_regex::{BytesMode, RegexBuilder};
///
/// let mut builder = RegexBuilder::new("a");
/// assert!(builder.bytes_mode(BytesMode::Unicode).build().is_ok());
/// assert!(builder.bytes_mode(BytesMode::Ascii).build().is_err());
/// ```
#[derive(Clone, Copy, Debug, Default, PartialEq, Eq)]
pub enum BytesMode {
    /// UTF-8, with the classes of Unicode.
    #[default]
    Unicode,
    /// Any bytes, with the classes of ASCII. Not there: a build is refused.
    Ascii,
    /// Any bytes, with the classes of Unicode. Not there: a build is refused.
    UnicodeBytes,
}

/// The options of patterns to compile.
///
/// ```
/// use proved_fancy_regex::RegexOptionsBuilder;
///
/// let mut options = RegexOptionsBuilder::new();
/// let any_case = options.case_insensitive(true).build("a".to_string()).unwrap();
/// assert!(any_case.is_match("A").unwrap());
/// ```
#[derive(Clone, Debug)]
pub struct RegexOptionsBuilder {
    pub(crate) options: Options,
    pub(crate) overrides_assertions: bool,
    no_empty_last_line: bool,
    mode: BytesMode,
}

impl Default for RegexOptionsBuilder {
    fn default() -> RegexOptionsBuilder {
        RegexOptionsBuilder::new()
    }
}

impl RegexOptionsBuilder {
    /// The default options.
    ///
    /// ```
    /// let options = proved_fancy_regex::RegexOptionsBuilder::new();
    /// assert!(!options.build("a".into()).unwrap().is_match("A").unwrap());
    /// ```
    pub fn new() -> RegexOptionsBuilder {
        RegexOptionsBuilder {
            options: Options::DEFAULT,
            overrides_assertions: false,
            no_empty_last_line: false,
            mode: BytesMode::Unicode,
        }
    }

    /// Compiles a pattern.
    ///
    /// ```
    /// let options = proved_fancy_regex::RegexOptionsBuilder::new();
    /// assert_eq!(options.build("a+".to_string()).unwrap().as_str(), "a+");
    /// ```
    ///
    /// # Errors
    ///
    /// `ParseError` where the text is no pattern, `CompileError` where the pattern cannot be compiled with these options, and `Memory`
    /// where memory runs out.
    pub fn build(&self, pattern: String) -> Result<Regex> {
        Regex::with_options(pattern, self)
    }

    /// The bytes that the matches of a pattern start with, if it is compiled with these options; `None` if a match may be empty, or
    /// if the bytes are not known. The pattern is not compiled.
    ///
    /// ```
    /// let options = proved_fancy_regex::RegexOptionsBuilder::new();
    /// let set = options.start_bytes("fn|let|impl").unwrap().unwrap();
    /// assert_eq!(set.iter().collect::<Vec<_>>(), [b'f', b'i', b'l']);
    /// assert!(options.start_bytes("a?").unwrap().is_none());
    /// ```
    ///
    /// # Errors
    ///
    /// As those of [`RegexOptionsBuilder::build`], but only of what is read before a pattern is compiled.
    pub fn start_bytes(&self, pattern: &str) -> Result<Option<ByteSet>> {
        let set = ByteSet::start(pattern, &self.options)?;
        self.check().map(|()| set)
    }

    /// Bytes that each text has in which the pattern matches, if it is compiled with these options; none are known of a part that may
    /// be left out. The pattern is not compiled.
    ///
    /// ```
    /// let options = proved_fancy_regex::RegexOptionsBuilder::new();
    /// let set = options.required_bytes("a?b").unwrap();
    /// assert_eq!(set.iter().collect::<Vec<_>>(), [b'b']);
    /// ```
    ///
    /// # Errors
    ///
    /// As those of [`RegexOptionsBuilder::start_bytes`].
    pub fn required_bytes(&self, pattern: &str) -> Result<ByteSet> {
        let set = ByteSet::required(pattern, &self.options)?;
        self.check().map(|()| set)
    }

    /// Whether a search with a prefilter is prepared. It changes nothing here: there are no prefilters of automata.
    ///
    /// ```
    /// let mut options = proved_fancy_regex::RegexOptionsBuilder::new();
    /// assert!(options.build_delegate_prefilter(false).build("a".into()).is_ok());
    /// ```
    pub fn build_delegate_prefilter(&mut self, _yes: bool) -> &mut RegexOptionsBuilder {
        self
    }

    /// Refuses the options that the library does not have.
    pub(crate) fn check(&self) -> Result<()> {
        let missing = if self.mode != BytesMode::Unicode {
            "bytes mode"
        } else if self.no_empty_last_line {
            "no empty match after the last newline"
        } else {
            return Ok(());
        };
        Err(CompileError::FeatureNotYetSupported(missing.to_string()).into())
    }
}

/// A pattern to compile, and its options.
///
/// ```
/// use proved_fancy_regex::RegexBuilder;
///
/// let regex = RegexBuilder::new("a").case_insensitive(true).build().unwrap();
/// assert!(regex.is_match("A").unwrap());
/// ```
#[derive(Clone, Debug)]
pub struct RegexBuilder {
    pattern: String,
    options: RegexOptionsBuilder,
}

impl RegexBuilder {
    /// The default options for this pattern.
    ///
    /// ```
    /// assert!(proved_fancy_regex::RegexBuilder::new("(a").build().is_err());
    /// ```
    pub fn new(pattern: &str) -> RegexBuilder {
        RegexBuilder {
            pattern: pattern.to_string(),
            options: RegexOptionsBuilder::new(),
        }
    }

    /// Takes another pattern.
    ///
    /// ```
    /// let mut builder = proved_fancy_regex::RegexBuilder::new("a");
    /// assert_eq!(builder.pattern("b".to_string()).build().unwrap().as_str(), "b");
    /// ```
    pub fn pattern(&mut self, pattern: String) -> &mut RegexBuilder {
        self.pattern = pattern;
        self
    }

    /// Compiles the pattern.
    ///
    /// ```
    /// assert_eq!(proved_fancy_regex::RegexBuilder::new("a+").build().unwrap().as_str(), "a+");
    /// ```
    ///
    /// # Errors
    ///
    /// `ParseError` where the text is no pattern, `CompileError` where the pattern cannot be compiled with these options, and `Memory`
    /// where memory runs out.
    pub fn build(&self) -> Result<Regex> {
        self.options.build(self.pattern.clone())
    }
}

/// Whether a pattern that is derived from another one is worth a search of its own. There are no such patterns here, so nothing asks it;
/// it is there to be named in [`RegexOptionsBuilder::seek_filter`]. True for each pattern that is not empty.
///
/// ```
/// assert!(proved_fancy_regex::seek_pattern_is_useful("a"));
/// ```
pub fn seek_pattern_is_useful(pattern: &str) -> bool {
    !pattern.is_empty()
}

/// Setters of both builders: the docs, the name, the parameter and its type, and what is done to the options.
macro_rules! setters {
    ($($(#[$doc:meta])* $name:ident($value:ident: $kind:ty) |$to:ident| $set:expr;)*) => {
        impl RegexOptionsBuilder {
            $($(#[$doc])* pub fn $name(&mut self, $value: $kind) -> &mut RegexOptionsBuilder {
                let $to = self;
                $set;
                $to
            })*
        }

        impl RegexBuilder {
            $(
                #[doc = concat!("See [`RegexOptionsBuilder::", stringify!($name), "`].")]
                pub fn $name(&mut self, $value: $kind) -> &mut RegexBuilder {
                    self.options.$name($value);
                    self
                }
            )*
        }
    };
}

setters! {
    /// Upper and lower case are the same, as after `(?i)`. The default is false.
    ///
    /// ```
    /// let regex = proved_fancy_regex::RegexBuilder::new("é").case_insensitive(true).build().unwrap();
    /// assert!(regex.is_match("É").unwrap());
    /// ```
    case_insensitive(yes: bool) |to| to.options.case_insensitive = yes;

    /// `^` and `$` match at each line, as after `(?m)`. The default is false: they match at the start and the end of the text.
    ///
    /// ```
    /// let regex = proved_fancy_regex::RegexBuilder::new("^b$").multi_line(true).build().unwrap();
    /// assert!(regex.is_match("a\nb\nc").unwrap());
    /// ```
    multi_line(yes: bool) |to| to.options.multi_line = yes;

    /// Blanks in the pattern are skipped, and comments from `#` to the end of the line, as after `(?x)`. The default is false.
    ///
    /// ```
    /// let regex = proved_fancy_regex::RegexBuilder::new("a b # c").ignore_whitespace(true).build().unwrap();
    /// assert!(regex.is_match("ab").unwrap());
    /// ```
    ignore_whitespace(yes: bool) |to| to.options.ignore_whitespace = yes;

    /// Another name for [`RegexOptionsBuilder::ignore_whitespace`].
    ///
    /// ```
    /// let regex = proved_fancy_regex::RegexBuilder::new("a b").verbose_mode(true).build().unwrap();
    /// assert!(regex.is_match("ab").unwrap());
    /// ```
    verbose_mode(yes: bool) |to| to.options.ignore_whitespace = yes;

    /// `.` matches a newline too, as after `(?s)`. The default is false.
    ///
    /// ```
    /// let regex = proved_fancy_regex::RegexBuilder::new("a.b").dot_matches_new_line(true).build().unwrap();
    /// assert!(regex.is_match("a\nb").unwrap());
    /// ```
    dot_matches_new_line(yes: bool) |to| to.options.dot_matches_new_line = yes;

    /// A carriage return ends a line too, as after `(?R)`, and `\r\n` ends one line and not two. So with `multi_line` `$` matches before
    /// `\r\n` and before a lone `\r`, and never between the two, and `^` matches after them; `.` matches neither `\r` nor `\n`; `\Z`
    /// passes over `\r\n` at the end. The default is false: `\n` alone ends a line.
    ///
    /// ```
    /// use proved_fancy_regex::RegexBuilder;
    ///
    /// let mut builder = RegexBuilder::new("^b$");
    /// builder.multi_line(true);
    /// assert!(!builder.build().unwrap().is_match("a\r\nb\r\nc").unwrap());
    /// assert!(builder.crlf(true).build().unwrap().is_match("a\r\nb\r\nc").unwrap());
    /// ```
    crlf(yes: bool) |to| to.options.crlf = yes;

    /// Classes and cases are those of Unicode; that is the default. With false they are those of ASCII:
    ///
    /// - `\w` is `[0-9A-Za-z_]`, `\d` is `[0-9]` and `\s` is the ASCII white space; `\b` goes by that `\w`, and only ASCII letters have
    ///   two cases
    /// - a class is what the crate `regex` reads after `(?-u)`: one that could match a part of a character, as `\W` and `[^a]`, or that has
    ///   characters past ASCII, as `[é]` and `\p{L}`, is `CompileError::InnerError`
    /// - `.` and literal characters still match whole characters
    ///
    /// A flag `u` inside the pattern that says the other is `ParseError::ChangingUnicodeModeUnsupported`.
    ///
    /// ```
    /// use proved_fancy_regex::RegexBuilder;
    ///
    /// let mut builder = RegexBuilder::new(r"\w+");
    /// assert_eq!(builder.build().unwrap().find("aé").unwrap().unwrap().as_str(), "aé");
    /// assert_eq!(builder.unicode_mode(false).build().unwrap().find("aé").unwrap().unwrap().as_str(), "a");
    /// ```
    unicode_mode(yes: bool) |to| to.options.unicode_mode = yes;

    /// How often one search may go back: the default is 1,000,000. A search that would go back more often is
    /// `RuntimeError::BacktrackLimitExceeded`, unless the pattern has states that answer then. Patterns without look-around, references
    /// and the like go never back.
    ///
    /// ```
    /// use proved_fancy_regex::{Error, RegexBuilder, RuntimeError};
    ///
    /// let regex = RegexBuilder::new(r"(a|b|ab)*\1c").backtrack_limit(100).build().unwrap();
    /// let error = regex.find("abababababababab").unwrap_err();
    /// assert!(matches!(error, Error::RuntimeError(RuntimeError::BacktrackLimitExceeded)));
    /// ```
    backtrack_limit(limit: usize) |to| to.options.backtrack_limit = limit;

    /// The most instructions that the program of a pattern may have; without a call there is no such cap. A pattern of a longer program is
    /// `CompileError::PatternTooComplex`. Under a cap calls of groups are written out in place,
    /// so programs of short patterns can be large.
    ///
    /// ```
    /// use proved_fancy_regex::RegexBuilder;
    ///
    /// assert!(RegexBuilder::new(r"(a\g<1>?b)").max_prog_size(20).build().is_err());
    /// ```
    max_prog_size(limit: usize) |to| {
        to.options.has_max_prog_size = true;
        to.options.max_prog_size = limit
    };

    /// No empty match is found. The default is false. A pattern that has only empty matches is `CompileError::PatternCanNeverMatch`.
    ///
    /// ```
    /// let regex = proved_fancy_regex::RegexBuilder::new("a*").find_not_empty(true).build().unwrap();
    /// assert_eq!(regex.find("ba").unwrap().unwrap().range(), 1..2);
    /// ```
    find_not_empty(yes: bool) |to| to.options.find_not_empty = yes;

    /// The longest match at a place is found, not the first. The default is false.
    ///
    /// ```
    /// let regex = proved_fancy_regex::RegexBuilder::new("a|ab").leftmost_longest(true).build().unwrap();
    /// assert_eq!(regex.find("ab").unwrap().unwrap().as_str(), "ab");
    /// ```
    leftmost_longest(yes: bool) |to| to.options.leftmost_longest = yes;

    /// Groups without a name do not capture if the pattern has a group with one, and references by number are refused then. The default
    /// is false.
    ///
    /// ```
    /// use proved_fancy_regex::RegexBuilder;
    ///
    /// let mut builder = RegexBuilder::new("(?<a>.)(.)");
    /// builder.ignore_numbered_groups_when_named_groups_exist(true);
    /// assert_eq!(builder.build().unwrap().captures_len(), 2);
    /// ```
    ignore_numbered_groups_when_named_groups_exist(yes: bool) |to| to.options.ignore_numbered_groups = yes;

    /// Places at which no match can start are skipped: those without one of the pattern's start bytes. The matches are the same. The
    /// default is false.
    ///
    /// ```
    /// let regex = proved_fancy_regex::RegexBuilder::new(r"(\d)\1").seek(true).build().unwrap();
    /// assert_eq!(regex.find("a12b33").unwrap().unwrap().start(), 4);
    /// ```
    seek(yes: bool) |to| to.options.seek = yes;

    /// As `seek(true)`. The filter is not asked, since no pattern is derived here.
    ///
    /// ```
    /// use proved_fancy_regex::{seek_pattern_is_useful, RegexBuilder};
    ///
    /// let regex = RegexBuilder::new(r"(\d)\1").seek_filter(seek_pattern_is_useful).build().unwrap();
    /// assert_eq!(regex.find("a12b33").unwrap().unwrap().start(), 4);
    /// ```
    seek_filter(_filter: fn(&str) -> bool) |to| to.options.seek = true;

    /// The pattern is read in a dialect that is close to Oniguruma's. It is not Oniguruma's: the page COMING-FROM lists what else
    /// differs. The default is false. In this mode:
    ///
    /// - `\<` and `\>` are the characters `<` and `>`, and not the start and the end of a word
    /// - a quantifier after an empty group, as in `(?:)+`, is dropped, and no error
    /// - a quantifier with its bounds the other way round, as `x{3,0}`, is taken as `x{0,3}` and never gives back what it took
    /// - a quantifier after a quantifier repeats the whole before it: `a{3}{2}` is `(?:a{3}){2}`. So `+` after `{..}` repeats, where it
    ///   otherwise means that nothing is given back; five quantifiers may follow one another
    /// - `^` with `multi_line` does not match at the end of a text whose last character is a newline, but inside look-around it does
    ///
    /// ```
    /// use proved_fancy_regex::{Regex, RegexBuilder};
    ///
    /// let text = "turbo::<Fish>";
    /// let words = Regex::new(r"\<\w*\>").unwrap();
    /// assert_eq!(words.find(text).unwrap().unwrap().as_str(), "turbo");
    /// let signs = RegexBuilder::new(r"\<\w*\>").oniguruma_mode(true).build().unwrap();
    /// assert_eq!(signs.find(text).unwrap().unwrap().as_str(), "<Fish>");
    /// ```
    oniguruma_mode(yes: bool) |to| to.options.oniguruma_mode = yes;

    /// What the bytes of an input are. A build in another mode than [`BytesMode::Unicode`] is `CompileError::FeatureNotYetSupported`.
    ///
    /// ```
    /// use proved_fancy_regex::{BytesMode, RegexBuilder};
    ///
    /// assert!(RegexBuilder::new("a").bytes_mode(BytesMode::Ascii).build().is_err());
    /// ```
    bytes_mode(mode: BytesMode) |to| to.mode = mode;

    /// No empty match is found after a newline that ends the text. With true a build is `CompileError::FeatureNotYetSupported`.
    ///
    /// ```
    /// let mut builder = proved_fancy_regex::RegexBuilder::new("$");
    /// assert!(builder.disallow_empty_match_at_eof_after_newline(true).build().is_err());
    /// ```
    disallow_empty_match_at_eof_after_newline(yes: bool) |to| to.no_empty_last_line = yes;

    /// [`RegexInput::start_text`](crate::RegexInput::start_text) and [`RegexInput::end_text`](crate::RegexInput::end_text) are heeded. The
    /// library cannot be asked for that, so a search of an input that uses them is `RuntimeError::InputNotSupported`. With false, the
    /// default, such an input is searched as if it did not.
    ///
    /// ```
    /// use proved_fancy_regex::{RegexBuilder, RegexInput};
    ///
    /// let regex = RegexBuilder::new(r"\Aa").allow_input_assertion_overrides(true).build().unwrap();
    /// assert!(regex.is_match_input(RegexInput::new("a")).unwrap());
    /// assert!(regex.is_match_input(RegexInput::new("a").start_text(false)).is_err());
    /// ```
    allow_input_assertion_overrides(yes: bool) |to| to.overrides_assertions = yes;

    /// How large delegated parts of a pattern may be. It changes nothing here: no part is delegated, and `max_prog_size` is the cap.
    ///
    /// ```
    /// assert!(proved_fancy_regex::RegexBuilder::new("a").delegate_size_limit(1).build().is_ok());
    /// ```
    delegate_size_limit(_limit: usize) |to| {};

    /// How large the automata of delegated parts may be. It changes nothing here: there are none.
    ///
    /// ```
    /// assert!(proved_fancy_regex::RegexBuilder::new("a").delegate_dfa_size_limit(1).build().is_ok());
    /// ```
    delegate_dfa_size_limit(_limit: usize) |to| {};

    /// Whether the automata of look-behinds may be larger. It changes nothing here: there are none.
    ///
    /// ```
    /// let mut builder = proved_fancy_regex::RegexBuilder::new("a");
    /// assert!(builder.delegate_dfa_skip_cache_capacity_check(false).build().is_ok());
    /// ```
    delegate_dfa_skip_cache_capacity_check(_yes: bool) |to| {};
}
