use std::fmt;

/// Why a call failed. What it was called on is unchanged and can be used again.
///
/// ```
/// use proved_fancy_regex::{Error, ParseError, Regex};
///
/// match Regex::new("a)").unwrap_err() {
///     Error::ParseError(position, ParseError::GeneralParseError(text)) => {
///         assert_eq!((position, text.as_str()), (1, "end of string not reached"));
///     }
///     other => panic!("{other}"),
/// }
/// ```
#[derive(Clone, Debug, PartialEq, Eq)]
#[non_exhaustive]
pub enum Error {
    /// The text is no pattern: the byte offset of its first error, and that error.
    ParseError(usize, ParseError),
    /// The pattern cannot be compiled.
    CompileError(Box<CompileError>),
    /// The search gave no answer.
    RuntimeError(RuntimeError),
    /// Memory ran out.
    Memory,
}

/// The result of a call that can fail.
///
/// ```
/// fn has_word(text: &str) -> proved_fancy_regex::Result<bool> {
///     proved_fancy_regex::Regex::new(r"\w")?.is_match(text)
/// }
/// assert!(has_word("a").unwrap());
/// ```
pub type Result<T> = std::result::Result<T, Error>;

/// Why a text is no pattern.
///
/// ```
/// use proved_fancy_regex::{Error, ParseError, Regex};
///
/// let error = Regex::new("(a|b").unwrap_err();
/// assert!(matches!(error, Error::ParseError(_, ParseError::UnclosedOpenParen)));
/// ```
#[derive(Clone, Debug, PartialEq, Eq)]
#[non_exhaustive]
pub enum ParseError {
    /// Another error, with its text.
    GeneralParseError(String),
    /// An opening parenthesis is not closed.
    UnclosedOpenParen,
    /// Never answered: braces that are no quantifier are characters.
    InvalidRepeat,
    /// The pattern is nested too deeply.
    RecursionExceeded,
    /// The pattern ends in a backslash.
    TrailingBackslash,
    /// There is no such escape; the text is the escape.
    InvalidEscape(String),
    /// The name of a Unicode property is not closed.
    UnclosedUnicodeName,
    /// A hexadecimal escape is malformed.
    InvalidHex,
    /// A number is not that of a character.
    InvalidCodepointValue,
    /// A character class is malformed.
    InvalidClass,
    /// There is no such flag of a group; the text is the group.
    UnknownFlag(String),
    /// A flag `u` against the builder's option `unicode_mode`, which holds for the whole pattern.
    ChangingUnicodeModeUnsupported,
    /// A back reference is malformed.
    InvalidBackref,
    /// A quantifier follows what cannot be repeated.
    TargetNotRepeatable,
    /// The name of a group is malformed.
    InvalidGroupName,
    /// A reference names a group that is not there; the text is the name.
    InvalidGroupNameBackref(String),
}

/// Why a pattern cannot be compiled, or a template not be used.
///
/// ```
/// use proved_fancy_regex::{CompileError, Error, RegexBuilder};
///
/// let built = RegexBuilder::new(r"(a\g<1>?b)").max_prog_size(20).build();
/// let Err(Error::CompileError(cause)) = built else { panic!() };
/// assert_eq!(*cause, CompileError::PatternTooComplex);
/// ```
#[derive(Clone, Debug, PartialEq, Eq)]
#[non_exhaustive]
pub enum CompileError {
    /// A character class is refused; the text is the class.
    InnerError(String),
    /// The body of a look-behind has no fixed length, and is no alternation of bodies that have.
    LookBehindNotConst,
    /// Never answered: a look-behind of variable length is `LookBehindNotConst`.
    VariableLookBehindRequiresFeature,
    /// Never answered, since there are no automata to build.
    DfaBuildError(String, String),
    /// Never answered: it is a [`ParseError`].
    InvalidGroupName,
    /// A template names a group that is not there; the text is the name.
    InvalidGroupNameBackref(String),
    /// A back reference, a condition or a template has a number that no group has.
    InvalidBackref(usize),
    /// A reference goes by number where groups have names, which the option or the template does not allow.
    NamedBackrefOnly,
    /// The pattern or an option asks for something that is not there; the text names it.
    FeatureNotYetSupported(String),
    /// A call of a group that is not there; the text is the name or the number.
    SubroutineCallTargetNotFound(String),
    /// The group with this number can call itself before it matches a character.
    LeftRecursiveSubroutineCall(usize),
    /// Every way through the pattern calls the pattern again.
    NeverEndingRecursion,
    /// Empty matches are excluded, and the pattern has no others.
    PatternCanNeverMatch,
    /// The pattern is too large, or its program larger than `max_prog_size`.
    PatternTooComplex,
    /// The lower bound of a quantifier is above its upper one.
    RepeatBoundsReversed,
    /// Another error, with its text.
    UnexpectedGeneralError(String),
}

/// Why a search gave no answer.
///
/// ```
/// use proved_fancy_regex::{Error, RegexBuilder, RuntimeError};
///
/// let regex = RegexBuilder::new(r"(a|aa)+\1\z").backtrack_limit(10).build().unwrap();
/// let error = regex.find("aaaaaaaaaaaab").unwrap_err();
/// assert_eq!(error, Error::RuntimeError(RuntimeError::BacktrackLimitExceeded));
/// ```
#[derive(Clone, Debug, PartialEq, Eq)]
#[non_exhaustive]
pub enum RuntimeError {
    /// The search held more than 1,000,000 branches open.
    StackOverflow,
    /// The search went back more often than the builder's `backtrack_limit` allows.
    BacktrackLimitExceeded,
    /// The searched bytes are not UTF-8.
    NotUtf8,
    /// The search begins inside a character.
    InsideCharacter,
    /// The input asks for something that the library cannot be asked for; the text names it.
    InputNotSupported(&'static str),
}

impl ParseError {
    /// The error with this text, which may stand after its place.
    pub(crate) fn of(text: &str) -> ParseError {
        let text = match text.strip_prefix("Parsing error at position ") {
            Some(placed) => placed.split_once(": ").map_or("", |(_, text)| text),
            None => text,
        };
        let (words, payload) = parts(text);
        match words {
            "General parsing error" => ParseError::GeneralParseError(payload.to_string()),
            "Opening parenthesis without closing parenthesis" => ParseError::UnclosedOpenParen,
            "Invalid repeat syntax" => ParseError::InvalidRepeat,
            "Pattern too deeply nested" => ParseError::RecursionExceeded,
            "Backslash without following character" => ParseError::TrailingBackslash,
            "Invalid escape" => ParseError::InvalidEscape(payload.to_string()),
            "Unicode escape not closed" => ParseError::UnclosedUnicodeName,
            "Invalid hex escape" => ParseError::InvalidHex,
            "Invalid codepoint for hex or unicode escape" => ParseError::InvalidCodepointValue,
            "Invalid character class" => ParseError::InvalidClass,
            "Unknown group flag" => ParseError::UnknownFlag(payload.to_string()),
            "Changing Unicode mode is not supported" => ParseError::ChangingUnicodeModeUnsupported,
            "Invalid back reference" => ParseError::InvalidBackref,
            "Target of repeat operator is invalid" => ParseError::TargetNotRepeatable,
            "Could not parse group name" => ParseError::InvalidGroupName,
            "Invalid group name in back reference" => {
                ParseError::InvalidGroupNameBackref(payload.to_string())
            }
            _ => ParseError::GeneralParseError(text.to_string()),
        }
    }
}

impl CompileError {
    /// The error with this text.
    pub(crate) fn of(text: &str) -> CompileError {
        let text = text.strip_prefix(COMPILING).unwrap_or(text);
        let (words, payload) = parts(text);
        let other = || CompileError::UnexpectedGeneralError(text.to_string());
        let numbered =
            |with: fn(usize) -> CompileError| payload.parse().map_or_else(|_| other(), with);
        match words {
            "inner error" => CompileError::InnerError(payload.to_string()),
            "look behind not const" => CompileError::LookBehindNotConst,
            "invalid group name backref" => {
                CompileError::InvalidGroupNameBackref(payload.to_string())
            }
            "invalid backref" => numbered(CompileError::InvalidBackref),
            "named backref only" => CompileError::NamedBackrefOnly,
            "feature not yet supported" => {
                CompileError::FeatureNotYetSupported(payload.to_string())
            }
            "subroutine call target not found" => {
                CompileError::SubroutineCallTargetNotFound(payload.to_string())
            }
            "left recursive subroutine call" => numbered(CompileError::LeftRecursiveSubroutineCall),
            "never ending recursion" => CompileError::NeverEndingRecursion,
            "pattern can never match" => CompileError::PatternCanNeverMatch,
            "pattern too complex" => CompileError::PatternTooComplex,
            "repeat bounds reversed" => CompileError::RepeatBoundsReversed,
            _ => other(),
        }
    }
}

impl RuntimeError {
    /// The limit that this text names.
    pub(crate) fn of(text: &str) -> RuntimeError {
        if text.ends_with("stack overflow") {
            RuntimeError::StackOverflow
        } else {
            RuntimeError::BacktrackLimitExceeded
        }
    }
}

/// The words of an error's text, and what stands after them.
fn parts(text: &str) -> (&str, &str) {
    text.split_once(": ").unwrap_or((text, ""))
}

/// How the text of a [`CompileError`] begins where it stands alone.
const COMPILING: &str = "Error compiling regex: ";

impl From<CompileError> for Error {
    fn from(cause: CompileError) -> Error {
        Error::CompileError(Box::new(cause))
    }
}

impl From<RuntimeError> for Error {
    fn from(cause: RuntimeError) -> Error {
        Error::RuntimeError(cause)
    }
}

impl fmt::Display for Error {
    fn fmt(&self, f: &mut fmt::Formatter<'_>) -> fmt::Result {
        match self {
            Error::ParseError(position, cause) => {
                write!(f, "Parsing error at position {position}: {cause}")
            }
            Error::CompileError(cause) => write!(f, "{COMPILING}{cause}"),
            Error::RuntimeError(cause) => write!(f, "Error executing regex: {cause}"),
            Error::Memory => f.write_str("Out of memory"),
        }
    }
}

impl fmt::Display for ParseError {
    fn fmt(&self, f: &mut fmt::Formatter<'_>) -> fmt::Result {
        f.write_str(match self {
            ParseError::GeneralParseError(text) => {
                return write!(f, "General parsing error: {text}")
            }
            ParseError::InvalidEscape(text) => return write!(f, "Invalid escape: {text}"),
            ParseError::UnknownFlag(text) => return write!(f, "Unknown group flag: {text}"),
            ParseError::InvalidGroupNameBackref(name) => {
                return write!(f, "Invalid group name in back reference: {name}")
            }
            ParseError::UnclosedOpenParen => "Opening parenthesis without closing parenthesis",
            ParseError::InvalidRepeat => "Invalid repeat syntax",
            ParseError::RecursionExceeded => "Pattern too deeply nested",
            ParseError::TrailingBackslash => "Backslash without following character",
            ParseError::UnclosedUnicodeName => "Unicode escape not closed",
            ParseError::InvalidHex => "Invalid hex escape",
            ParseError::InvalidCodepointValue => "Invalid codepoint for hex or unicode escape",
            ParseError::InvalidClass => "Invalid character class",
            ParseError::ChangingUnicodeModeUnsupported => "Changing Unicode mode is not supported",
            ParseError::InvalidBackref => "Invalid back reference",
            ParseError::TargetNotRepeatable => "Target of repeat operator is invalid",
            ParseError::InvalidGroupName => "Could not parse group name",
        })
    }
}

impl fmt::Display for CompileError {
    fn fmt(&self, f: &mut fmt::Formatter<'_>) -> fmt::Result {
        f.write_str(match self {
            CompileError::InnerError(class) => return write!(f, "inner error: {class}"),
            CompileError::DfaBuildError(patterns, text) => {
                return write!(f, "dfa build error: {patterns}: {text}")
            }
            CompileError::InvalidGroupNameBackref(name) => {
                return write!(f, "invalid group name backref: {name}")
            }
            CompileError::InvalidBackref(number) => return write!(f, "invalid backref: {number}"),
            CompileError::FeatureNotYetSupported(name) => {
                return write!(f, "feature not yet supported: {name}")
            }
            CompileError::SubroutineCallTargetNotFound(target) => {
                return write!(f, "subroutine call target not found: {target}")
            }
            CompileError::LeftRecursiveSubroutineCall(number) => {
                return write!(f, "left recursive subroutine call: {number}")
            }
            CompileError::UnexpectedGeneralError(text) => {
                return write!(f, "unexpected general error: {text}")
            }
            CompileError::LookBehindNotConst => "look behind not const",
            CompileError::VariableLookBehindRequiresFeature => {
                "variable look behind requires feature"
            }
            CompileError::InvalidGroupName => "invalid group name",
            CompileError::NamedBackrefOnly => "named backref only",
            CompileError::NeverEndingRecursion => "never ending recursion",
            CompileError::PatternCanNeverMatch => "pattern can never match",
            CompileError::PatternTooComplex => "pattern too complex",
            CompileError::RepeatBoundsReversed => "repeat bounds reversed",
        })
    }
}

impl fmt::Display for RuntimeError {
    fn fmt(&self, f: &mut fmt::Formatter<'_>) -> fmt::Result {
        f.write_str(match self {
            RuntimeError::StackOverflow => "stack overflow",
            RuntimeError::BacktrackLimitExceeded => "backtrack limit exceeded",
            RuntimeError::NotUtf8 => "text not UTF-8",
            RuntimeError::InsideCharacter => "search begins inside a character",
            RuntimeError::InputNotSupported(what) => {
                return write!(f, "input not supported: {what}")
            }
        })
    }
}

impl std::error::Error for Error {}
impl std::error::Error for ParseError {}
impl std::error::Error for CompileError {}
impl std::error::Error for RuntimeError {}

#[cfg(test)]
mod tests {
    use super::*;

    #[test]
    fn texts_that_no_table_has_are_kept() {
        let text = ParseError::of("Parsing error at position 3: Something new: x");
        assert_eq!(text.to_string(), "General parsing error: Something new: x");
        let text = CompileError::of("Error compiling regex: invalid backref: many");
        let wanted = "unexpected general error: invalid backref: many";
        assert_eq!(text.to_string(), wanted);
    }
}
