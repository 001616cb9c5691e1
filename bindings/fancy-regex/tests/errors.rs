//! Uses of the API of fancy-regex 0.20.0, one function for each: errors.

use fancy_regex::{
    CompileError, Error, Expander, ParseError, Regex, RegexBuilder, RegexInput,
    RegexOptionsBuilder, RegexSet, Result, RuntimeError,
};

#[test]
fn result_is_an_alias() {
    fn word(text: &str) -> Result<bool> {
        Regex::new(r"\w")?.is_match(text)
    }
    assert!(word("a").unwrap());
}

#[test]
fn error_is_boxed() {
    fn build(
        pattern: &str,
    ) -> std::result::Result<Regex, Box<dyn std::error::Error + Send + Sync>> {
        Ok(Regex::new(pattern)?)
    }
    assert!(build("(").is_err());
}

#[test]
fn error_is_an_error() {
    fn text(error: &dyn std::error::Error) -> String {
        error.to_string()
    }
    assert!(text(&Regex::new("(").unwrap_err()).starts_with("Parsing error at position 1"));
}

#[test]
fn error_shows_itself() {
    assert!(format!("{:?}", Regex::new("(").unwrap_err()).contains("ParseError"));
}

#[test]
fn error_is_cloned_and_sent() {
    fn sent<T: Clone + Send + Sync + 'static>(value: &T) -> T {
        value.clone()
    }
    assert!(matches!(
        sent(&Regex::new("(").unwrap_err()),
        Error::ParseError(..)
    ));
}

#[test]
fn error_of_parsing_has_a_position() {
    match Regex::new("ab)").unwrap_err() {
        Error::ParseError(position, ParseError::GeneralParseError(text)) => {
            let (position, text): (usize, String) = (position, text);
            assert!(position == 2 && !text.is_empty());
        }
        other => panic!("{other}"),
    }
}

#[test]
fn error_of_compiling_is_boxed() {
    match Regex::new("(?<=a+)b").unwrap_err() {
        Error::CompileError(cause) => {
            let cause: Box<CompileError> = cause;
            assert!(matches!(*cause, CompileError::LookBehindNotConst));
        }
        other => panic!("{other}"),
    }
}

#[test]
fn error_of_running() {
    let re = RegexBuilder::new(r"(a|aa)+\1b")
        .backtrack_limit(10)
        .build()
        .unwrap();
    let error = re.find(&"a".repeat(30)[..]).unwrap_err();
    assert!(matches!(
        error,
        Error::RuntimeError(RuntimeError::BacktrackLimitExceeded)
    ));
}

#[test]
fn error_of_iterating() {
    let re = RegexBuilder::new(r"(a|aa)+\1b")
        .backtrack_limit(10)
        .build()
        .unwrap();
    let text = "a".repeat(30);
    let mut found = re.find_iter(&text[..]);
    assert!(matches!(found.next(), Some(Err(Error::RuntimeError(_)))));
    assert!(found.next().is_none());
}

#[test]
fn error_of_a_set() {
    let mut options = RegexOptionsBuilder::new();
    options.backtrack_limit(10);
    let set = RegexSet::new_with_options([r"(a|aa)+\1b"], &options).unwrap();
    let text = "a".repeat(30);
    let found = set.find_input(RegexInput::new(&text[..]));
    assert!(matches!(
        found,
        Err(Error::RuntimeError(RuntimeError::BacktrackLimitExceeded))
    ));
}

#[test]
fn error_from_a_cause() {
    let error: Error = CompileError::PatternCanNeverMatch.into();
    assert!(matches!(error, Error::CompileError(_)));
}

#[test]
fn stack_overflow_is_named() {
    let cause = RuntimeError::StackOverflow;
    assert!(!matches!(cause, RuntimeError::BacktrackLimitExceeded));
}

#[test]
fn causes_are_errors() {
    fn text(error: &dyn std::error::Error) -> usize {
        error.to_string().len()
    }
    assert!(text(&ParseError::InvalidHex) > 0 && text(&RuntimeError::StackOverflow) > 0);
    assert!(text(&CompileError::PatternTooComplex) > 0);
}

#[test]
fn parse_errors_of_groups() {
    for pattern in ["(", "(?<>a)", "(?w)"] {
        let Err(Error::ParseError(_, cause)) = Regex::new(pattern) else {
            panic!()
        };
        assert!(matches!(
            cause,
            ParseError::UnclosedOpenParen
                | ParseError::InvalidGroupName
                | ParseError::UnknownFlag(_)
        ));
    }
}

#[test]
fn parse_errors_of_escapes() {
    for pattern in [r"\y", r"\xz", r"\x{110000}", r"\p", "\\"] {
        let Err(Error::ParseError(_, cause)) = Regex::new(pattern) else {
            panic!()
        };
        assert!(matches!(
            cause,
            ParseError::InvalidEscape(_)
                | ParseError::InvalidHex
                | ParseError::InvalidCodepointValue
                | ParseError::UnclosedUnicodeName
                | ParseError::TrailingBackslash
        ));
    }
}

#[test]
fn parse_errors_of_references() {
    for pattern in [r"\k<a>", r"\k<-1>"] {
        let Err(Error::ParseError(_, cause)) = Regex::new(pattern) else {
            panic!()
        };
        assert!(matches!(
            cause,
            ParseError::InvalidGroupNameBackref(_) | ParseError::InvalidBackref
        ));
    }
}

#[test]
fn parse_errors_of_the_rest() {
    for pattern in ["[a", "*", "(?-u)a"] {
        let Err(Error::ParseError(_, cause)) = Regex::new(pattern) else {
            panic!()
        };
        assert!(matches!(
            cause,
            ParseError::InvalidClass
                | ParseError::TargetNotRepeatable
                | ParseError::ChangingUnicodeModeUnsupported
                | ParseError::InvalidRepeat
                | ParseError::RecursionExceeded
        ));
    }
}

#[test]
fn compile_errors_of_references() {
    for pattern in [r"\2(a)", r"\g<3>", r"(\g<1>|a)", r"a\g<0>"] {
        let Err(Error::CompileError(cause)) = Regex::new(pattern) else {
            panic!()
        };
        assert!(matches!(
            *cause,
            CompileError::InvalidBackref(_)
                | CompileError::SubroutineCallTargetNotFound(..)
                | CompileError::LeftRecursiveSubroutineCall(_)
                | CompileError::NeverEndingRecursion
        ));
    }
}

#[test]
fn compile_errors_of_the_rest() {
    let mut builder = RegexBuilder::new("");
    let Err(Error::CompileError(cause)) = builder.find_not_empty(true).build() else {
        panic!()
    };
    assert!(matches!(
        *cause,
        CompileError::PatternCanNeverMatch
            | CompileError::PatternTooComplex
            | CompileError::DfaBuildError(_, _)
            | CompileError::VariableLookBehindRequiresFeature
            | CompileError::InvalidGroupName
    ));
}

#[test]
fn compile_errors_of_classes() {
    let Err(Error::CompileError(cause)) = Regex::new("[z-a]") else {
        panic!()
    };
    assert!(matches!(
        *cause,
        CompileError::InnerError(_) | CompileError::FeatureNotYetSupported(_)
    ));
}

#[test]
fn compile_errors_of_templates() {
    let named = Regex::new("(?<a>.)").unwrap();
    for template in ["$1", "$b"] {
        let Err(Error::CompileError(cause)) = Expander::default().check(template, &named) else {
            panic!()
        };
        assert!(matches!(
            *cause,
            CompileError::NamedBackrefOnly | CompileError::InvalidGroupNameBackref(_)
        ));
    }
}
