//! A match on `BacktrackLimitExceeded`, and on the other errors.

use fancy_regex::{CompileError, Error, ParseError, RegexBuilder, RuntimeError};

/// What a service answers that takes patterns from its users.
fn answer(pattern: &str, text: &str) -> String {
    let regex = match RegexBuilder::new(pattern)
        .backtrack_limit(1000)
        .max_prog_size(1000)
        .build()
    {
        Ok(regex) => regex,
        Err(Error::ParseError(position, ParseError::UnclosedOpenParen)) => {
            return format!("a parenthesis is not closed, at {position}");
        }
        Err(Error::ParseError(position, cause)) => return format!("{cause}, at {position}"),
        Err(Error::CompileError(cause)) => match *cause {
            CompileError::PatternTooComplex => return "the pattern is too large".to_string(),
            other => return format!("it cannot be compiled: {other}"),
        },
        Err(other) => return other.to_string(),
    };
    match regex.find(text) {
        Ok(Some(found)) => format!("found {:?}", found.range()),
        Ok(None) => "not found".to_string(),
        Err(Error::RuntimeError(RuntimeError::BacktrackLimitExceeded)) => {
            "the search takes too long".to_string()
        }
        Err(other) => other.to_string(),
    }
}

fn main() {
    let text = "a".repeat(40);
    for pattern in [
        r"(a+)\1$",
        r"(a|aa)+\1b",
        r"(?=b)a",
        r"(a",
        r"\q",
        r"(?<=a+)b",
        r"(a\g<1>?\g<1>?b)",
    ] {
        println!("{pattern}: {}", answer(pattern, &text));
    }
}
