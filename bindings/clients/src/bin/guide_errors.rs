//! Options, faults of patterns, and a limit that a search passes.

use fancy_regex::{Error, RegexBuilder, RuntimeError};

/// What a search with options finds.
fn answer(pattern: &str, text: &str) -> Result<String, Error> {
    let mut builder = RegexBuilder::new(pattern);
    let regex = builder.case_insensitive(true).backtrack_limit(10_000).build()?;
    let found = regex.find(text)?;
    Ok(format!("{:?}", found.map(|found| found.range())))
}

fn main() {
    let row = "a".repeat(28);
    let searches = [("straße", "STRAẞE"), ("a(b|c", ""), ("(?<=a+)b", ""), (r"(a+)+\1b", &row)];
    for (pattern, text) in searches {
        match answer(pattern, text) {
            Ok(found) => println!("{pattern}: {found}"),
            Err(Error::ParseError(place, cause)) => println!("{pattern}: at byte {place}: {cause}"),
            Err(Error::RuntimeError(RuntimeError::BacktrackLimitExceeded)) => println!("{pattern}: gave up"),
            Err(error) => println!("{pattern}: {error}"),
        }
    }
}
