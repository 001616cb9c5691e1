//! Times iterations over all matches of a text, splits, replacements and the tokens that a set finds, through the wrapper of the proved
//! port. The first word, if given, is the size of the largest text in bytes. A line for each goes to standard output.

mod texts;
mod tokens;

use proved_fancy_regex::{Error, Regex};

extern "C" {
    /// The processor time of this process so far, in millionths of a second.
    fn clock() -> std::os::raw::c_long;
}

/// The size of the largest text in bytes, where no word gives one.
const SIZE: usize = 2_000_000;

/// The pattern of the words that are replaced.
const WORD: &str = r"\w+";

/// What is done with all of a text.
#[derive(Clone, Copy)]
enum Work {
    /// All matches of a pattern.
    Matches(&'static str),
    /// The pieces between the matches of a pattern.
    Pieces(&'static str),
    /// All words replaced by a template.
    Replaced(&'static str),
    /// The tokens of a source text by one set.
    Tokens,
}

impl Work {
    /// The name of the work, its pattern or template, and what it counts.
    fn names(self) -> (&'static str, &'static str, &'static str) {
        match self {
            Work::Matches(pattern) => ("find_iter", pattern, "matches"),
            Work::Pieces(pattern) => ("split", pattern, "pieces"),
            Work::Replaced(template) => ("replace_all", template, "bytes"),
            Work::Tokens => ("set", "a highlighter's thirty patterns", "tokens"),
        }
    }

    /// A text of about this many bytes to do the work on.
    fn text(self, size: usize) -> String {
        match self {
            Work::Tokens => texts::source(size),
            _ => texts::words(size),
        }
    }

    /// Does the work, the building of its regex included. Returns what it counts.
    fn count(self, text: &str) -> Result<usize, Error> {
        match self {
            Work::Matches(pattern) => count(Regex::new(pattern)?.find_iter(text)),
            Work::Pieces(pattern) => count(Regex::new(pattern)?.split(text)),
            Work::Replaced(template) => {
                Ok(Regex::new(WORD)?.try_replacen(text, 0, template)?.len())
            }
            Work::Tokens => tokens::count(text),
        }
    }
}

/// A match at every character, at every word and none; the words found, split by and replaced; tokens.
const WORKS: [Work; 8] = [
    Work::Matches("(?s)."),
    Work::Matches("[a-z]+"),
    Work::Matches("[0-9]+"),
    Work::Matches(WORD),
    Work::Pieces(WORD),
    Work::Replaced("word"),
    Work::Replaced("<$0>"),
    Work::Tokens,
];

/// The number of items; the first error, if there is one.
fn count<T>(items: impl Iterator<Item = Result<T, Error>>) -> Result<usize, Error> {
    items.map(|item| item.map(|_| 1)).sum()
}

/// The processor time of this process so far, in seconds.
fn processor_seconds() -> f64 {
    (unsafe { clock() }) as f64 / 1e6
}

/// Does a work on a text of about this many bytes, and prints the processor time and what it counts.
fn measure(work: Work, size: usize) -> Result<(), Error> {
    let text = work.text(size);
    let start = processor_seconds();
    let count = work.count(&text)?;
    let seconds = processor_seconds() - start;
    let (name, argument, counted) = work.names();
    println!(
        "{name} {argument}: {} bytes in {:.1} ms, {:.1} MB/s, {count} {counted}",
        text.len(),
        seconds * 1e3,
        text.len() as f64 / seconds / 1e6,
    );
    Ok(())
}

fn main() -> Result<(), Error> {
    let size = std::env::args()
        .nth(1)
        .map_or(SIZE, |word| word.parse().expect("a size in bytes"));
    for part in [10, 5, 2, 1] {
        for work in WORKS {
            measure(work, size / part)?;
        }
    }
    Ok(())
}
