//! `fancy_regex_peer PATTERN`: writes the span of each match in the text on standard input as `START..END`, a line for each.
//! Status: 0, or 2 where the pattern or a search fails.

use fancy_regex::RegexBuilder;
use std::error::Error;
use std::io::{self, BufWriter, Read, Write};
use std::process::ExitCode;

fn write_spans(pattern: &str) -> Result<(), Box<dyn Error>> {
    let regex = RegexBuilder::new(pattern)
        .backtrack_limit(usize::MAX)
        .build()?;
    let mut bytes = Vec::new();
    io::stdin().lock().read_to_end(&mut bytes)?;
    let text = String::from_utf8(bytes)?;
    let mut out = BufWriter::new(io::stdout().lock());
    for found in regex.find_iter(&text) {
        let found = found?;
        writeln!(out, "{}..{}", found.start(), found.end())?;
    }
    out.flush()?;
    Ok(())
}

fn main() -> ExitCode {
    let Some(pattern) = std::env::args().nth(1) else {
        return ExitCode::from(2);
    };
    match write_spans(&pattern) {
        Ok(()) => ExitCode::SUCCESS,
        Err(error) => {
            eprintln!("fancy_regex_peer: {error}");
            ExitCode::from(2)
        }
    }
}
