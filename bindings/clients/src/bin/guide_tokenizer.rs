//! Takes a line of source apart into tokens, by one set of patterns.

use fancy_regex::{RegexInput, RegexSet};

/// The kinds of tokens, with a pattern for each. Where several match, the first counts.
const TOKENS: [(&str, &str); 5] = [
    ("blank", r"\s+"),
    ("keyword", r"(?:if|else)\b"),
    ("number", r"\d+(?!\w)"),
    ("name", r"[a-z_]\w*"),
    ("operator", r"[-+*/=<>]=?"),
];

fn main() -> Result<(), fancy_regex::Error> {
    let text = "if width >= 80 12em";
    let set = RegexSet::new(TOKENS.map(|(_, pattern)| pattern))?;
    let mut place = 0;
    while let Some(mut members) = set.find_input(RegexInput::new(text).from_pos(place).anchored(true))? {
        let Some(member) = members.next() else { break };
        let member = member?;
        let (kind, _) = TOKENS[member.pattern()];
        if kind != "blank" {
            println!("{kind} at {place}..{}", member.end());
        }
        place = member.end();
    }
    if place < text.len() {
        println!("no token at {place}");
    }
    Ok(())
}
