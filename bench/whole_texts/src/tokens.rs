//! A highlighter: the tokens of a source text, found by a set of thirty patterns.

use proved_fancy_regex::{Error, RegexInput, RegexSet};

/// Comments, strings, numbers, keywords, names and operators. Where several match at one place, the first of them counts.
const TOKENS: [&str; 30] = [
    "//[^\\n]*",
    "/\\*(?:[^*]|\\*(?!/))*\\*/",
    "r\"[^\"]*\"",
    "b?\"(?:[^\"\\\\]|\\\\.)*\"",
    "b?'(?:[^'\\\\\\n]|\\\\.)'",
    "'[a-z_]\\w*\\b(?!')",
    "#!?\\[[^\\]]*\\]",
    "0x[0-9a-fA-F_]+",
    "0b[01_]+",
    "0o[0-7_]+",
    "[0-9][0-9_]*\\.[0-9_]+(?:[eE][+-]?[0-9]+)?",
    "[0-9][0-9_]*",
    "\\b(?:if|else|match|while|for|loop|in)\\b",
    "\\b(?:return|break|continue)\\b",
    "\\b(?:fn|let|const|static|type)\\b",
    "\\b(?:mut|ref|move|dyn|unsafe)\\b",
    "\\b(?:pub|mod|use|crate|super|extern)\\b",
    "\\b(?:struct|enum|trait|impl|where|union)\\b",
    "\\b(?:true|false|None|Some|Ok|Err)\\b",
    "\\b(?:self|Self)\\b",
    "\\b(?:u8|u16|u32|u64|usize|i32|i64|f32|f64|bool|char|str)\\b",
    "\\b[a-z_]\\w*(?=!\\()",
    "\\b[a-z_]\\w*(?=\\()",
    "\\b[A-Z][A-Z0-9_]+\\b",
    "\\b[A-Z]\\w*",
    "\\b[a-z_]\\w*",
    "->|=>|::|\\.\\.=?",
    "[-+*/%&|^]=?|<<=?|>>=?",
    "[=!<>]=?",
    "[(){}\\[\\],;:.?@]",
];

/// The number of tokens of a text: at each place the match of the first member that has one, and on from its end.
pub fn count(text: &str) -> Result<usize, Error> {
    let set = RegexSet::new(TOKENS)?;
    let mut count = 0;
    let mut place = 0;
    while let Some(mut found) = set.find_input(RegexInput::new(text).from_pos(place))? {
        let Some(first) = found.next() else { break };
        place = first?.end();
        count += 1;
    }
    Ok(count)
}
