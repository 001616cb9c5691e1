//! A highlighter over a small syntax of its own, with 60 patterns: each context is a set of patterns, and a match may open or close a
//! context. Prints the number of patterns, and a line for each token of a sample: its scope, a tab, and its text.

use fancy_regex::{Error, RegexInput, RegexSet};
use std::io::{self, Write};

/// What a match does with the stack of contexts.
#[derive(Clone, Copy)]
enum Step {
    Stay,
    Open(usize),
    Close,
}

use Step::{Close, Open, Stay};

/// A pattern, the scope of its matches, and the step that they make.
struct Rule(&'static str, &'static str, Step);

/// A context: the scope of what no pattern matches, and its patterns. The first that matches at the earliest place counts.
struct Context {
    scope: &'static str,
    rules: &'static [Rule],
}

const CODE: usize = 0;
const STRING: usize = 1;
const COMMENT: usize = 2;
const ATTRIBUTE: usize = 3;

const CONTEXTS: [Context; 4] = [
    Context {
        scope: "code",
        rules: &[
            Rule("comment.doc", r"///[^\n]*", Stay),
            Rule("comment.line", r"//[^\n]*", Stay),
            Rule("comment.block", r"/\*", Open(COMMENT)),
            Rule("string.raw", r#"\br(#*)"(?s:.*?)"\1"#, Stay),
            Rule("string", r#"""#, Open(STRING)),
            Rule("string.char", r"'(?:[^'\\\n]|\\.)'", Stay),
            Rule("label", r"'[a-z]\w*(?=\s*:)", Stay),
            Rule("attribute", r"#\[", Open(ATTRIBUTE)),
            Rule("keyword.function", r"\bfn\b(?=\s+\w)", Stay),
            Rule("name.function", r"(?<=\bfn )[a-z_]\w*", Stay),
            Rule("keyword.type", r"\b(?:struct|enum|trait)\b", Stay),
            Rule(
                "name.type",
                r"(?<=\bstruct )[A-Z]\w*|(?<=\benum )[A-Z]\w*|(?<=\btrait )[A-Z]\w*",
                Stay,
            ),
            Rule("keyword.let", r"\b(?:let|const)\b", Stay),
            Rule("keyword.mut", r"\bmut\b", Stay),
            Rule(
                "keyword.control",
                r"\b(?:if|else|match|while|for|in|loop)\b",
                Stay,
            ),
            Rule("keyword.jump", r"\b(?:return|break|continue)\b", Stay),
            Rule("keyword.import", r"\b(?:use|mod)\b", Stay),
            Rule("keyword.public", r"\bpub\b", Stay),
            Rule("constant.bool", r"\b(?:true|false)\b", Stay),
            Rule("constant.none", r"\bnone\b", Stay),
            Rule("variable.self", r"\bself\b", Stay),
            Rule(
                "type.builtin",
                r"\b(?:int|float|text|bool|list|map)\b",
                Stay,
            ),
            Rule("constant", r"\b[A-Z][A-Z0-9_]{2,}\b", Stay),
            Rule("type", r"\b[A-Z]\w*", Stay),
            Rule("macro", r"\b[a-z_]\w*!(?=[(\[{])", Stay),
            Rule("call.method", r"(?<=\.)[a-z_]\w*(?=\()", Stay),
            Rule("call", r"\b[a-z_]\w*(?=\()", Stay),
            Rule("field", r"(?<=[^.]\.)[a-z_]\w*", Stay),
            Rule("argument", r"\b[a-z_]\w*(?=:(?!:))", Stay),
            Rule("path", r"\b[a-z_]\w*(?=::)", Stay),
            Rule("number.hex", r"\b0x[0-9A-Fa-f_]+\b", Stay),
            Rule("number.bin", r"\b0b[01_]+\b", Stay),
            Rule("number.float", r"\b\d[\d_]*\.\d+(?:e[+-]?\d+)?\b", Stay),
            Rule("number.time", r"\b\d+(?=(?:ms|s|h)\b)", Stay),
            Rule("unit", r"(?<=\d)(?:ms|s|h)\b", Stay),
            Rule("number", r"\b\d[\d_]*\b", Stay),
            Rule("operator.range", r"\.\.=?", Stay),
            Rule("operator.arrow", r"[-=]>", Stay),
            Rule("operator.path", r"::", Stay),
            Rule("operator.compare", r"[=!<>]=|[<>](?!=)", Stay),
            Rule("operator.assign", r"[-+*/%]?=(?!=)", Stay),
            Rule("operator.logic", r"&&|\|\||!(?!=)", Stay),
            Rule("operator.math", r"[-+*/%]", Stay),
            Rule("operator.try", r"(?<=[\w)])\?", Stay),
            Rule("variable", r"\b[a-z_]\w*", Stay),
            Rule("brace", r"\{", Open(CODE)),
            Rule("brace", r"\}", Close),
            Rule("bracket", r"[()\[\]]", Stay),
            Rule("separator", r"[,;:.]", Stay),
        ],
    },
    Context {
        scope: "string",
        rules: &[
            Rule(
                "string.escape",
                r#"\\(?:[nrt0"\\]|u\{[0-9A-Fa-f]{1,6}\})"#,
                Stay,
            ),
            Rule("invalid.escape", r"\\.", Stay),
            Rule("string.code", r"\$\{", Open(CODE)),
            Rule("string.variable", r"\$[a-z_]\w*", Stay),
            Rule("string", r#"""#, Close),
        ],
    },
    Context {
        scope: "comment.block",
        rules: &[
            Rule("comment.block", r"/\*", Open(COMMENT)),
            Rule("comment.block", r"\*/", Close),
            Rule("comment.todo", r"\b(?:TODO|FIXME)\b(?:\(\w+\))?", Stay),
        ],
    },
    Context {
        scope: "attribute",
        rules: &[
            Rule("attribute.name", r"\w+(?=\s*[\](=])", Stay),
            Rule("string", r#""[^"\n]*""#, Stay),
            Rule("attribute", r"\]", Close),
        ],
    },
];

const SAMPLE: &str = r##"/// Waits for a café's order.
#[retry(times = "3")]
pub fn wait_for(order: Order, limit: int) -> text {
    let mut left = limit * 2 - 0x1F; // at most
    'outer: while left > 0 && !order.is_done() {
        let state = match net::poll(order.id, MAX_WAIT)? {
            none => continue,
            Some(c) => c,
        };
        if state == 'x' || left != 1_000 { return "done: ${state.name({ 1 })} $left\n\q"; }
        sleep(250ms); /* TODO(ann) longer /* or not */ */
        left -= 1;
    }
    trace!("left", 2.5e-3, r#"raw "text" \n"#, 0..=9)
}
enum Kind { A, Bcd, }
"##;

/// Highlights the text, and hands each token with its scope to `token`.
fn highlight<'t>(
    sets: &[RegexSet],
    text: &'t str,
    mut token: impl FnMut(&'static str, &'t str) -> io::Result<()>,
) -> Result<(), Box<dyn std::error::Error>> {
    let mut open = vec![CODE];
    let mut place = 0;
    while let Some(&context) = open.last() {
        let Some(found) = first_match(&sets[context], text, place)? else {
            break;
        };
        let (number, start, end) = found;
        token(CONTEXTS[context].scope, &text[place..start])?;
        let Rule(scope, _, step) = CONTEXTS[context].rules[number];
        token(scope, &text[start..end])?;
        match step {
            Stay => {}
            Open(inner) => open.push(inner),
            Close if open.len() > 1 => drop(open.pop()),
            Close => {}
        }
        place = end;
    }
    token("code", &text[place..])?;
    Ok(())
}

/// The number, the start and the end of the first match from a place on.
fn first_match(
    set: &RegexSet,
    text: &str,
    place: usize,
) -> Result<Option<(usize, usize, usize)>, Error> {
    let input = RegexInput::new(text).from_pos(place);
    let Some(mut found) = set.find_input(input)? else {
        return Ok(None);
    };
    let first = found.next().transpose()?;
    Ok(first.map(|found| (found.pattern(), found.start(), found.end())))
}

fn main() -> Result<(), Box<dyn std::error::Error>> {
    let patterns = |context: &Context| RegexSet::new(context.rules.iter().map(|rule| rule.1));
    let sets: Vec<RegexSet> = CONTEXTS.iter().map(patterns).collect::<Result<_, _>>()?;
    let mut out = io::stdout().lock();
    let count: usize = sets.iter().map(RegexSet::len).sum();
    writeln!(out, "{count} patterns")?;
    highlight(&sets, SAMPLE, |scope, text| {
        if text.trim().is_empty() {
            return Ok(());
        }
        writeln!(out, "{scope}\t{}", text.escape_debug())
    })
}
