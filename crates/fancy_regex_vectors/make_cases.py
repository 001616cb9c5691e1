#!/usr/bin/env python3
"""Makes the table of cases that the program reads, and what the program prints of it.

    python3 make_cases.py

Reads stdin and worked.jsonl beside this script, and writes stdin and stdout. The lines of outside cases stay in stdin as they are;
those between them are made anew from worked.jsonl. So a new case is a row of worked.jsonl, and a run of this script.

The outside cases are two collections that were made by a model of the written dialect, which shares no code with this project; each
case before the worked ones was also written by hand. Nothing of the table comes from this project's own answers. To add an outside
collection, append its cases to stdin as lines of the table, add their number to OUTSIDE_AFTER, and run this script.

A row of worked.jsonl is a JSON object: `kind`, the call or calls that it asks (see row_calls), `pattern`, of a set a list, and
`expected`, or `error` where the calls fail; and as it needs them `text`, `options`, `input`, `template`, `no_expand`, `limit`,
`position`, `name`, `total` and `seek`. A long text or layout may be a list of pieces, each with how often it stands there.

A line of the table is a case: six columns or more, separated by tabs. In patterns, texts, templates and answers each byte that is a
control character, a blank, a `%` or not ASCII is written as `%` and two hexadecimal digits.

    options     letters; then, after blanks, `b` and the backtrack limit, `c` and the cap of the program, if they are not the defaults
    pattern     of a set all its patterns with a blank between, `-` if it has none; none of them has a blank itself
    text
    input       empty for a whole text; else the start, both ends of the range, and letters, with blanks between
    template
    questions   CALL=ANSWER, or CALL ARGUMENT=ANSWER; several answers that are allowed have ` | ` between them

    i m s x R o n u l e   the letters of options: case, lines, dot, layout, carriage returns, Oniguruma mode, numbered groups that are
                          ignored where some group has a name, Unicode, longest, not empty
    k p                   asked with the option `seek` alone, without it alone; each other case is asked with it and without
    a s e g               the letters of inputs: anchored, no start of the text, no end of it, no `\\G` at the start

The answer of a call that fails is the text of its error in brackets. Other answers:

    build               built
    find, name ..       START..END, or none; find_iter: with a blank between
    captures, machine   the spans of all groups with a blank between, `-` for one that is not set, or none; captures_iter: with ` / `
                        between matches. machine is the backtracking machine, which runs plain patterns too
    is_match, easy      true or false
    looks LEAST..MOST   within, if the count of looks is so
    split, splitn LIMIT, replacen LIMIT, no_expand LIMIT, expand, python, reprint, escape, expander_escape
                        the pieces or the text in brackets; none for a pattern that does not reprint
    capture_names       the name of each group in brackets, `-` for one without
    start_bytes         the runs of bytes in brackets, or none; required_bytes: the same
    sizes               least, greatest (`-` for unbounded), and whether all sizes are the same
    reprinted           alike, if a regex of the printed text, with the options that it keeps, has the answers of the regex on the text:
                        of searches from each position, anchored there and not, iterations, splits and replacements
    layout              the instructions of the program, each in brackets; repeats: how many begin a greedy repeat, and how many fail, where
                        calls are written out
    set                 MEMBER:START..END or the text of an error, with a blank between, or none
"""
import json
import re
from collections import Counter
from pathlib import Path

HERE = Path(__file__).resolve().parent
# How many lines of the table are outside cases: those before the worked cases, and those after them.
OUTSIDE_BEFORE, OUTSIDE_AFTER = 205, 2999

LETTERS = {
    "case_insensitive": "i",
    "multi_line": "m",
    "dot_matches_new_line": "s",
    "ignore_whitespace": "x",
    "crlf": "R",
    "oniguruma_mode": "o",
    "ignore_numbered_groups_when_named_groups_exist": "n",
    "unicode_mode": "u",
    "leftmost_longest": "l",
    "find_not_empty": "e",
}

LIMIT_LETTERS = {"backtrack_limit": "b", "max_prog_size": "c"}

# The texts of errors by their kinds; a payload follows those that end in `: `.
TEXTS = {
    "GeneralParseError": "General parsing error: ",
    "UnclosedOpenParen": "Opening parenthesis without closing parenthesis",
    "InvalidRepeat": "Invalid repeat syntax",
    "RecursionExceeded": "Pattern too deeply nested",
    "TrailingBackslash": "Backslash without following character",
    "InvalidEscape": "Invalid escape: ",
    "UnclosedUnicodeName": "Unicode escape not closed",
    "InvalidHex": "Invalid hex escape",
    "InvalidCodepointValue": "Invalid codepoint for hex or unicode escape",
    "InvalidClass": "Invalid character class",
    "UnknownFlag": "Unknown group flag: ",
    "ChangingUnicodeModeUnsupported": "Changing Unicode mode is not supported",
    "InvalidBackref": "Invalid back reference",
    "TargetNotRepeatable": "Target of repeat operator is invalid",
    "InvalidGroupName": "Could not parse group name",
    "InvalidGroupNameBackref": "Invalid group name in back reference: ",
}
CAUSES = {
    "InnerError": "inner error: ",
    "LookBehindNotConst": "look behind not const",
    "InvalidGroupNameBackref": "invalid group name backref: ",
    "InvalidBackref": "invalid backref: ",
    "NamedBackrefOnly": "named backref only",
    "FeatureNotYetSupported": "feature not yet supported: ",
    "SubroutineCallTargetNotFound": "subroutine call target not found: ",
    "LeftRecursiveSubroutineCall": "left recursive subroutine call: ",
    "NeverEndingRecursion": "never ending recursion",
    "PatternCanNeverMatch": "pattern can never match",
    "PatternTooComplex": "pattern too complex",
    "RepeatBoundsReversed": "repeat bounds reversed",
}
LIMITS = {"BacktrackLimitExceeded": "backtrack limit exceeded"}


def joined(value):
    """A text, or a list of its pieces, each with how often it stands there."""
    return value if isinstance(value, str) else "".join(piece * times for piece, times in value)


def quoted(text):
    plain = lambda byte: 0x20 < byte < 0x7F and byte != ord("%")
    return "".join(chr(byte) if plain(byte) else "%%%02X" % byte for byte in text.encode())


def bracketed(text):
    return f"[{quoted(text)}]"


def optional(text):
    return "none" if text is None else bracketed(text)


def with_payload(text, payload):
    return text + ("" if payload is None else str(payload))


def fault_text(kind, payload, place):
    return bracketed(f"Parsing error at position {place}: " + with_payload(TEXTS[kind], payload))


def cause_text(kind, payload):
    return bracketed("Error compiling regex: " + with_payload(CAUSES[kind], payload))


def limit_text(kind):
    return bracketed("Error executing regex: " + LIMITS[kind])


def span(pair):
    return "-" if pair is None else "%d..%d" % tuple(pair)


def found(pair):
    return "none" if pair is None else span(pair)


def groups(pairs):
    return "none" if pairs is None else " ".join(map(span, pairs))


def yes(value):
    return "true" if value else "false"


def byte_runs(values):
    """The runs of neighbours in an ascending list of bytes."""
    runs = []
    for value in values:
        if runs and runs[-1][1] == value - 1:
            runs[-1][1] = value
        else:
            runs.append([value, value])
    return "".join("[%d]" % first if first == last else "[%d-%d]" % (first, last) for first, last in runs)


def pieces(texts):
    return "".join(map(bracketed, texts))


def names_answer(total, names):
    by_group = {group: name for name, numbers in names.items() for group in numbers}
    return "".join(bracketed(by_group[group]) if group in by_group else "-" for group in range(total + 1))


def input_column(text, given):
    if not given:
        return ""
    start, end = given.get("range", [0, len(text.encode())])
    letters = "a" if given.get("anchored") else ""
    for name, letter in (("start_text", "s"), ("end_text", "e"), ("continue_from_previous_match_end", "g")):
        letters += letter if given.get(name) is False else ""
    return f"{given.get('start', 0)} {start} {end} {letters}"


def options_column(options, seek=""):
    set_ones = {"unicode_mode": True} | options
    letters = "".join(sorted({LETTERS[name] for name, value in set_ones.items() if value and name not in LIMIT_LETTERS})) + seek
    return " ".join([letters] + [f"{letter}{options[name]}" for name, letter in LIMIT_LETTERS.items() if name in options])


def suffix(given):
    return "_input" if given else ""


def set_item(item):
    member, *rest = item
    return limit_text(rest[0]) if isinstance(rest[0], str) else "%d:%d..%d" % (member, *rest)


def row_calls(row):
    """The calls that a row asks, each with the form of its answer."""
    kind, given = row["kind"], suffix(row.get("input"))
    matched = ("is_match" + given, lambda expected: yes(expected is not None))
    match kind:
        case "build":
            return [("build", lambda expected: "built" if expected is None else cause_text(*expected))]
        case "find":
            return [("find" + given, found), matched]
        case "captures":
            return [("captures" + given, groups), matched]
        case "machine":
            return [("captures", groups), ("machine", groups), matched]
        case "limit":
            return [(call + given, limit_text) for call in ("find", "is_match", "captures")]
        case "find_from_pos":
            return [(f"find_from_pos {row['position']}", found)]
        case "captures_from_pos":
            return [(f"captures_from_pos {row['position']}", groups)]
        case "name":
            return [(f"name {row['name']}", found)]
        case "find_iter":
            return [("find_iter" + given, lambda expected: " ".join(map(span, expected)))]
        case "captures_iter":
            return [(kind + given, lambda expected: " / ".join(map(groups, expected)))]
        case "reprinted":
            return [("captures_iter", lambda expected: " / ".join(map(groups, expected))), (kind, lambda _: "alike")]
        case "split":
            return [("split", pieces)]
        case "splitn":
            return [(f"splitn {row['limit']}", pieces)]
        case "replacen":
            return [(f"{'no_expand' if 'no_expand' in row else 'replacen'} {row['limit']}", bracketed)]
        case "set":
            return [("set", lambda expected: "none" if expected is None else " ".join(map(set_item, expected)))]
        case "names":
            return [("capture_names", lambda expected: names_answer(row["total"], expected))]
        case "looks":
            return [("looks %d..%d" % tuple(row["expected"]), lambda _: "within")]
        case "expand":
            return [("python" if row.get("python") else "expand", bracketed)]
    return [(kind, FORMS[kind])]


def error_text(error):
    match error:
        case {"limit": kind}:
            return limit_text(kind)
        case {"fault": fault}:
            return fault_text(*fault)
        case {"causes": causes}:
            return " | ".join(cause_text(*cause) for cause in causes)


def row_questions(row):
    """The questions of a row, with their answers: those of `expected`, or the error that each call is to end in."""
    if "error" in row:
        return [(call, error_text(row["error"])) for call, _ in row_calls(row)]
    return [(call, form(row["expected"])) for call, form in row_calls(row)]


def sizes_answer(least, greatest, always):
    return f"{least} {'-' if greatest is None else greatest} {yes(always)}"


def check_answer(check):
    if check is None:
        return "accepted"
    kind, *rest = check
    return fault_text(*rest) if kind == "ParseError" else cause_text(*rest)


def start_bytes_answer(expected):
    return "none" if expected is None else byte_runs(expected)


def layout_answer(expected):
    return "".join(bracketed(insn) for insn in joined(expected).split())


# The forms of the other answers, by the kinds of rows, which are the names of the calls too.
FORMS = {
    "sizes": lambda expected: sizes_answer(*expected),
    "weight": str,
    "easy": yes,
    "reprint": optional,
    "start_bytes": start_bytes_answer,
    "required_bytes": byte_runs,
    "check": check_answer,
    "escape": bracketed,
    "expander_escape": bracketed,
    "layout": layout_answer,
    "repeats": str,
}


def row_line(row):
    pattern, text = row["pattern"], joined(row.get("text", ""))
    patterns = " ".join(map(quoted, pattern)) or "-" if isinstance(pattern, list) else quoted(pattern or "")
    columns = [
        options_column(row.get("options", {}), row_seek(row)),
        patterns,
        quoted(text),
        input_column(text, row.get("input")),
        quoted(row.get("template", row.get("no_expand", ""))),
    ]
    return "\t".join(columns + [f"{call}={answer}" for call, answer in row_questions(row)])


def row_seek(row):
    """Under a limit the answer may depend on the option `seek`: the program goes back for each start that it does not skip."""
    if "seek" in row:
        return "k" if row["seek"] else "p"
    return "p" if row["kind"] == "limit" and "options" in row else ""


def lines_of(name):
    with open(HERE / name, encoding="utf-8") as file:
        return [line.rstrip("\n") for line in file]


def table_lines():
    """The lines of the table: those of outside cases as they are, and those of the worked cases made anew."""
    old = lines_of("stdin")
    if len(old) < OUTSIDE_BEFORE + OUTSIDE_AFTER:
        raise SystemExit("make_cases: stdin has lost outside cases")
    worked = [row_line(json.loads(row)) for row in lines_of("worked.jsonl")]
    return old[:OUTSIDE_BEFORE] + worked + old[-OUTSIDE_AFTER:]


def totals(table):
    """What the program prints where all answers agree: how often each call was asked, in the order of the table in src/call.rt."""
    asked = Counter()
    for line in table:
        options, *rest = line.split("\t")
        letters = options.split(" ")[0]
        times = 1 if "k" in letters or "p" in letters else 2
        for question in rest[4:]:
            asked[re.split("[ =]", question)[0]] += times
    calls = re.findall(r'"(\w+)",\s*LibraryCall::', (HERE / "src/call.rt").read_text(encoding="utf-8"))
    return [f"{call}: {asked[call]} agree" for call in calls if asked[call]]


def write(name, lines):
    (HERE / name).write_text("".join(line + "\n" for line in lines), encoding="utf-8")


def main():
    table = table_lines()
    write("stdin", table)
    write("stdout", totals(table))


if __name__ == "__main__":
    main()
