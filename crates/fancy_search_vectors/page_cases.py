"""Reads the rows of docs/SYNTAX.md and docs/COMING-FROM.md as cases of the program.

A table of these pages is read where its first column is `pattern`. Its cells hold code spans:

    `a+`                    a pattern; options of the program stand before it as code spans of their own, and a table in which each
                            pattern has an option names it in the head of the column. In SYNTAX.md a cell may have several patterns,
                            for which the whole row holds
    `«a»b«a»`               a text, with the spans that `find` reports between « and »; a text without them has no match. In a text
                            `\\n`, `\\r`, `\\t` and `\\u{..}` are characters
    refused: `CAUSE`        the pattern is refused when it is compiled; with ` at N` when it is parsed, at this byte

and `\\|` is `|` everywhere. A column is read by its name, and one with another name is for the reader alone:

    matches                 texts with a match, or the refusal
    does not match          texts without
    in Oniguruma mode       what is found in Oniguruma mode where that differs: texts of the row with other spans, further texts, or a
                            refusal. All other texts of the row have the same answer in both modes
    finds there             a text, with what another engine finds in it; or `refused`
    finds here              the same text with what is found here; or the refusal, of the text that is found there
    write instead           a pattern that finds here what the other engine finds with the row's pattern; or words alone
    template, on            a template, and the text in which it replaces all matches
    gives there, gives here, write instead
                            of a template: the text that another engine and this project make, and the template to write instead

The engines' answers are no cases: tests/pages/other_engines compares them with the engines that are installed.
"""
import re
from pathlib import Path

DOCS = Path(__file__).resolve().parents[2] / "docs"
PAGES = ("SYNTAX.md", "COMING-FROM.md")
ONIGURUMA = "--oniguruma"


class Row:
    """A row of a table: its page and line, the option of all patterns of the table, and the cells by the names of their columns."""

    def __init__(self, place, options, cells):
        self.place, self.options, self.cells = place, options, cells

    def stop(self, why):
        raise SystemExit(f"{self.place}: {why}")

    def cell(self, column):
        return self.cells.get(column, "")

    def spans(self, column):
        return code_spans(self.cell(column))

    def patterns(self, column, *more):
        """The options and each pattern of a cell, as words of the program."""
        options = [span for span in self.spans(column) if span.startswith("-")]
        patterns = [span for span in self.spans(column) if not span.startswith("-")]
        return [[*options, *self.options, *more, pattern] for pattern in patterns]

    def words(self, column):
        """Those of a cell that has one pattern."""
        if len(self.patterns(column)) != 1:
            self.stop(f"not one pattern in `{column}`")
        return self.patterns(column)[0]


def code_spans(cell):
    return re.findall(r"`([^`]+)`", cell)


def text_of(written):
    """The text of a code span: escapes are decoded, marks stay."""
    escapes = {"n": "\n", "r": "\r", "t": "\t"}
    return re.sub(r"\\(?:([nrt])|u\{([0-9A-Fa-f]+)\})", lambda m: escapes[m[1]] if m[1] else chr(int(m[2], 16)), written)


def unmarked(marked):
    return marked.replace("«", "").replace("»", "")


def spans_of(marked):
    """The spans between the marks, in bytes of the text without them."""
    spans, at, start = [], 0, 0
    for char in marked:
        if char == "«":
            start = at
        elif char == "»":
            spans.append((start, at))
        else:
            at += len(char.encode())
    return spans


def refusal_of(cell):
    """What the program tells of a pattern that is refused; None where the cell is no refusal."""
    found = re.search(r"refused: `([^`]+)`(?: at (\d+))?", cell)
    if not found:
        return None
    where = f"Parsing error at position {found[2]}" if found[2] else "Error compiling regex"
    return f"fancy_search: {where}: {found[1]}\n"


def case_of(words, text, allowed):
    return {"words": words, "stdin": text, "allowed": [allowed]}


def found_case(words, marked):
    spans = spans_of(marked)
    written = "".join("%d..%d\n" % span for span in spans)
    return case_of(["find", *words], unmarked(marked), {"status": 0 if spans else 1, "stdout": written})


def status_of(case):
    return case["allowed"][0]["status"]


def refused_case(words, text, refusal):
    return case_of(["find", *words], text, {"status": 2, "stderr": refusal})


def searches(row, words, column):
    """The cases of a cell with texts or a refusal."""
    refusal = refusal_of(row.cell(column))
    if refusal:
        return [refused_case(words, "", refusal)]
    return [found_case(words, text_of(written)) for written in row.spans(column)]


def own_cases(row, words):
    """The cases of the texts of a row of SYNTAX.md."""
    found, not_found = searches(row, words, "matches"), searches(row, words, "does not match")
    if any(status_of(case) == 1 for case in found) or any(status_of(case) != 1 for case in not_found):
        row.stop("a text stands in the wrong column")
    return found + not_found


def syntax_cases(row):
    """A row of SYNTAX.md, with each of its patterns in both modes."""
    both = zip(row.patterns("pattern"), row.patterns("pattern", ONIGURUMA))
    return [case for plain, oniguruma in both for case in mode_cases(row, plain, oniguruma)]


def mode_cases(row, plain_words, oniguruma_words):
    """The cases of a pattern of SYNTAX.md: the row's texts, and again in Oniguruma mode."""
    plain = own_cases(row, plain_words)
    other = searches(row, oniguruma_words, "in Oniguruma mode")
    if other and any(status_of(case) == 2 for case in plain + other):
        return plain + other
    told = [case["stdin"] for case in other]
    return plain + other + [case for case in own_cases(row, oniguruma_words) if case["stdin"] not in told]


def difference_cases(row):
    """A row of COMING-FROM.md: what is found here, and what the pattern to write instead finds."""
    there, here = row.spans("finds there"), row.spans("finds here")
    refusal = refusal_of(row.cell("finds here"))
    if len(there) > 1 or len(here) != 1:
        row.stop("`finds there` and `finds here` have a text each")
    marked = None if row.cell("finds there") == "refused" else text_of(there[0])
    if refusal:
        cases = [refused_case(row.words("pattern"), unmarked(marked), refusal)]
    else:
        cases = [found_case(row.words("pattern"), text_of(here[0]))]
        if marked is not None and (unmarked(marked) != cases[0]["stdin"] or marked == text_of(here[0])):
            row.stop("`finds there` and `finds here` are of two texts, or no difference")
    if row.spans("write instead"):
        cases.append(found_case(row.words("write instead"), marked))
    return cases


def template_cases(row):
    """A row of a table of templates: what is made here, and what the template to write instead makes."""
    text, there, here = (text_of(row.spans(column)[0]) for column in ("on", "gives there", "gives here"))
    words = ["replace", *row.words("pattern")]
    made = lambda template, result: case_of([*words, template], text, {"status": 0, "stdout": result})
    return [made(row.spans("template")[0], here)] + [made(template, there) for template in row.spans("write instead")]


def row_cases(row):
    if "template" in row.cells:
        return template_cases(row)
    if "finds here" in row.cells:
        return difference_cases(row)
    return syntax_cases(row)


def cells_of(line):
    """The cells of a line of a table; `\\|` is a `|` inside of one."""
    return [cell.strip().replace("\\|", "|") for cell in re.split(r"(?<!\\)\|", line)[1:-1]]


def rows_of(page):
    """The rows of the page's tables whose first column is `pattern`."""
    head, rows = [], []
    for number, line in enumerate((DOCS / page).read_text(encoding="utf-8").splitlines(), 1):
        cells = cells_of(line) if line.startswith("|") else []
        if not cells:
            head = []
        elif not head:
            head = cells
        elif head[0].startswith("pattern") and not set(line) <= set("|- "):
            row = Row(f"docs/{page}:{number}", code_spans(head[0]), dict(zip(["pattern"] + head[1:], cells)))
            if len(cells) != len(head):
                row.stop("more or fewer cells than the head of the table")
            rows.append(row)
    return rows


def all_rows():
    return [row for page in PAGES for row in rows_of(page)]


def page_cases():
    """The cases of both pages, each once."""
    cases = [case for row in all_rows() for case in row_cases(row)]
    return [case for place, case in enumerate(cases) if case not in cases[:place]]
