#!/usr/bin/env python3
"""Makes the table of cases that the program reads, and what the program prints of it.

    python3 make_cases.py
    python3 make_cases.py --check

Reads stdin and worked.jsonl beside this script and the rows of docs/SYNTAX.md and docs/COMING-FROM.md (see page_cases.py), and writes
stdin and stdout. The lines of outside cases stay in stdin as they are; those after them are made anew. So a new case is a row of
worked.jsonl or of these pages, and a run of this script. With --check it writes nothing: it ends with status 1, and prints what differs,
where stdin or stdout is not what it would write.

The outside cases are two collections that were made by a model of the written dialect, which shares no code with this project; some
of them were also written by hand. Nothing of the table comes from this project's own answers. To add an outside collection, put its
cases in front of stdin as lines of the table, add their number to OUTSIDE, and run this script.

A row of worked.jsonl is a JSON object: `words`, `stdin` and `allowed`, a list of the answers that are allowed: `status`, `stdout`
and `stderr`.

A line of the table is a case, in columns separated by tabs: the words and the input, and then each answer that is allowed. There is
more than one where several causes hold for which a pattern is refused, any of which may be told, or where a search opens more choices
than its limit, and may answer or tell the limit. An answer is the exit status, a blank, and what goes to standard output, or with status
2 to standard error; `%` stands for a text of the reader of the words, which is not compared. Each word, the input and what is written
is percent-encoded: each byte that is a control character, a blank, a `%` or not ASCII is `%` and two hexadecimal digits.
"""
import json
import sys
from itertools import zip_longest
from pathlib import Path

sys.dont_write_bytecode = True
from page_cases import page_cases

HERE = Path(__file__).resolve().parent
# How many lines of the table are outside cases, which stand before the worked cases.
OUTSIDE = 3145


def quoted_bytes(data):
    plain = lambda byte: 0x20 < byte < 0x7F and byte != ord("%")
    return "".join(chr(byte) if plain(byte) else "%%%02X" % byte for byte in data)


def bytes_of(text):
    if isinstance(text, dict):
        return bytes.fromhex(text["hex"])
    return (text or "").encode()


def answer(allowed):
    text = allowed["stderr"] if allowed["status"] == 2 else allowed["stdout"]
    return f"{allowed['status']} " + ("%" if text is None else quoted_bytes(bytes_of(text)))


def case_line(case):
    words = " ".join(quoted_bytes(word.encode()) for word in case["words"])
    return "\t".join([words, quoted_bytes(bytes_of(case["stdin"]))] + [answer(allowed) for allowed in case["allowed"]])


def lines_of(name):
    with open(HERE / name, encoding="utf-8") as file:
        return [line.rstrip("\n") for line in file]


def table_lines():
    """The lines of the table: those of outside cases as they are, and those of the worked cases and of the pages made anew."""
    old = lines_of("stdin")
    if len(old) < OUTSIDE:
        raise SystemExit("make_cases: stdin has lost outside cases")
    return old[:OUTSIDE] + [case_line(json.loads(row)) for row in lines_of("worked.jsonl")] + list(map(case_line, page_cases()))


def write(name, lines):
    (HERE / name).write_text("".join(line + "\n" for line in lines), encoding="utf-8")


def differs(name, lines):
    """Whether a file has other lines than these; prints the first that differ."""
    for has, due in zip_longest(lines_of(name), lines):
        if has != due:
            print(f"{name} of fancy_search_vectors has\n{has or 'nothing more'}\nand is to have\n{due or 'nothing more'}")
            print("Correct the page, or run make_cases.py.")
            return True
    return False


def main():
    table = table_lines()
    files = {"stdin": table, "stdout": [f"{len(table)} cases agree"]}
    if sys.argv[1:] == ["--check"]:
        if any([differs(name, lines) for name, lines in files.items()]):
            sys.exit(1)
        print("the rows of the pages are cases of the table")
        return
    for name, lines in files.items():
        write(name, lines)


if __name__ == "__main__":
    main()
