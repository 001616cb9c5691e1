#!/usr/bin/env python3
"""Makes the table of cases that the program reads, and what the program prints of it.

    python3 make_cases.py

Reads stdin and worked.txt beside this script, and writes stdin and stdout. The lines of outside cases stay in stdin as they are;
those of worked.txt come after them. So a new case is a line of worked.txt, and a run of this script.

The outside cases are two collections that were made by a model of the written dialect, which shares no code with this project; some
of them, and the lines of worked.txt, were written by hand. Nothing of the table comes from this project's own answers. To add an
outside collection, put its cases in front of stdin as lines of the table, add their number to OUTSIDE, and run this script.

A line of the table is a case: its flags by their letters, its pattern, and then the fields that its answer is to have,
parted by tabs. In the pattern each byte that is a control character, a blank, a `%` or not ASCII is written as `%` and two
hexadecimal digits. Errors, trees, names, back references and printed texts are written as `Debug` writes them in Rust.

    i m s U x u R o n   the letters of flags: case, lines, dot, greed, layout, Unicode, carriage returns, Oniguruma mode, and
                        numbered groups that are ignored where some group has a name
    fault=ERROR         the error of the parser
    tree=EXPR           the syntax tree
    groups=N            how many groups capture
    names={"N": [N]}    the groups of each name, names in the order of their bytes
    backrefs={N, N}     the groups that back references and conditions name
    printable=BOOL      whether the tree can be printed
    printed="TEXT"      its printed text
"""
from pathlib import Path

HERE = Path(__file__).resolve().parent
# How many lines of the table are outside cases, which stand before the worked cases.
OUTSIDE = 3046


def lines_of(name):
    with open(HERE / name, encoding="utf-8") as file:
        return [line.rstrip("\n") for line in file]


def table_lines():
    """The lines of the table: those of outside cases as they are, and those of the worked cases."""
    old = lines_of("stdin")
    if len(old) < OUTSIDE:
        raise SystemExit("make_cases: stdin has lost outside cases")
    return old[:OUTSIDE] + lines_of("worked.txt")


def main():
    table = table_lines()
    (HERE / "stdin").write_text("".join(line + "\n" for line in table), encoding="utf-8")
    (HERE / "stdout").write_text(f"{len(table)} cases agree\n", encoding="utf-8")


if __name__ == "__main__":
    main()
