"""Four grammars of groups that call each other, and texts that they take apart: documents of JSON, sums, elements, and sums in pairs.

The texts are made by a generator and the same everywhere. Of some documents, sums and elements the last character is missing, so that
a search finds parts of them alone.
"""
import itertools
import json
import random

# Oniguruma has no (?(DEFINE)..): there the groups stand in one that is matched no times.
JSON = (
    r'(?<value>\g<object>|\g<array>|\g<string>|\g<number>|true|false|null)'
    r'(?<object>\{\s*(?:\g<member>(?:,\s*\g<member>)*)?\})(?<member>\g<string>\s*:\s*\g<value>\s*)'
    r'(?<array>\[\s*(?:\g<value>\s*(?:,\s*\g<value>\s*)*)?\])'
    r'(?<string>"(?:[^"\\]|\\(?:["\\/bfnrt]|u[0-9a-fA-F]{4}))*")'
    r'(?<number>-?(?:0|[1-9][0-9]*)(?:\.[0-9]+)?(?:[eE][-+]?[0-9]+)?)'
)
SUMS = (
    r'(?<sum>\g<product>(?:[-+]\g<product>)*)(?<product>\g<factor>(?:[*/]\g<factor>)*)'
    r'(?<factor>[0-9]+|\(\g<sum>\))'
)
PAIRS = r"(?<e>[0-9]+|\(\g<e>[-+*/]\g<e>\))"
ELEMENTS = r"(?<element><(?<name>\w+)>(?:[^<]|\g<element>)*</\k<name>>)"


def defined(groups, called):
    return r"(?(DEFINE)%s)\g<%s>" % (groups, called)


def matched_no_times(groups, called):
    return r"(?:%s){0}\g<%s>" % (groups, called)


def value(source, depth):
    """A value of JSON; the nesting below it is at most so deep."""
    kind = int(source.random() * (6 if depth > 0 else 4))
    if kind == 0:
        return int(source.random() * 100000) - 50000
    if kind == 1:
        return source.choice([True, False, None, 0.5, -1.5e-7])
    if kind < 4:
        return source.choice(["a", "two words", "a \"quote\"", "line\n", "\u00e9\u00e8", "back\\slash", ""]) * (1 + kind % 2)
    if kind == 4:
        return [value(source, depth - 1) for _ in range(int(source.random() * 6))]
    return {"key%d" % at: value(source, depth - 1) for at in range(int(source.random() * 5))}


def document(source):
    return json.dumps([value(source, 6) for _ in range(20)])


def product(source, depth):
    if depth == 0 or source.random() < 0.4:
        return str(int(source.random() * 1000))
    return "(%s)" % sum_of(source, depth - 1)


def sum_of(source, depth):
    signs = "+-*/"
    parts = [product(source, depth) + source.choice(signs) for _ in range(int(source.random() * 4))]
    return "".join(parts) + product(source, depth)


def pair(source, depth):
    if depth == 0 or source.random() < 0.2:
        return str(int(source.random() * 100))
    return "(%s%s%s)" % (pair(source, depth - 1), source.choice("+-*/"), pair(source, depth - 1))


def element(source, depth, name):
    """Elements of one name in each other: in PCRE2 a called group leaves the name as it was, here it is that of the last element."""
    inside = "".join(element(source, depth - 1, name) if depth > 0 and source.random() < 0.5 else "some text " for _ in range(3))
    return "<%s>%s</%s>" % (name, inside, name)


def lines(size, seed, make):
    """Lines up to the size; each tenth has lost its last character."""
    source = random.Random(seed)
    made, length = [], 0
    for number in itertools.count(1):
        line = make(source)
        made.append(line[:-1] if number % 10 == 0 else line)
        length += len(line.encode()) + 1
        if length >= size:
            return "".join(line + "\n" for line in made).encode()


MAKERS = {
    "documents": lambda size: lines(size, 1, document),
    "sums": lambda size: lines(size, 2, lambda source: sum_of(source, 6)),
    "elements": lambda size: lines(size, 3, lambda source: element(source, 6, source.choice(["p", "div", "span"]))),
    "pairs": lambda size: lines(size, 4, lambda source: pair(source, 7)),
}
