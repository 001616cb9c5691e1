"""Four texts of real use, of about a size that is asked for: prose, code, a server's log and text of many languages.

The log is made by a generator and the same everywhere. The others are made of what a machine with Debian has: manual pages, the
distribution's Python sources, and message catalogues. They differ from machine to machine, so times are compared within one run.
"""
import gettext
import glob
import gzip
import itertools
import random
import re

MANUAL_PAGES = "/usr/share/man/man[1-8]/*.gz"
PYTHON_SOURCES = "/usr/lib/python3*/*.py"
CATALOGUES = "/usr/share/locale/*/LC_MESSAGES/*.mo"


class TextIsMissing(Exception):
    """A machine has none of the files that a text is made of."""


def first_bytes(parts, size, of):
    """The parts in row, up to the size, cut after a line."""
    made, length = [], 0
    for part in parts:
        made.append(part)
        length += len(part.encode())
        if length >= size:
            break
    if not made:
        raise TextIsMissing(of)
    return "".join(made).encode()[:size].decode(errors="ignore").rpartition("\n")[0].encode() + b"\n"


def manual_page(path):
    """The text of a manual page, without its macros."""
    with gzip.open(path) as file:
        source = file.read().decode(errors="ignore")
    lines = (re.sub(r'^\.[A-Z]{1,2} ', "", line) for line in source.splitlines())
    text = "\n".join(line for line in lines if not line.startswith((".", "'")))
    return re.sub(r"\\f.|\\&|\\\|", "", text).replace("\\-", "-").replace('\\"', '"').replace("\\e", "\\") + "\n"


def prose(size):
    pages = sorted(glob.glob(MANUAL_PAGES))
    # Each page begins with the same words on licences or macros, so pages are taken from all sections in turn.
    spread = [page for first in range(7) for page in pages[first::7]]
    return first_bytes((manual_page(page) for page in spread), size, MANUAL_PAGES)


def code(size):
    def source(path):
        with open(path, encoding="utf-8", errors="ignore") as file:
            return file.read()
    # (files with such names are written by programs)
    written = (path for path in sorted(glob.glob(PYTHON_SOURCES)) if not path.rpartition("/")[2].startswith("_"))
    return first_bytes(map(source, written), size, PYTHON_SOURCES)


def messages(path):
    """The translated texts of a catalogue, a line or more for each."""
    try:
        with open(path, "rb") as file:
            catalogue = gettext.GNUTranslations(file)._catalog
    except (OSError, UnicodeDecodeError, ValueError):
        return ""
    return "".join(text + "\n" for key, text in catalogue.items() if key and isinstance(text, str))


def many_languages(size):
    by_language = {}
    for path in sorted(glob.glob(CATALOGUES)):
        by_language.setdefault(path.split("/")[-3], []).append(path)
    turns = itertools.zip_longest(*by_language.values())
    paths = (path for turn in turns for path in turn if path)
    return first_bytes((messages(path)[:4000].rpartition("\n")[0] + "\n" for path in paths), size, CATALOGUES)


def log(size):
    """Lines of a web server's log, with some of other programs between them."""
    source = random.Random(2024)
    def below(count):
        return int(source.random() * count)
    def of(values):
        return values[below(len(values))]
    names = ["index", "about", "login", "cart", "search", "report", "profile", "image", "style", "main", "api/v1/users", "api/v2/items"]
    agents = ["Mozilla/5.0 (X11; Linux x86_64; rv:115.0) Gecko/20100101 Firefox/115.0", "curl/7.88.1", "Googlebot/2.1 (+http://www.google.com/bot.html)",
              "Mozilla/5.0 (Windows NT 10.0; Win64; x64) AppleWebKit/537.36 (KHTML, like Gecko) Chrome/119.0.0.0 Safari/537.36"]
    months = ["Jan", "Feb", "Mar", "Apr", "May", "Jun", "Jul", "Aug", "Sep", "Oct", "Nov", "Dec"]
    def request():
        address = ".".join(str(1 + below(254)) for _ in range(4))
        user = of(["-", "-", "-", "alice", "bob", "carol"])
        time = "%02d/%s/%d:%02d:%02d:%02d +0%d00" % (1 + below(28), of(months), 2020 + below(5), below(24), below(60), below(60), below(3))
        path = "/%s%s%s" % (of(names), of(["", ".html", ".png", ".css", "/%d" % below(10000)]), of(["", "", "?id=%d" % below(9999), "?q=%s&page=%d" % (of(names), below(30))]))
        status = of([200, 200, 200, 200, 200, 301, 304, 404, 403, 500, 502])
        return '%s - %s [%s] "%s %s HTTP/1.%d" %d %d "%s" "%s"' % (
            address, user, time, of(["GET", "GET", "GET", "GET", "POST", "PUT", "DELETE"]), path, below(2), status, below(100000),
            of(["-", "https://example.com/%s" % of(names)]), of(agents))
    def other():
        stamp = "%d-%02d-%02dT%02d:%02d:%02d.%03dZ" % (2020 + below(5), 1 + below(12), 1 + below(28), below(24), below(60), below(60), below(1000))
        return "%s %s [worker-%d] %s" % (stamp, of(["INFO", "INFO", "DEBUG", "WARN", "ERROR"]), below(16), of([
            'user="%s" action=%s duration=%d.%03dms' % (of(["alice", "bob", "carol@example.com"]), of(names), below(900), below(1000)),
            "connection from %d.%d.%d.%d:%d refused: errno %d" % (below(256), below(256), below(256), below(256), below(65536), below(130)),
            'failed to open "/var/lib/app/%s.db": No such file or directory (0x%08x)' % (of(names), below(1 << 32)),
        ]))
    lines = (request() + "\n" if below(4) else other() + "\n" for _ in itertools.count())
    return first_bytes(lines, size, "log")


MAKERS = {"prose": prose, "code": code, "log": log, "languages": many_languages}
