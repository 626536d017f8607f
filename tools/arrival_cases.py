"""Writes the cases of crates/arrival_answers: arrival files, and what each is read as.

python3 tools/arrival_cases.py writes the program's standard input, a case a line, and what it must print. The hand-written rows stand
here with their answers. The tables cross words, fields and endings with each other; their answers come from `answer` below, which says
the rules of the format over whole files: it looks for the line feeds first and never walks a line byte by byte, as the program does.
Nothing here is taken from what the program printed.
"""

import itertools
import pathlib
import re

CASES, ANSWERS = [], []
FIRST = b"mugshot-arrivals 1\n"
SECOND = b"base http://a.test/\n"
LATER = (b"resource", b"event", b"input", b"timer", b"reply", b"fail")
# Serialisations of URLs, and fields that are none: without the slash of the path, with a port that is the scheme's own, relative,
# empty, with a space or a letter that is percent-encoded, with a host in capitals, or no UTF-8.
URLS = (b"http://a.test/", b"data:,a", b"http://a.test/x?y#z", b"https://b.test:8443/a%20b", b"about:blank", b"file:///a")
NO_URLS = (b"http://a.test", b"http://a.test:80/", b"/a", b"", b"http://A.test/", b"http://a.test/\r", b"http://a.test/\xff",
           "http://a.test/\u00e9".encode(), b"http://a.test/\x01", b"http:")


def written(raw):
    """Bytes as a case's line writes them."""
    def one(b):
        if b == 92:
            return "\\\\"
        if b == 10:
            return "\\n"
        if b == 13:
            return "\\r"
        return chr(b) if 32 <= b < 127 else f"\\x{b:02X}"
    return "".join(map(one, raw))


def case(line, want):
    assert "\n" not in line
    CASES.append(line)
    ANSWERS.append(want)


def file(raw, want):
    case("file " + written(raw), want)


def lines(raw, want):
    case("lines " + written(raw), want)


def broken(number, kind):
    return f"line {number}: {kind}"


def unbuilt(number):
    return f"line {number}: not built yet"


# ---- the rules, over a whole file


def spelled(field, end):
    return re.fullmatch(rb"0|[1-9][0-9]*", field) is not None and int(field) < end


def answer(raw):
    """What a file is read as. The bases of the tables are those of URLS and NO_URLS alone."""
    *whole, tail = raw.split(b"\n")
    rows = [(line, True) for line in whole] + ([(tail, False)] if tail or len(whole) < 2 else [])
    base, begun, nows, rands = None, None, [], []
    for number, (line, ended) in enumerate(rows, 1):
        word, *fields = line.split(b" ")
        if word in LATER:
            return unbuilt(number)
        known = {1: (b"mugshot-arrivals",), 2: (b"base",)}.get(number, (b"load", b"now", b"rand"))
        if not ended or word not in known or len(fields) != 1 or (number == 1 and fields[0] != b"1"):
            return broken(number, "form")
        field = fields[0]
        if number == 2:
            assert field in URLS or field in NO_URLS, field
            if field not in URLS:
                return broken(number, "url")
            base = field
        if number > 2:
            if not spelled(field, 2**32 if word == b"rand" else 2**53):
                return broken(number, "number")
            if (word == b"load") == (begun is not None):
                return broken(number, "order")
            if word == b"load":
                begun = int(field)
            else:
                (nows if word == b"now" else rands).append(int(field))
    said = "base " + base.decode()
    if begun is not None:
        said += f" load {begun}" + "".join(f" now {v}" for v in nows) + "".join(f" rand {w}" for w in rands)
    return said


def told(raw, want=None):
    """A file whose answer the rules above give; `want` is the same answer by hand."""
    by_rule = answer(raw)
    assert want is None or want == by_rule, (raw, want, by_rule)
    file(raw, by_rule)


# ---- rows by hand

told(FIRST + SECOND + b"load 50\nrand 4294967295\nnow 60\nnow 0\nnow 9007199254740991\n",
     "base http://a.test/ load 50 now 60 now 0 now 9007199254740991 rand 4294967295")
told(FIRST + b"base data:,a\n", "base data:,a")

for raw, number, kind in [
    (b"", 1, "form"),
    (b"\n", 1, "form"),
    (b"mugshot-arrivals 1", 1, "form"),
    (b"mugshot-arrivals 2\n", 1, "form"),
    (b"mugshot-arrivals 1\r\n", 1, "form"),
    (b"mugshot-arrivals 1 \n", 1, "form"),
    (b"mugshot-arrivals  1\n", 1, "form"),
    (b" mugshot-arrivals 1\n", 1, "form"),
    (b"mugshot-arrivals 1\n", 2, "form"),
    (b"mugshot-arrivals 1\nbase http://a.test/", 2, "form"),
    (b"mugshot-arrivals 1\nload 50\n", 2, "form"),
    (b"mugshot-arrivals 1\nbase  http://a.test/\n", 2, "form"),
    (b"mugshot-arrivals 1\nbase \n", 2, "url"),
    (b"mugshot-arrivals 1\nbase http://a.test\n", 2, "url"),
    (b"mugshot-arrivals 1\nbase http://a.test/\r\n", 2, "url"),
    (b"mugshot-arrivals 1\nbase http://a.test/\xff\n", 2, "url"),
]:
    told(raw, broken(number, kind))

for raw, number, kind in [
    (b"\n", 3, "form"),
    (b"load\n", 3, "form"),
    (b"load 50", 3, "form"),
    (b"load 50 1\n", 3, "form"),
    (b"loads 50\n", 3, "form"),
    (b"load 50\n\n", 4, "form"),
    (b"load 050\n", 3, "number"),
    (b"load +5\n", 3, "number"),
    (b"load \n", 3, "number"),
    (b"load 50\r\n", 3, "number"),
    (b"load 9007199254740992\n", 3, "number"),
    (b"load 0\nrand 4294967296\n", 4, "number"),
    (b"now 05\n", 3, "number"),
    (b"now 5\n", 3, "order"),
    (b"rand 5\nload 5\n", 3, "order"),
    (b"load 5\nload 6\n", 4, "order"),
    (b"load 5\nload 06\nevent\n", 4, "number"),
]:
    assert answer(FIRST + SECOND + raw) == broken(number, kind), raw
    lines(raw, broken(number, kind))

for raw, number in [
    (b"resource http://a.test/ 0\n\n", 3),
    (b"event", 3),
    (b"load 5\ninput\nload 6\n", 4),
    (b"load 5\nnow 6\ntimer 7\n", 5),
    (b"reply  \n", 3),
    (b"fail\n", 3),
    (b"load 5\nevent 5 window key", 4),
]:
    assert answer(FIRST + SECOND + raw) == unbuilt(number), raw
    lines(raw, unbuilt(number))
told(b"event 1", unbuilt(1))
told(b"mugshot-arrivals 1\nfail\n", unbuilt(2))

# 64 MiB are read, and break the form at their first line; a byte more is too much.
case("sized 67108864", broken(1, "form"))
case("sized 67108865", broken(0, "size"))

for kind in ("form", "number", "size", "url", "twice", "order", "length", "utf8"):
    case("kind " + kind, broken(7, kind))

# ---- tables

for base in URLS + NO_URLS:
    told(FIRST + b"base " + base + b"\nload 1\n")

NUMBERS = (b"0", b"7", b"00", b"01", b"-1", b"1.0", b"1e3", b"0x1", b"", b"4294967295", b"4294967296", b"9007199254740991",
           b"9007199254740992", b"18446744073709551616", b"1" + b"0" * 30, b"7a", b"\xd9\xa1", b"7\t", b"7\x00")
for word, number, before in itertools.product((b"load", b"now", b"rand"), NUMBERS, (b"", b"load 3\n")):
    told(FIRST + SECOND + before + word + b" " + number + b"\n")

# A line's word, what stands between it and its field, and how the line ends, at each place of the file.
WORDS = (b"load", b"now", b"rand", b"base", b"Load", b"loa", b"nowx", b"", b"mugshot-arrivals") + LATER + (b"events", b"resourc")
ENDS = (b"", b"\n", b" \n", b" 1\n", b" 1", b"  1\n", b" 1 2\n", b" 1 \n", b"\t1\n", b"\r\n", b" 1\n\n")
for word, end in itertools.product(WORDS, ENDS):
    told(word + end)
    if word != b"base":
        told(FIRST + word + end)
    told(FIRST + SECOND + word + end)
    told(FIRST + SECOND + b"load 2\n" + word + end)

# Lines in every order, to the first that breaks a rule.
for count in (1, 2, 3, 4):
    for chosen in itertools.product((b"load 1\n", b"now 2\n", b"rand 3\n", b"now 04\n"), repeat=count):
        told(FIRST + SECOND + b"".join(chosen))

crate = pathlib.Path(__file__).parent.parent / "crates" / "arrival_answers"
(crate / "stdin").write_text("\n".join(CASES) + "\n")
(crate / "stdout").write_text("\n".join(ANSWERS) + "\n")
print(len(CASES), "cases")
