"""Cases for texts, values and the operators of the language (ECMA-262 edition 5.1, in a profile of whole numbers).

python3 tools/value_cases.py writes the standard input of the program value_answers, a case a line, and what it must print. Rows stand
here with their answers, derived by hand; where a table crosses all kinds of operands with each other, the answers come from the rules
of the standard's clauses 8.12 to 11.10 as `number_of`, `arithmetic`, `bitwise`, `less` and `equal` below say them, over Python's
integers, which have no bound. Nothing here is taken from what the program printed.
"""

import pathlib

CASES, ANSWERS = [], []
SAFE = 2**53 - 1
RANGE, NAN, UNDEFINED, NULL = "range", "NaN", "undefined", "null"


def units(text):
    raw = text.encode("utf-16-be", "surrogatepass")
    return [raw[i] << 8 | raw[i + 1] for i in range(0, len(raw), 2)]


def text_of_units(us):
    return b"".join(u.to_bytes(2, "big") for u in us).decode("utf-16-be", "surrogatepass")


def written(text):
    return "".join(chr(u) if 32 < u < 127 and u != 92 else f"\\u{u:04x}" for u in units(text))


def points(text):
    """The code points, where a surrogate without a partner stands for itself."""
    return [ord(c) for c in text_of_units(units(text))]


def is_surrogate(c):
    return 0xD800 <= c < 0xE000


def shown(text):
    def one(c):
        if c == 92:
            return "\\\\"
        if c == 10:
            return "\\n"
        if c < 32 or c == 127 or is_surrogate(c):
            return f"\\u{c:04x}"
        return chr(c)
    return "".join(map(one, points(text)))


def utf8(text):
    return "".join("\ufffd" if is_surrogate(c) else chr(c) for c in points(text)).encode()


def told(text):
    us = units(text)
    return "".join(f"{u:04x} " for u in us) + f"| {len(us)} | {utf8(text).hex()} | {len(utf8(text))} | {shown(text)}"


def case(line, answer):
    CASES.append(line)
    ANSWERS.append(answer)


def option(x):
    return "None" if x is None else f"Some({x})"


# Texts -------------------------------------------------------------------------------------------------------------------------

# the bounds of each row of the Unicode standard's table 3-7
for coded in ["", "617f", "c280", "dfbf", "e0a080", "ed9fbf", "ee8080", "efbfbf", "f0908080", "f48fbfbf", "61e282acf09f9880"]:
    case(f"utf8 {coded}", told(bytes.fromhex(coded).decode()))
# and the first byte that begins no sequence
for coded, at in [("c080", 0), ("61e08080", 1), ("f0808080", 0), ("c3a9eda080", 2), ("f4908080", 0), ("6162c3", 2), ("e282", 0),
                  ("e282acf09f98", 3), ("6180", 1), ("ff61", 0), ("61c0", 1), ("edbfbf", 0), ("f5808080", 0), ("f8", 0), ("e28028", 0)]:
    case(f"utf8 {coded}", f"not utf-8 at {at}")
# units of every kind, with and without a partner
for text in ["", "a\\\n\x01\x7f\xe9\U0001f600", "\ud83d", "\ude00", "\ud83d\ud83d\ude00", "\ude00\ud83d", "\uffff\ufeff", "\x1f \x80", "\t\r\x0b", "\ud800a"]:
    case(f"text {written(text)}", told(text))

SPACES = "\t\x0b\x0c \xa0\ufeff\u1680" + "".join(map(chr, range(0x2000, 0x200b))) + "\u202f\u205f\u3000"
LINE_ENDS = "\n\r\u2028\u2029"
for text, trimmed in [("", ""), (" ", ""), ("a b", "a b"), (SPACES + "a" + SPACES, "a"), (LINE_ENDS + "a" + LINE_ENDS, "a"), (SPACES + LINE_ENDS, ""),
                      ("\x85", "\x85"), ("\u180e ", "\u180e"), (" \u200b", "\u200b"), ("a ", "a"), (" a", "a"), (" \ud83d ", "\ud83d"), ("\u1fff\u200a", "\u1fff")]:
    case(f"trim {written(text)}", told(trimmed))

for number, index in [(0, 0), (7, 7), (-1, None), (-10, None), (SAFE, None), (-SAFE, None), (2**63 - 1, None), (-2**63, None), (2**32 - 2, 2**32 - 2), (2**32 - 1, None), (100000, 100000)]:
    case(f"number {number}", f"{number} {option(index)}")
for text, index in [("0", 0), ("10", 10), ("999999999", 999999999), ("4294967294", 4294967294), ("4294967295", None), ("4294967296", None), ("42949672940", None),
                    ("18446744073709551616", None), ("", None), ("00", None), ("01", None), ("-0", None), ("-1", None), ("+1", None), ("1.0", None), (" 1", None),
                    ("1 ", None), ("1e3", None), ("length", None), ("\u0661", None), ("1\ud800", None), ("0x1", None), ("/", None), (":", None)]:
    case(f"index {written(text)}", option(index))
for end, digits, number in [(1000, "0", 0), (1000, "999", 999), (1000, "1000", None), (1000, "", None), (1000, "00", None), (1000, "01", None), (1000, "+1", None), (1000, "-1", None),
                            (0, "0", None), (1, "0", 0), (1, "1", None), (2**64 - 1, "18446744073709551614", 2**64 - 2), (2**64 - 1, "18446744073709551615", None),
                            (2**64 - 1, "18446744073709551616", None), (1000, "1a", None), (1000, "a", None), (1000, "1_0", None), (1000, "\xe9", None), (2**53, "9007199254740991", SAFE),
                            (2**53, "9007199254740992", None)]:
    case(f"decimal {end} {digits}", option(number))
for base, text, number in [(10, "", None), (10, "0", 0), (10, "9", 9), (10, "00", 0), (10, "0012", 12), (10, "+1", None), (10, "1f", None), (16, "1f", 31), (16, "F", 15), (16, "aBcDeF", 11259375),
                           (16, "g", None), (16, "G", None), (16, "`", None), (16, "@", None), (10, "/", None), (10, ":", None), (10, "1 ", None), (10, "9007199254740993", 2**53),
                           (10, "99999999999999999999", 2**53), (16, "1fffffffffffff", SAFE), (16, "20000000000000", 2**53), (2, "102", None), (2, "101", 5), (8, "78", None), (10, "\u0661", None)]:
    case(f"digits {base} {written(text)}", option(number))

# a text, doubled so often, and a part of it: of a short one and of long ones, a large and a small part
for doubled, text in [(0, "a\ud83d\ude00b"), (4, "abcdefg"), (8, "abc"), (10, "xyz\n")]:
    whole = units(text) * 2**doubled
    for start, end in [(0, 0), (0, len(whole)), (1, 3), (len(whole) - 2, len(whole)), (len(whole) // 2, len(whole)), (2, 2), (0, len(whole) // 4), (1, len(whole) // 4)]:
        if start <= end:
            case(f"part {start} {end} {doubled} {written(text)}", f"{shown(text_of_units(whole[start:end]))} true")
    case(f"part 2 1 {doubled} {written(text)}", "no part")
    case(f"part 0 {len(whole) + 1} {doubled} {written(text)}", "no part")
for front, back in [("", ""), ("", "a"), ("a", ""), ("ab", "cd"), ("\ud83d", "\ude00"), ("\ude00", "\ud83d")]:
    case(f"joined {written(front)} {written(back)}", told(text_of_units(units(front) + units(back))))

# by units: U+FF61 is less than U+10000 as a code point, and greater than each unit of its pair
ORDERED = ["", "a", "a\0", "ab", "b", "\ud800", "\ud800\udc00", "\uff61", "\uff61a"]
for i, a in enumerate(ORDERED):
    for j, b in enumerate(ORDERED):
        order = "less" if i < j else "equal" if i == j else "greater"
        same = "true" if i == j else "false"
        case(f"order {written(a)} {written(b)}", f"{order} {same} {same}")
for numbers, answer in [("1", "Some(1) 0 []"), ("1 2", "Some(1) 1 [7]"), ("3 2 1", "Some(3) 2 [7, 1]")]:
    case(f"listed {numbers}", answer)

# Values ------------------------------------------------------------------------------------------------------------------------

# 9.3.1: a text's number; what is outside the profile has none
NUMERALS = [("", 0), ("0", 0), ("-0", 0), ("+7", 7), ("-7", -7), ("0012", 12), ("0x1f", 31), ("0xaBcDeF", 11259375), (" 12 ", 12), (SPACES + LINE_ENDS, 0), (str(SAFE), SAFE), (str(-SAFE), -SAFE),
            (str(SAFE + 1), RANGE), (str(-SAFE - 1), RANGE), ("0x1fffffffffffff", SAFE), ("0x20000000000000", RANGE), ("18446744073709551616", RANGE), ("0x10000000000000000", RANGE),
            ("340282366920938463463374607431768211456", RANGE), ("000000000000000000000000000000000000001", 1), ("0x", NAN), ("0X1F", NAN), ("-0x1", NAN), ("+", NAN), ("-", NAN), ("+-1", NAN), ("1.5", NAN),
            ("1e3", NAN), ("Infinity", NAN), ("1 2", NAN), ("12a", NAN), ("0x1g", NAN), ("99999999999999999999.5", NAN), ("\x851", NAN), ("\u180e1", NAN), ("\u200b1", NAN), ("\ud8351", NAN), ("+ 1", NAN), ("0x 1", NAN)]
for text, number in NUMERALS:
    case(f"numeral {written(text)}", str(number))
for number in [SAFE, -SAFE, 0, SAFE + 1, -SAFE - 1, 2**127 - 1, -2**127]:
    case(f"whole {number}", str(number) if abs(number) <= SAFE else RANGE)


class Text(str):
    """A text of the language, beside Python's words for the other kinds."""


def value(v):
    """As a case writes it."""
    if isinstance(v, Text):
        return "'" + written(v)
    if isinstance(v, bool):
        return "true" if v else "false"
    return str(v)


def told_value(v):
    return "'" + shown(v) if isinstance(v, Text) else value(v)


# a value, its image and its truth (9.2)
VALUES = [(UNDEFINED, UNDEFINED, False), (NULL, NULL, False), (False, False, False), (True, True, True), (0, 0, False), (-1, -1, True), (NAN, NAN, False), (Text(""), Text(""), False),
          (Text("0"), Text("0"), True), (Text("\ud835"), Text("\ud835"), True), ("ref:0", "ref:0", True), ("native:0", "native:0", True), ("wrap:2:ref:1", "ref:1", True), ("wrap:2:1", "native:1", True)]
OBJECTS = ("ref", "native", "wrap")


def is_object(v):
    return isinstance(v, str) and not isinstance(v, Text) and v.startswith(OBJECTS)


for v, image, truth in VALUES:
    callable_ = v if is_object(v) else "none"
    case(f"value {value(v)}", f"{told_value(v)} | {told_value(image)} | {callable_} | {value(not is_object(v))} {value(truth)} {value(v != NAN or isinstance(v, Text))}")

# 11.9.6 on images: each is the same as itself, but NaN, and as no other
IMAGES = [(UNDEFINED, 1), (NULL, 2), (False, 3), (True, 4), (0, 5), (1, 6), (NAN, None), (Text(""), 7), (Text("0"), 8), (Text("\ud835"), 9), ("ref:1", 10), ("ref:2", 11), ("native:1", 12), ("native:2", 13),
          ("wrap:2:ref:1", 10), ("wrap:3:ref:1", 10), ("wrap:2:1", 12), ("wrap:3:1", 12), ("wrap:2:ref:3", 14)]
for v, a in IMAGES:
    for w, b in IMAGES:
        case(f"=== {value(v)} {value(w)}", value(a is not None and a == b))

# Operators ---------------------------------------------------------------------------------------------------------------------

# the kinds of operands at their edges, each with its number (9.3) and its text (9.8)
KINDS = [(UNDEFINED, NAN, "undefined"), (NULL, 0, "null"), (False, 0, "false"), (True, 1, "true"), (0, 0, "0"), (12, 12, "12"), (-3, -3, "-3"), (SAFE, SAFE, str(SAFE)), (-SAFE, -SAFE, str(-SAFE)),
         (2**32, 2**32, "4294967296"), (2**31, 2**31, "2147483648"), (-1, -1, "-1"), (33, 33, "33"), (NAN, NAN, "NaN"), (Text(""), 0, ""), (Text("0x"), NAN, "0x"), (Text(" 12 "), 12, " 12 "), (Text("-3"), -3, "-3"),
         (Text("null"), NAN, "null"), (Text("\ud835"), NAN, "\ud835"), (Text(str(SAFE + 1)), RANGE, str(SAFE + 1))]



def signed(x):
    return x - 2**32 if x >= 2**31 else x


for v, number, text in KINDS:
    if number == RANGE:
        case(f"number_of {value(v)}", RANGE)
    else:
        n = 0 if number == NAN else number  # ToInteger, ToInt32 and ToUint32 (9.4 to 9.6)
        case(f"number_of {value(v)}", f"{number} {n} {signed(n % 2**32)} {n % 2**32}")
    case(f"text_of {value(v)}", "'" + shown(text))


def profiled(n):
    return str(n) if abs(n) <= SAFE else RANGE


def arithmetic(op, m, n):
    """11.5 and 11.6.2 on numbers: NaN takes all, a quotient is whole or thrown, a remainder has the dividend's sign."""
    if NAN in (m, n):
        return NAN
    if op == "-":
        return profiled(m - n)
    if op == "*":
        return profiled(m * n)
    if op == "/":
        if n == 0:
            return NAN if m == 0 else RANGE
        return profiled(m // n) if m % n == 0 else RANGE
    if n == 0:
        return NAN
    return profiled((abs(m) % abs(n)) * (-1 if m < 0 else 1))


def bitwise(op, m, n):
    """11.7 and 11.10 on 32 bits, of which NaN has none; a count is modulo 32."""
    x, y = (0 if k == NAN else k % 2**32 for k in (m, n))
    count = y % 32
    if op == ">>>":
        return x >> count
    if op == ">>":
        return signed(x) >> count
    return signed({"&": x & y, "|": x | y, "^": x ^ y, "<<": (x << count) % 2**32}[op])


for v, m, s in KINDS:
    for w, n, t in KINDS:
        both = f"{value(v)} {value(w)}"
        texts = isinstance(v, Text) and isinstance(w, Text)
        thrown = RANGE in (m, n)
        if isinstance(v, Text) or isinstance(w, Text):
            total = "'" + shown(s + t)
        else:
            total = NAN if NAN in (m, n) else profiled(m + n)
        case(f"+ {both}", str(total))
        for op in ["-", "*", "/", "%"]:
            case(f"{op} {both}", RANGE if thrown else str(arithmetic(op, m, n)))
        for op in ["&", "|", "^", "<<", ">>", ">>>"]:
            case(f"{op} {both}", RANGE if thrown else str(bitwise(op, m, n)))
        if texts:
            case(f"< {both}", option(value(units(s) < units(t))))
        else:
            case(f"< {both}", RANGE if thrown else "None" if NAN in (m, n) else option(value(m < n)))
        missing = [x in (UNDEFINED, NULL) and not isinstance(x, Text) for x in (v, w)]
        if any(missing):
            case(f"== {both}", value(all(missing)))
        elif texts:
            case(f"== {both}", value(units(s) == units(t)))
        else:
            case(f"== {both}", RANGE if thrown else value(m == n and m != NAN))

# `==` with objects (11.9.3): two are equal where they are the same; undefined and null equal none; any other value converts the object
for v, _, _ in KINDS:
    for o in ["ref:1", "native:1", "wrap:2:ref:1", "wrap:2:1"]:
        missing = v in (UNDEFINED, NULL) and not isinstance(v, Text)
        case(f"== {value(v)} {o}", "false" if missing else "Right Default")
        case(f"== {o} {value(v)}", "false" if missing else "Left Default")
for v, a in IMAGES[9:]:
    for w, b in IMAGES[9:]:
        if is_object(v) and is_object(w):
            case(f"== {v} {w}", value(a == b))

# rows of the operators at their edges
for a, op, b, answer in [(7, "%", -3, 1), (-7, "%", 3, -1), (-6, "%", 3, 0), (1, "/", 3, RANGE), (6, "/", -3, -2), (-6, "/", 4, RANGE), (0, "/", -5, 0), (SAFE, "-", -1, RANGE), (SAFE, "*", 2, RANGE), (94906267, "*", 94906267, RANGE),
                         (1, "<<", 31, -2**31), (1, "<<", 32, 1), (-1, ">>>", 0, 2**32 - 1), (-1, ">>", 31, -1), (2**31, ">>", 31, -1), (2**32 + 5, "|", 0, 5), (5, "<<", -1, -2**31)]:
    case(f"{op} {a} {b}", str(answer))


def main():
    folder = pathlib.Path(__file__).resolve().parent.parent / "crates" / "value_answers"
    (folder / "stdin").write_text("".join(line + "\n" for line in CASES), encoding="utf-8")
    (folder / "stdout").write_text("".join(line + "\n" for line in ANSWERS), encoding="utf-8")
    print(f"{len(CASES)} cases")


if __name__ == "__main__":
    main()
