"""Cases for objects and scopes (ECMA-262 edition 5.1, 8.6, 8.12, 10.2, 12.6.4, 15.4).

python3 tools/heap_cases.py writes the standard input of the program heap_answers, a case a line, and what it must print. The answers come
from the model below, which keeps an object's properties as a plain list and goes through it for each question; it was written from the
standard's clauses, apart from the crate's code and definitions. The rows of the first part stand here with their answers, derived by hand,
and the model is held to them. Nothing here is taken from what the program printed.
"""

import pathlib
import random

CASES, ANSWERS = [], []
INDEX_END = 2**32 - 1
ERRORS = {9, 10, 11, 12}


def index_of(name):
    """The array index that the name is, or None (15.4)."""
    if name == "0" or (name and name[0] in "123456789" and all(c in "0123456789" for c in name)):
        return int(name) if int(name) < INDEX_END else None
    return None


class Model:
    def __init__(self):
        # the window and the prototypes: the first has none, those of four error names have that of Error
        self.objects = [["Builtin", None if i == 0 else 8 if i in ERRORS else 0, []] for i in range(16)]
        self.scopes = []

    def own(self, o, name):
        return next((p for p in self.objects[o][2] if p[0] == name), None)

    def chain(self, o):
        while o is not None:
            yield o
            o = self.objects[o][1]

    def get(self, o, name):
        for at in self.chain(o):
            found = self.own(at, name)
            if found:
                return found[1]
        return "none"

    def keys(self, o):
        seen, names = set(), []
        for at in self.chain(o):
            for name, _, listed in self.objects[at][2]:
                if name not in seen and listed:
                    names.append(name)
                seen.add(name)
        return names

    def cut(self, o, length):
        """15.4.5.1, step 3: the elements from the new length on go, then the length changes."""
        kept = [p for p in self.objects[o][2] if index_of(p[0]) is None or index_of(p[0]) < length]
        self.objects[o][2] = kept
        self.own(o, "length")[1] = str(length)

    def put(self, o, name, value, listed):
        is_array = self.objects[o][0] == "Array"
        if is_array and name == "length":
            if not value.isdecimal() or int(value) > INDEX_END:
                return "bad length"
            self.cut(o, int(value))
            return "put"
        found = self.own(o, name)
        if found:
            found[1] = value
        else:
            self.objects[o][2].append([name, value, listed])
        index = index_of(name)
        if is_array and index is not None and index >= int(self.own(o, "length")[1]):
            self.own(o, "length")[1] = str(index + 1)
        return "put"

    def remove(self, o, name):
        found = self.own(o, name)
        if not found or (self.objects[o][0] == "Array" and name == "length"):
            return "false"
        self.objects[o][2].remove(found)
        return "true"

    def holder(self, s, name):
        while s is not None:
            found = next((b for b in self.scopes[s][1] if b[0] == name), None)
            if found:
                return found
            s = self.scopes[s][0]
        return None


MODEL = Model()


def named(word):
    return int(word) if word.isdecimal() else None


def is_there(value):
    kind, _, number = value.partition(":")
    return kind not in ("object", "wrap") or int(number) < len(MODEL.objects)


def answer(line):
    global MODEL
    words = line.split(" ")
    word, rest = words[0], words[1:]
    if word == "anew":
        MODEL = Model()
        return "anew"
    if word == "root":
        return "roots " + " ".join(map(str, range(16)))
    if word == "new":
        kind, part = rest[1], (rest[2] if len(rest) > 2 else "")
        if kind == "function" and not (part.isdecimal() and int(part) < len(MODEL.scopes)) or kind == "bound" and not is_there(part):
            return "not there"
        shown = {"array": "Array", "date": "Date", "error": "Error", "function": "Function", "bound": "Bound"}.get(kind, "Object")
        prototype = named(rest[0])
        if prototype is not None and prototype >= len(MODEL.objects):
            prototype = None
        MODEL.objects.append([shown, prototype, [["length", "0", False]] if shown == "Array" else []])
        return str(len(MODEL.objects) - 1)
    if word == "scope":
        parent = named(rest[0])
        if parent is not None and parent >= len(MODEL.scopes):
            parent = None
        MODEL.scopes.append([parent, []])
        return str(len(MODEL.scopes) - 1)
    at, count = int(rest[0]), len(MODEL.scopes if word in ("declare", "assign", "look") else MODEL.objects)
    if at >= count:
        return "not there"
    if word == "object":
        return f"{MODEL.objects[at][0]} {'-' if MODEL.objects[at][1] is None else MODEL.objects[at][1]}"
    if word == "keys":
        return " ".join(["keys"] + MODEL.keys(at))
    if word == "get" or word == "at":
        return MODEL.get(at, rest[1])
    if word == "own":
        found = MODEL.own(at, rest[1])
        return found[1] if found else "none"
    if word == "remove":
        return MODEL.remove(at, rest[1])
    if word == "length":
        if MODEL.objects[at][0] != "Array":
            return "no array"
        MODEL.cut(at, int(rest[1]))
        return "cut"
    if word == "look":
        found = MODEL.holder(at, rest[1])
        return found[1] if found else "none"
    if not is_there(rest[2]):
        return "not there"
    if word in ("put", "hide", "set"):
        return MODEL.put(at, rest[1], rest[2], word != "hide")
    if word == "assign":
        found = MODEL.holder(at, rest[1])
        if found:
            found[1] = rest[2]
        return "true" if found else "false"
    assert word == "declare", line
    names = MODEL.scopes[at][1]
    found = next((b for b in names if b[0] == rest[1]), None)
    if found:
        found[1] = rest[2]
    else:
        names.append([rest[1], rest[2]])
    return "declared"


def case(line, expected=None):
    told = answer(line)
    assert expected is None or told == expected, (line, told, expected)
    CASES.append(line)
    ANSWERS.append(told)


def rows(text):
    for row in text.strip().split("\n"):
        line, _, expected = row.partition(" = ")
        case(line.strip(), expected.strip() or None)


# Rows ----------------------------------------------------------------------------------------------------------------------------

rows("""
root = roots 0 1 2 3 4 5 6 7 8 9 10 11 12 13 14 15
object 0 = Builtin -
object 1 = Builtin 0
object 9 = Builtin 8
object 16 = not there
""")

# the order of properties, and names that are deleted and added again
rows("""
new 0 plain = 16
put 16 b 1 = put
put 16 a 2 = put
put 16 2 3 = put
put 16 1 4 = put
keys 16 = keys b a 2 1
put 16 a 5 = put
keys 16 = keys b a 2 1
own 16 a = 5
remove 16 b = true
remove 16 b = false
own 16 b = none
keys 16 = keys a 2 1
put 16 b 6 = put
keys 16 = keys a 2 1 b
hide 16 c 7 = put
keys 16 = keys a 2 1 b
put 16 c 8 = put
keys 16 = keys a 2 1 b
own 16 c = 8
hide 16 a 9 = put
keys 16 = keys a 2 1 b
remove 16 c = true
put 16 c 10 = put
keys 16 = keys a 2 1 b c
put 16 length -1 = put
own 16 length = -1
remove 16 length = true
""")

# small objects that grow past eight and shrink again
rows("new 16 plain = 17")
for n in range(12):
    case(f"put 17 n{n} {n}", "put")
    case(f"own 17 n{n}", str(n))
    case(f"own 17 n{n + 1}", "none")
case("keys 17", "keys n0 n1 n2 n3 n4 n5 n6 n7 n8 n9 n10 n11 a 2 1 b c")
for n in [0, 11, 5, 7, 8, 1, 2]:
    case(f"remove 17 n{n}", "true")
    case(f"own 17 n{n}", "none")
case("keys 17", "keys n3 n4 n6 n9 n10 a 2 1 b c")
for n in [5, 0, 11]:
    case(f"put 17 n{n} {n}", "put")
case("keys 17", "keys n3 n4 n6 n9 n10 n5 n0 n11 a 2 1 b c")
for n in range(12):
    case(f"own 17 n{n}", str(n) if n in (3, 4, 6, 9, 10, 5, 0, 11) else "none")

# prototypes: a put stays with the object, an own unlisted name hides a listed one above
rows("""
get 17 a = 9
own 17 a = none
put 17 a 11 = put
get 17 a = 11
own 16 a = 9
hide 17 b 12 = put
keys 17 = keys n3 n4 n6 n9 n10 n5 n0 n11 a 2 1 c
get 17 b = 12
remove 17 b = true
get 17 b = 6
keys 17 = keys n3 n4 n6 n9 n10 n5 n0 n11 a 2 1 b c
new 17 plain = 18
hide 18 1 13 = put
hide 16 z 14 = put
put 18 z 15 = put
keys 18 = keys z n3 n4 n6 n9 n10 n5 n0 n11 a 2 b c
put 0 o object:18 = put
get 18 o = object:18
get 1 o = object:18
keys 18 = keys z n3 n4 n6 n9 n10 n5 n0 n11 a 2 b c o
put 18 o object:19 = not there
put 18 o wrap:18 = put
get 18 o = wrap:18
new - plain = 19
get 19 o = none
keys 19 = keys
object 19 = Object -
new 18 date = 20
object 20 = Date 18
""")

# arrays
rows("""
anew
new 3 array = 16
own 16 length = 0
keys 16 = keys
put 16 0 'a = put
own 16 length = 1
put 16 4 'e = put
own 16 length = 5
keys 16 = keys 0 4
at 16 0 = 'a
at 16 1 = none
set 16 1 'b = put
at 16 1 = 'b
set 16 1 'B = put
keys 16 = keys 0 4 1
own 16 1 = 'B
own 16 length = 5
put 16 length 2 = put
keys 16 = keys 0 1
own 16 4 = none
own 16 length = 2
put 16 length 7 = put
own 16 length = 7
keys 16 = keys 0 1
put 16 name 1 = put
put 16 01 2 = put
put 16 -0 3 = put
own 16 length = 7
put 16 length 0 = put
keys 16 = keys name 01 -0
put 16 length -1 = bad length
put 16 length 4294967296 = bad length
put 16 length NaN = bad length
put 16 length '3 = bad length
put 16 length undefined = bad length
put 16 length object:16 = bad length
own 16 length = 0
put 16 length 4294967295 = put
own 16 length = 4294967295
put 16 4294967294 1 = put
own 16 length = 4294967295
put 16 4294967295 2 = put
put 16 4294967296 3 = put
own 16 length = 4294967295
keys 16 = keys name 01 -0 4294967294 4294967295 4294967296
put 16 length 4294967294 = put
own 16 length = 4294967294
keys 16 = keys name 01 -0 4294967295 4294967296
set 16 4294967294 4 = put
own 16 length = 4294967295
at 16 4294967294 = 4
set 16 4294967295 5 = put
own 16 4294967295 = 5
at 16 4294967295 = 5
own 16 length = 4294967295
length 16 0 = cut
own 16 length = 0
keys 16 = keys name 01 -0 4294967295 4294967296
remove 16 length = false
hide 16 length 1 = put
own 16 length = 1
remove 16 4294967295 = true
length 16 4294967294 = cut
own 16 length = 4294967294
put 16 4294967293 6 = put
own 16 length = 4294967294
length 3 5 = no array
set 3 5 7 = put
keys 3 = keys 5
at 16 5 = 7
keys 16 = keys name 01 -0 4294967296 4294967293 5
new 16 plain = 17
get 17 length = 4294967294
put 17 length -3 = put
put 17 9 1 = put
own 17 length = -3
set 17 9 2 = put
own 17 9 = 2
""")

# scopes
rows("""
scope - = 0
scope 0 = 1
scope 1 = 2
scope 0 = 3
look 2 x = none
assign 2 x 1 = false
declare 0 x 1 = declared
look 2 x = 1
assign 2 x 2 = true
look 0 x = 2
look 3 x = 2
declare 1 x 3 = declared
look 2 x = 3
look 3 x = 2
assign 2 x 4 = true
look 1 x = 4
look 0 x = 2
declare 1 x 5 = declared
look 2 x = 5
declare 2 y object:3 = declared
look 1 y = none
assign 1 y 6 = false
declare 2 z object:99 = not there
look 2 z = none
look 4 x = not there
new 2 function 2 = 18
object 18 = Function 2
new 2 function 4 = not there
new 2 bound object:18 = 19
new 2 bound wrap:20 = not there
object 19 = Bound 2
""")
for n in range(12):
    case(f"declare 3 n{n} {n}", "declared")
for n in range(12):
    case(f"assign 3 n{n} {n + 1}", "true")
    case(f"look 3 n{n}", str(n + 1))

# lengths cut by ranges that are shorter and longer than the list of properties
for count, low in [(3, 0), (8, 7), (9, 8), (9, 0), (20, 19), (20, 3), (200, 199), (200, 150), (200, 1)]:
    case("anew")
    case("new 3 array", "16")
    case("put 16 name 1")
    for i in range(count):
        case(f"set 16 {i} {i}")
    case(f"put 16 4294967295 2")
    case(f"length 16 {low}", "cut")
    case("keys 16", " ".join(["keys", "name"] + [str(i) for i in range(low)] + ["4294967295"]))
    case("own 16 length", str(low))
    for i in range(count - 1, -1, -1):
        case(f"length 16 {i}", "cut")
    case("own 16 length", "0")
    case("keys 16", "keys name 4294967295")

# Runs -----------------------------------------------------------------------------------------------------------------------------

NAMES = ["a", "b", "c", "length", "0", "1", "2", "3", "5", "8", "13", "21", "01", "4294967294", "4294967295", "x\\u0001y", "\\ud800"]
VALUES = ["undefined", "null", "NaN", "0", "1", "2", "3", "7", "4294967294", "4294967295", "4294967296", "-1", "'t", "object:0", "object:16", "native:3"]


def run(seed, count):
    draw = random.Random(seed)
    case("anew")
    for kind, prototype in [("plain", "0"), ("array", "3"), ("plain", "16"), ("array", "17"), ("error", "19"), ("plain", "18")]:
        case(f"new {prototype} {kind}")
    for parent in ["-", "0", "1", "1"]:
        case(f"scope {parent}")
    for _ in range(count):
        o, s, name, value = draw.randrange(16, 22), draw.randrange(4), draw.choice(NAMES), draw.choice(VALUES)
        o = draw.choice([o, o, o, 0, 3])
        number = draw.choice([0, 1, 2, 3, 5, 8, 13, 21, 34, 4294967294, 4294967295])
        case(draw.choice([f"put {o} {name} {value}", f"put {o} {name} {value}", f"hide {o} {name} {value}", f"set {o} {number} {value}",
                          f"set {o} {draw.randrange(40)} {value}", f"remove {o} {name}", f"length {o} {number}", f"get {o} {name}", f"own {o} {name}",
                          f"at {o} {number}", f"keys {o}", f"keys {o}", f"declare {s} {name} {value}", f"look {s} {name}", f"assign {s} {name} {value}"]))


for seed in range(8):
    run(seed, 500)

FOLDER = pathlib.Path(__file__).parent.parent / "crates" / "heap_answers"
(FOLDER / "stdin").write_text("".join(line + "\n" for line in CASES))
(FOLDER / "stdout").write_text("".join(line + "\n" for line in ANSWERS))
print(len(CASES), "cases")
