#!/usr/bin/env python3
"""Writes crates/term_answers/stdin and stdout: cases of terms and of the small host, and their answers,
derived by hand from the definitions of js_host, console_host and js_term and the clauses of ECMA-262
edition 5.1 that they cite. Nothing is taken from what the program prints."""
import os

SHOWN = [
    ("undefined", "undefined"), ("null", "null"), ("true", "true"), ("false", "false"),
    ("12", "12"), ("-7", "-7"), ("NaN", "NaN"), ("'a b", "a b"), ("'", ""), ("'\\u0007", "\\u0007"),
    ("object", "[object]"), ("array", "[array]"), ("arguments", "[object]"), ("date", "[object]"),
    ("function", "[function]"), ("bound", "[function]"),
    ("builtin", "[object]"), ("builtin 3", "[function]"),
    ("native 5", "[function]"), ("wrapped 5", "[function]"),
    ("wrap 0", "[object]"), ("wrap 900", "not there"),
    ("error - -", "Error"), ("error 'TypeError -", "TypeError"),
    ("error 'TypeError 'bad", "TypeError: bad"), ("error - 'bad", "Error: bad"),
    ("error 'E '", "E"), ("error 5 'x", "Error: x"), ("error 'E 7", "E"), ("error ' 'x", ": x"),
    ("error 'E wrap 0", "E"),
]

UNCAUGHT = [
    ("'oops", "uncaught oops"), ("undefined", "uncaught undefined"),
    ("error 'RangeError 'far", "uncaught RangeError: far"), ("array", "uncaught [array]"),
    ("wrap 900", "not there"),
]

CALLED = [
    ("undefined", "uncallable"), ("5", "uncallable"), ("'x", "uncallable"), ("true", "uncallable"),
    ("object", "uncallable"), ("array", "uncallable"), ("error - -", "uncallable"),
    ("date", "uncallable"), ("arguments", "uncallable"), ("builtin", "uncallable"),
    ("function", "page 3 5"), ("bound", "target [function] null 1"),
    ("builtin 7", "native 7"), ("native 9", "native 9"), ("wrapped 9", "native 9"),
    ("wrap 0", "uncallable"), ("wrap 900", "not there"),
]

COPIED = [
    ("break", "break"), ("break outer", "break outer"),
    ("continue", "continue"), ("continue outer", "continue outer"),
    ("return 5", "return 5"), ("return object", "return [object]"),
    ("throw 'x", "throw x"), ("throw error 'E 'm", "throw E: m"),
]

# The nodes, the last of which begins, and the numbers of its operands; or the value that it is.
BEGUN = [
    ("number 5", "value 5"), ("text a b", "value a b"), ("null", "value null"),
    ("true", "value true"),
    ("name x", []),
    ("number 1;number 2;add 0 1", [0, 1]),
    ("number 1;array 0 _ 0", [0, 0]), ("array", []),
    ("number 1;object k 0", [0]),
    ("name a;member 0 k", [0]), ("name a;name b;index 0 1", [0, 1]),
    ("name a;member 0 k;number 1;call 1 2", [0]),
    ("name a;name b;index 0 1;number 1;call 2 3", [0, 1]),
    ("name f;number 1;number 2;number 3;call 0 1 2 3", [0, 1, 2, 3]),
    ("name f;call 0", [0]),
    ("name a;typeof 0", []), ("number 1;typeof 0", [0]), ("name a;member 0 k;typeof 1", [1]),
    ("name a;member 0 k;delete 1", [0]), ("name a;name b;index 0 1;delete 2", [0, 1]),
    ("number 1;delete 0", [0]), ("name a;not 0", [0]),
    ("name a;number 1;assign 0 1", [1]), ("name a;member 0 k;number 1;assign 1 2", [0, 2]),
    ("name a;name b;index 0 1;number 1;assign 2 3", [0, 1, 3]),
    ("name a;number 1;increase 0 1", []), ("name a;member 0 k;number 1;increase 1 2", [0]),
    ("name a;name b;and 0 1", [0]),
    ("number 1;var x 0", [0]), ("var x", []),
    ("name a;expression 0", [0]), ("name a;expression 0;block 1 1", [1, 1]), ("block", []),
    ("name a;name b;if 0 1", [0]), ("name a;return 0", [0]), ("name a;throw 0", [0]),
]

# A statement list has no step; an array logs its elements; a throw makes a step, and so does each
# node that its completion meets.
RUN = [
    ("number 1;number 2;array 0 1", "1 | 1 2"),
    ("array", "1 |"),
    ("number 1;array 0;expression 1;number 2;array 3;expression 4;block 2 5", "2 | 1 | 2"),
    ("text oops;throw 0;number 2;array 2;block 1 3", "2 | uncaught oops"),
    ("number 2;array 0;text oops;throw 2;block 1 3", "3 | 2 | uncaught oops"),
    ("number 1;throw 0;array 1", "2 | uncaught 1"),
    ("number 1;throw 0;throw 1;expression 2;block 3", "4 | uncaught 1"),
    ("array;array 0", "2 | | undefined"),
    ("name x", "0"), ("number 5", "0"), ("null;block 0 0", "0"),
    ("number 1;number 2;number 3;number 4;array 0 1 2 3", "1 | 1 2 3 4"),
]


def begun(answer):
    if isinstance(answer, str):
        return answer
    count = len(answer)
    told = "".join(f" @{n}" for n in answer)
    return f"operands{told}, {count // 2} of {count}"


def cases():
    for word, rows in (("shown", SHOWN), ("uncaught", UNCAUGHT), ("called", CALLED)):
        for value, answer in rows:
            yield f"{word} {value}", answer
    yield from COPIED
    for nodes, answer in BEGUN:
        yield f"begin {nodes}", begun(answer)
    for nodes, answer in RUN:
        yield f"run {nodes}", answer
    # Behind the sixteen objects that a heap holds from the start stands the event.
    yield "host", "event 16, bare true, ends true, resumed true"
    yield "other", "no case"


def main():
    folder = os.path.join(os.path.dirname(__file__), "..", "crates", "term_answers")
    rows = list(cases())
    for name, column in (("stdin", 0), ("stdout", 1)):
        with open(os.path.join(folder, name), "w", encoding="utf-8") as file:
            file.write("".join(row[column] + "\n" for row in rows))


main()
