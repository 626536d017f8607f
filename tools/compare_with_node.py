#!/usr/bin/env python3
"""Compares what our program accepts as a script with what node accepts.

    tools/compare_with_node.py [--count N] [--seed S] [--texts FILE] [--at-a-time M] PROGRAM [ARGUMENT ...]

Makes N random scripts of the profile, half of them with tokens put in, left out, exchanged or moved, and writes them to FILE, one to
a line, as `page TEXT` with `\\n` for a line feed. PROGRAM is run for M texts at a time. It reads such lines on its standard input and
answers each with a line that begins with `accepted`, `unexpected` and a place, or `too deep` and a place, where the place is that of
the refused token; other lines of its output are passed over. node compiles each text without running it, not in strict mode.

Where both refuse and node says at which token, the places are compared too. Scripts have only words of edition 5.1 of ECMA-262, one
slash at most, so that it can't begin a regular expression, and spaces between all tokens, so that no later edition's token comes
about. What node takes and the profile doesn't is told by the refused token and counted under a name; the rest is printed. The status
is 1 where something is printed.
"""
import argparse
import collections
import json
import random
import re
import subprocess
import sys

NODE = """
const vm = require("vm"), out = [];
for (const text of JSON.parse(require("fs").readFileSync(0, "utf8"))) {
    try { new vm.Script(text, { filename: "t" }); out.push(null); }
    catch (e) {
        if (!(e instanceof SyntaxError)) throw e;
        const m = /^t:(\\d+)\\n[^\\n]*\\n( *)\\^/.exec(e.stack);
        out.push([e.message, m ? +m[1] : 0, m ? m[2].length : 0]);
    }
}
process.stdout.write(JSON.stringify(out));
"""

BINARY = "* / % + - << >> >>> < > <= >= instanceof in == != === !== & ^ | && ||".split()
ASSIGNMENTS = "= += -= *= /= %= <<= >>= >>>= &= ^= |=".split()

# behind these an operand stands
BEFORE_OPERANDS = BINARY + ASSIGNMENTS + "( [ , ? ! ~ typeof void delete new return throw case".split()

# Each part of a script, and what it may be; the first is the simplest. Words in small letters and signs are tokens.
GRAMMAR = r"""
Script: Source | Source Source | Source Source Source
Source: Statement | Statement | Statement | Statement | function Name ( Parameters ) { Body }
Parameters: | Name | Name , Name
Body: | Source | Source Source | Return | Source Return
Return: return End | return Expression End
End: ; | ; | \n | \n | ; \n
Block: { } | { Statement } | { Statement Statement }
Statement: Simple | Simple | Simple | Block | if ( Expression ) Statement | if ( Expression ) Statement else Statement | Loop | Loop
    | switch ( Expression ) { Cases } | switch ( Expression ) { Cases default : Case Cases } | try Block Handlers | Labelled | Wild
Simple: Expression End | Expression End | Expression End | Expression End | Var End | ; | throw Expression End
Loop: while ( Expression ) Inner | do Inner while ( Expression ) | do Inner while ( Expression ) End
    | for ( First ; Perhaps ; Perhaps ) Inner | for ( Chosen in Expression ) Inner
Inner: Statement | Statement | { Statement Jump End } | if ( Expression ) Jump End | Jump End
Jump: break | continue
Cases: | case Expression : | case Expression : Case | case Expression : Case case Expression : Case
Case: Statement | break End | Statement Statement
Handlers: catch ( Name ) Block | finally Block | catch ( Name ) Block finally Block
Labelled: Label : Statement | k : Loop | k : while ( Expression ) { Statement Jump k End } | m : do if ( Expression ) Jump m End while ( Expression )
    | k : m : for ( ; ; ) while ( Expression ) { Jump k End Jump m End } | n : { Statement break n End }
Wild: Simple | Jump End | Jump Label End | Return | Label : Label : Statement | switch ( Name ) { Cases default : Cases default : }
    | Label : while ( Name ) { Expression , function ( ) { Wild } ; Wild } | Label : { while ( Name ) Wild }
Var: var Declared | var Declared , Declared
Declared: Name | Name = Assignment
First: Perhaps | Perhaps | Var | Var | Operation in Operation | Name ? Operation in Operation : Name | var Name = Operation in Operation
Perhaps: | Expression
Chosen: Name | var Name | ( Name )
Expression: Assignment | Assignment | Assignment | Assignment | Assignment , Expression
Assignment: Unary | Unary | Operation | Target Assign Assignment | Operation ? Assignment : Assignment
Operation: Unary | Unary Binary Unary | Unary Binary Operation | Unary Binary Unary Binary Unary
Unary: Operand | Operand | Operand | Prefix Unary | Update Target | Target Update | delete Operand . Key | delete Operand [ Expression ]
Target: Name | Name | Operand . Key | Operand [ Expression ] | ( Target )
Operand: Name | Name | Literal | Target | ( Expression ) | Operand Arguments | new Operand | new Operand Arguments | [ Elements ] | { Entries }
    | function ( Parameters ) { Body } | function Name ( Parameters ) { Body }
Arguments: ( ) | ( Assignment ) | ( Assignment , Assignment )
Elements: | Assignment | , | Assignment , , Assignment | Assignment , Elements
Entries: | Entry | Entry , | Entry , Entry
Entry: Key : Assignment | Literal : Assignment
Key: Name | Name | if | in | new | class | this | default | function | null | with | enum | return
Name: a | b | c | d | f | g | x | y
Label: k | m | n
Literal: 0 | 1 | 12 | 0x1F | 's' | "t" | null | true | false | this
Prefix: void | typeof | + | - | ~ | !
Update: ++ | --
"""
# what is put in, or stands in the place of another one
TOKENS = ("{ } ( ) [ ] . ; , < + - * ++ -- ! ~ ? : = += && in instanceof break case catch continue default delete do else finally for function if "
          "new return switch this throw try typeof var void while null true a b f k m 1 's' { } ( ) [ ] ; , : \n \n \n").split(" ")


def productions():
    out = {
        "Assign": [[token] for token in ASSIGNMENTS + ["=", "="]],
        "Binary": [[token] for token in BINARY + ["+", "-", "&&", "||"]],
    }
    for rule in GRAMMAR.replace("\n    ", " ").strip().split("\n"):
        part, _, alternatives = rule.partition(": ")
        out[part] = [[token.replace("\\n", "\n") for token in one.split()] for one in alternatives.split("|")]
    return out


PRODUCTIONS = productions()


def random_tokens(part, depth, rng):
    if part not in PRODUCTIONS:
        return [part]
    alternatives = PRODUCTIONS[part]
    tokens = []
    simple = depth <= 0 and any(inner in PRODUCTIONS for inner in sum(alternatives, []))
    for inner in alternatives[0] if simple else rng.choice(alternatives):
        tokens += random_tokens(inner, depth - 1, rng)
    return tokens


def with_fault(tokens, rng):
    k, token = rng.randrange(len(tokens) + 1), rng.choice(TOKENS)
    kind = rng.choice(("put in", "left out", "exchanged", "moved"))
    if kind == "put in" or k == len(tokens):
        return tokens[:k] + [token] + tokens[k:]
    if kind == "left out":
        return tokens[:k] + tokens[k + 1:]
    if kind == "exchanged":
        return tokens[:k] + [token] + tokens[k + 1:]
    rest = tokens[:k] + tokens[k + 1:]
    j = rng.randrange(len(rest) + 1)
    return rest[:j] + [tokens[k]] + rest[j:]


def random_script(rng):
    tokens = random_tokens("Script", rng.randrange(4, 15), rng)
    while len(tokens) > 120:
        tokens = random_tokens("Script", rng.randrange(4, 15), rng)
    for _ in range(rng.choice((0, 0, 0, 1, 1, 2))):
        tokens = with_fault(tokens, rng)
    return one_slash(tokens)


def one_slash(tokens):
    out, slashes = [], 0
    for token in tokens:
        if token in ("/", "/="):
            slashes += 1
            token = token if slashes == 1 else token.replace("/", "*")
        out.append(token)
    return out


def joined(tokens, rng):
    """The text, and each token with its first unit."""
    text, places = "", []
    for token in tokens:
        if token == "\n":
            text += "\n"
            continue
        if text and text[-1] != "\n":
            text += " " if rng.randrange(60) else "\n"
        places.append((len(text), token))
        text += token
    return text, places


def is_name(token):
    return re.fullmatch(r"[A-Za-z_]\w*", token) is not None


def opened(tokens):
    """The numbers of the brackets that are open behind these tokens."""
    out = []
    for k, token in enumerate(tokens):
        if token in ("(", "[", "{"):
            out.append(k)
        elif token in (")", "]", "}") and out:
            out.pop()
    return out


def ends_with_call(tokens):
    """Whether a call stands last, in parentheses or not."""
    while tokens and tokens[-1] == ")":
        before = opened(tokens[:-1])
        if not before:
            return False
        callee = tokens[before[-1] - 1] if before[-1] else ";"
        if is_name(callee) or callee[0] in ")]}'\"0123456789":
            return True
        tokens = tokens[:-1]
    return False


def profile(token, tokens):
    """Why node goes on at this token behind these ones where the profile doesn't; None where that isn't known."""
    before = tokens[-1] if tokens else ""
    opens = opened(tokens)
    inner = tokens[opens[-1]] if opens else ""
    head = tokens[max(opens[-1] - 2, 0):opens[-1]] if opens else []
    in_parentheses = len(opens) > 1 and tokens[opens[-2]] != "{" and head[-1] != ")"
    in_object = inner == "{" and (in_parentheses or head != [] and head[-1] in BEFORE_OPERANDS + [":", "++", "--"])
    assigns = token.endswith("=") and token in ASSIGNMENTS
    if token == "function" and before not in BEFORE_OPERANDS:
        return "a function declared within a statement"
    if token == "." and before == "new":
        return "new.target"
    if token in ("class", "with"):
        return "a class or with"
    if token == "*" and (before == "function" or in_object and before in ("{", ",")):
        return "a generator"
    if token == "in" and inner == "(" and head[-1:] == ["for"]:
        return "a target of for in that is no name, or has a value"
    if token == ")" and before == "," and inner == "(":
        return "a comma behind the last argument or parameter"
    if in_object and (token in ("}", ",", "=", "(") and tokens[-2] in ("{", ",") or token == "[" and before in ("{", ",")):
        return "a property without a colon"
    if inner == "(" and "function" in head and token in ("=", "[", "{") or token in ("[", "{") and (before in ("var", ",") or head[-1:] == ["catch"]):
        return "a pattern, or a parameter with a value"
    if assigns and before in ("]", "}"):
        return "a pattern as a target"
    if token == "{" and before == "catch":
        return "a catch without a name"
    if ends_with_call(tokens) and (assigns or token in ("++", "--") or "++" in tokens or "--" in tokens):
        return "a call as a target"
    if "delete" in tokens:
        operand = [t for t in tokens[len(tokens) - tokens[::-1].index("delete"):] if t not in ("(", ")")]
        if len(operand) == 1 and is_name(operand[0]):
            return "delete of a name"
    return None


def ask(command, text):
    return subprocess.run(command, input=text, stdout=subprocess.PIPE, stderr=subprocess.DEVNULL, text=True, encoding="utf-8", check=False).stdout


def main():
    parser = argparse.ArgumentParser(description="Compares what our program accepts as a script with what node accepts.")
    parser.add_argument("--count", type=int, default=20000)
    parser.add_argument("--seed", type=int, default=1)
    parser.add_argument("--texts", default="texts.txt")
    parser.add_argument("--at-a-time", type=int, default=2000)
    parser.add_argument("program", nargs=argparse.REMAINDER)
    given = parser.parse_args()
    rng = random.Random(given.seed)
    made = {}
    while len(made) < given.count:
        text, places = joined(random_script(rng), rng)
        made[text] = places
    lines = ["page %s\n" % text.replace("\n", "\\n") for text in made]
    with open(given.texts, "w", encoding="utf-8") as out:
        out.writelines(lines)
    ours = []
    for k in range(0, len(lines), given.at_a_time):
        answers = ask(given.program, "".join(lines[k:k + given.at_a_time]))
        ours += [line for line in answers.split("\n") if re.match(r"accepted|unexpected \d|too deep \d", line)]
    theirs = json.loads(ask(["node", "-e", NODE], json.dumps(list(made))))
    if len(ours) != len(made) or len(theirs) != len(made):
        sys.exit("%d texts, %d answers of ours, %d of node" % (len(made), len(ours), len(theirs)))
    counts, left = collections.Counter(), 0
    for (text, places), our, their in zip(made.items(), ours, theirs):
        place = None if our.startswith("accepted") else int(our.split(" ")[-1])
        node_place = None
        if their and their[0] == "Unexpected end of input":
            node_place = len(text)
        elif their and their[0].startswith("Unexpected "):
            node_place = sum(len(line) + 1 for line in text.split("\n")[:their[1] - 1]) + their[2]
        if place is None and their is None:
            counts["both accept"] += 1
        elif place is not None and their and node_place in (None, place):
            counts["both refuse" + (", at the same place" if node_place is not None else "")] += 1
        else:
            tokens = [token for at, token in places if place is not None and at < place]
            why = place is not None and profile(dict(places).get(place, ""), tokens)
            # node names the key of a property without a colon, where it is a reserved word
            if why and (their is None or node_place > place or (node_place, tokens[-1]) in places):
                counts["profile: " + why] += 1
            else:
                left += 1
                print("%s\n    ours: %s    node: %s" % (json.dumps(text), our.split(" Program")[0], their and "%s at %s" % (their[0], node_place) or "accepts"))
    for what, count in sorted(counts.items()):
        print("%7d %s" % (count, what))
    print("%7d left of %d" % (left, len(made)))
    return 1 if left else 0


if __name__ == "__main__":
    sys.exit(main())
