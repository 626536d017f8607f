"""Writes the cases of crates/command_answers: commands over disks and streams in memory, and what each answers.

python3 tools/command_cases.py writes the program's standard input, a case a line, and what it must print. The worked rows stand here with
their answers, derived by hand. The tables' answers come from the small recorder and replayer of thin pages below, written from the rules
of the formats (`docs/FORMATS.md`): a run is a list of what its steps ask, and not a machine; frames and lines are made from the whole run.
Nothing here is taken from what the program printed.
"""

import pathlib
import re

CASES, ANSWERS = [], []
BASE = b"http://a.test/"


def written(raw):
    """Bytes as a case's line writes them, and as its answer shows them."""
    def one(b):
        if b == 92:
            return "\\\\"
        if b == 10:
            return "\\n"
        return chr(b) if 32 <= b < 127 else f"\\x{b:02X}"
    return "".join(map(one, raw))


def said(code, out, err, moment):
    line = b"mugshot: " + err + b"\n" if err else b""
    return f"{code} [{written(out)}] [{written(line)}] {moment}"


def case(parts, answers):
    line = " & ".join(parts)
    assert "\n" not in line
    CASES.append(line)
    ANSWERS.append(" & ".join(answers))


# ---- sessions


def u(n, size):
    return n.to_bytes(size, "big")


def head(base, budget, page):
    return b"\0" + u(len(base), 4) + base + u(budget, 8) + u(len(page), 4) + page


def load(t):
    return b"\x03" + u(t, 8)


def now(v):
    return b"\x09" + u(v, 8)


def rand(w):
    return b"\x0a" + u(w, 4)


ENCODED = {"load": load, "now": now, "rand": rand}


def session(frames):
    """A session's bytes: the header, and each frame of its items' bytes behind an open gate."""
    out = b"MUGSHOT1"
    for frame in frames:
        out += b"\x01" + u(len(frame), 4) + frame
    return out + b"\0"


# ---- runs of thin pages: what a page's turn asks, step by step


def statements(page):
    """The calls of a thin page, each with its arguments; None where it isn't thin."""
    if page == b"":
        return []
    whole = re.fullmatch(rb"<script>(.*)</script>", page, re.S)
    if whole is None:
        return None
    body = whole[1][:-1] if whole[1].endswith(b";") else whole[1]
    calls = []
    for text in body.split(b";"):
        if text in (b"Date.now()", b"Math.random()"):
            calls.append((text, None))
            continue
        inner = re.fullmatch(rb"console\.log\((.*)\)", text)
        if inner is None:
            return None
        arguments = inner[1].split(b",")
        if len(arguments) > 8:
            return None
        for a in arguments:
            if a not in (b"Date.now()", b"Math.random()") and not (re.fullmatch(rb"0|[1-9][0-9]*", a) and int(a) < 2**53):
                return None
        calls.append((b"log", arguments))
    return calls


ASKS = {b"Date.now()": "now", b"Math.random()": "rand"}


def turn_steps(calls):
    """What each step of a load turn does after its start: nothing, ask, or log the arguments."""
    steps = [None]
    if calls:
        steps.append(None)
    for name, arguments in calls:
        if arguments is None:
            steps += [None, None, ASKS[name]]
            continue
        steps += [None, None]
        for a in arguments:
            if a in ASKS:
                steps += [None, None, ASKS[a]]
        steps.append(arguments)
    return steps + [None] * 4


class Run:
    """A run over what answers its questions, up to its budget."""

    def __init__(self, calls, budget, t, answer):
        self.inputs, self.logs, self.given = [], [], []
        self.steps, self.turns, self.end = 0, 0, "done"
        for step in ([("load", t)] + turn_steps(calls)) if t is not None else []:
            if self.steps == budget:
                self.end = "budget"
                return
            if isinstance(step, tuple):
                self.turns = 1
                self.inputs.append(step)
            elif isinstance(step, list):
                asked = sum(a in ASKS for a in step)
                left = self.given[len(self.given) - asked:]
                self.logs.append(b" ".join(str(left.pop(0)).encode() if a in ASKS else a for a in step))
            elif step is not None:
                value = answer(step)
                self.given.append(value)
                self.inputs.append((step, value))
            self.steps += 1


def recorded(calls, budget, t, nows, rands):
    left = {"now": list(nows), "rand": list(rands)}
    rest = {"now": t, "rand": 0}
    return Run(calls, budget, t, lambda kind: left[kind].pop(0) if left[kind] else rest[kind])


def lines_of(t, nows, rands):
    if t is None:
        return b""
    return b"load %d\n" % t + b"".join(b"now %d\n" % v for v in nows) + b"".join(b"rand %d\n" % w for w in rands)


class Capture:
    """What a capture of a page over the readings of a turn prints and writes. Short runs alone: their inputs fit a frame."""

    def __init__(self, page, t, nows, rands, budget):
        self.run = recorded(statements(page), budget, t, nows, rands)
        self.first = head(BASE, budget, page)
        self.frames = [self.first] + ([b"".join(ENCODED[k](v) for k, v in self.run.inputs)] if self.run.inputs else [])
        count, n = len(self.frames), len(self.run.inputs)
        self.acks = [b"ack 0 6\n"] + ([b"ack %d 10\n" % n] if n else [])
        self.last = (b"%s turns=%d dropped=0 steps=%d hidden=0 calls=0 nested=0 inputs=%d frames=%d\n"
                     % (self.run.end.encode(), self.run.turns, self.run.steps, n, count))
        self.out = b"".join(self.acks) + self.last
        self.moment = 2 + 4 * count
        self.code = 0 if self.run.end == "done" else 6
        self.err = b"" if self.code == 0 else b"budget of %d steps is used up" % budget
        self.listed = listed(BASE, budget, page, self.run.inputs)
        turn = b"turn 1 load %d\n" % t if self.run.turns else b""
        word = b"end" if self.run.end == "done" else b"budget"
        self.replayed = turn + b"".join(b"log " + l + b"\n" for l in self.run.logs) + (
            b"%s turns=%d steps=%d hidden=0 calls=0 nested=0 inputs=%d\n" % (word, self.run.turns, self.run.steps, n))


def listed(base, budget, page, inputs):
    text = b"head %s %d %d\n" % (base, budget, len(page))
    for kind, value in inputs:
        text += b"%s %d\n" % (kind.encode(), value)
    return text + b"records %d inputs %d\n" % (1 + len(inputs), len(inputs))


# ---- rows by hand

HEAD = head(BASE, 10_000_000, b"")
INPUTS = load(50) + now(60) + rand(7)
HAND_MADE = session([HEAD, INPUTS])
assert len(HAND_MADE) == 73
LIST = b"head http://a.test/ 10000000 0\nload 50\nnow 60\nrand 7\nrecords 4 inputs 3\n"
LOGS = b"<script>console.log(Math.random(),Date.now())</script>"
READS = b"<script>Date.now();Math.random();Math.random();Math.random()</script>"
LINES = b"load 50\nrand 7\nnow 60\n"
READ_LINES = b"load 50\nnow 60\nnow 61\nrand 7\n"


def changed(raw, place, byte):
    return raw[:place] + bytes([byte]) + raw[place + 1:]


def disk(raw, writes="-", reads="-"):
    return f"disk {writes} {reads} {written(raw)}"


FOREIGN = session([head(BASE, 10_000_000, b"\xff\xfe\xfd")])
for raw, code, out, err in [
    (HAND_MADE, 0, LIST, b""),
    (changed(HAND_MADE, 58, 8), 40, b"", b"not built yet"),
    (changed(HAND_MADE, 58, 11), 9, b"", b"damaged session at 45"),
    (changed(HAND_MADE, 13, 255), 9, b"", b"damaged session at 9"),
    (FOREIGN, 0, b"head http://a.test/ 10000000 3\nrecords 1 inputs 0\n", b""),
    (b"MUGSHOT1", 8, b"", b"not a session"),
    (b"MUGSHOT1\x01\xff\xff\xff\xff", 0, b"records 0 inputs 0\n", b""),
]:
    case([disk(raw), "do list s"], [said(code, out, err, 0)])
case([disk(FOREIGN), "do replay s"], [said(40, b"", b"not built yet", 0)])
case([disk(b"MUGSHOT1\0"), "do replay s"], [said(8, b"", b"not a session", 0)])

for words in [
    ".", "list", "list ", "list --all", "list s t", "capture a", "capture a b --c", "dump s 01", "capture a b c --steps 0",
    "capture a b c --steps 1000000001", "capture a b c --steps 07", "capture a b c --step 7", "replay s --every",
    "capture a b c --steps", "capture a b c --steps 7 7", "capture a b c d", "capture  b c", "capture a  c", "capture --a b c",
    "replay", "replay ", "replay s t", "Replay s", "lists s", "capture a b c --steps +7", "capture a b c --steps 1e3", "--help",
]:
    case([f"page - {written(LOGS)}", f"lines - {written(LINES)}", f"do {words}"], [said(2, b"", b"usage", 0)])
case([f"page - {written(LOGS)}", f"lines - {written(LINES)}", "do capture a b c --steps 1000000000"],
     [said(0, b"ack 0 6\nack 3 10\ndone turns=1 dropped=0 steps=16 hidden=0 calls=0 nested=0 inputs=3 frames=2\n", b"", 10)])


def stands(page, lines, steps, captured, listing, replayed, err, code, moment):
    """A page is captured, listed and replayed, and isn't captured into the same session again."""
    capture = f"do capture p a s --steps {steps}" if steps else "do capture p a s"
    case([f"page - {written(page)}", f"lines - {written(lines)}", capture, "do list s", "do replay s", capture],
         [said(code, captured, err, moment), said(0, listing, b"", moment), said(code, replayed, err, moment),
          said(7, b"", b"session is not empty", moment)])


HAND_ROWS = [
    (b"", b"", "", b"ack 0 6\ndone turns=0 dropped=0 steps=0 hidden=0 calls=0 nested=0 inputs=0 frames=1\n",
     b"head http://a.test/ 10000000 0\nrecords 1 inputs 0\n", b"end turns=0 steps=0 hidden=0 calls=0 nested=0 inputs=0\n", b"", 0, 6),
    (READS, READ_LINES, "19",
     b"ack 0 6\nack 5 10\ndone turns=1 dropped=0 steps=19 hidden=0 calls=0 nested=0 inputs=5 frames=2\n",
     b"head http://a.test/ 19 69\nload 50\nnow 60\nrand 7\nrand 0\nrand 0\nrecords 6 inputs 5\n",
     b"turn 1 load 50\nend turns=1 steps=19 hidden=0 calls=0 nested=0 inputs=5\n", b"", 0, 10),
    (READS, READ_LINES, "18",
     b"ack 0 6\nack 5 10\nbudget turns=1 dropped=0 steps=18 hidden=0 calls=0 nested=0 inputs=5 frames=2\n",
     b"head http://a.test/ 18 69\nload 50\nnow 60\nrand 7\nrand 0\nrand 0\nrecords 6 inputs 5\n",
     b"turn 1 load 50\nbudget turns=1 steps=18 hidden=0 calls=0 nested=0 inputs=5\n", b"budget of 18 steps is used up", 6, 10),
    (READS, READ_LINES, "8",
     b"ack 0 6\nack 2 10\nbudget turns=1 dropped=0 steps=8 hidden=0 calls=0 nested=0 inputs=2 frames=2\n",
     b"head http://a.test/ 8 69\nload 50\nnow 60\nrecords 3 inputs 2\n",
     b"turn 1 load 50\nbudget turns=1 steps=8 hidden=0 calls=0 nested=0 inputs=2\n", b"budget of 8 steps is used up", 6, 10),
    (LOGS, LINES, "",
     b"ack 0 6\nack 3 10\ndone turns=1 dropped=0 steps=16 hidden=0 calls=0 nested=0 inputs=3 frames=2\n",
     b"head http://a.test/ 10000000 54\nload 50\nrand 7\nnow 60\nrecords 4 inputs 3\n",
     b"turn 1 load 50\nlog 7 60\nend turns=1 steps=16 hidden=0 calls=0 nested=0 inputs=3\n", b"", 0, 10),
]
for row in HAND_ROWS:
    stands(*row)

EXCHANGED = session([head(BASE, 10_000_000, READS), load(50) + rand(7) + now(60) + rand(0) + rand(0)])
case([disk(EXCHANGED), "do list s", "do replay s"],
     [said(0, b"head http://a.test/ 10000000 69\nload 50\nrand 7\nnow 60\nrand 0\nrand 0\nrecords 6 inputs 5\n", b"", 0),
      said(11, b"turn 1 load 50\n", b"diverged at record 2: wanted now, found rand", 0)])

# What a run wants and finds, with its number: the first turn, a later one, a reading, a word.
for page, items, wanted, found, record, out in [
    (b"", now(1), b"load", b"now", 1, b""),
    (b"", rand(1), b"load", b"rand", 1, b""),
    (b"", load(1) + load(2), b"turn", b"load", 2, b"turn 1 load 1\n"),
    (b"", load(1) + now(2), b"turn", b"now", 2, b"turn 1 load 1\n"),
    (READS, load(1) + load(2), b"now", b"load", 2, b"turn 1 load 1\n"),
    (READS, load(1) + now(2) + now(3), b"rand", b"now", 3, b"turn 1 load 1\n"),
    (READS, load(1) + now(2) + load(3), b"rand", b"load", 3, b"turn 1 load 1\n"),
]:
    case([disk(session([head(BASE, 99, page), items])), "do replay s"],
         [said(11, out, b"diverged at record %d: wanted %s, found %s" % (record, wanted, found), 0)])
# Cut within a turn, and the budget before a missing input.
case([disk(session([head(BASE, 99, READS), load(1) + now(2)])), "do replay s"],
     [said(0, b"turn 1 load 1\ncut turns=1 steps=8 hidden=0 calls=0 nested=0 inputs=2\n", b"", 0)])
case([disk(session([head(BASE, 8, READS), load(1) + now(2)])), "do replay s"],
     [said(6, b"turn 1 load 1\nbudget turns=1 steps=8 hidden=0 calls=0 nested=0 inputs=2\n", b"budget of 8 steps is used up", 0)])

# A thin page of 4 MiB and one byte is too large, and one of two statements less is captured.
assert len(b"<script>" + b"Date.now();" * 381_298 + b"Date.now()</script>") == 4_194_305
case(["thin - 381299", "lines - ", "do capture p a s --steps 7"], [said(3, b"", b"bad page: too large", 0)])
case(["thin - 381298", "lines - ", "do capture p a s --steps 7"],
     [said(0, b"ack 0 6\ndone turns=0 dropped=0 steps=0 hidden=0 calls=0 nested=0 inputs=0 frames=1\n", b"", 6)])

for page, lines, code, err in [
    (b"ab\xff", b"", 3, b"bad page: not utf-8 at 2"),
    (b"<p>", b"", 40, b"not built yet"),
    (b"", b"loads 5\n", 4, b"bad arrivals: line 3: form"),
    (b"", b"load 05\n", 4, b"bad arrivals: line 3: number"),
    (b"", b"load 5\nrand 4294967296\n", 4, b"bad arrivals: line 4: number"),
    (b"", b"now 5\n", 4, b"bad arrivals: line 3: order"),
    (b"", b"load 5\nload 6\n", 4, b"bad arrivals: line 4: order"),
    (b"", b"load 5\nevent 6 #a click\n", 40, b"not built yet"),
    (b"<p>", b"load\n", 40, b"not built yet"),
]:
    case([f"page - {written(page)}", f"lines - {written(lines)}", "do capture p a s --steps 7"], [said(code, b"", err, 0)])
case(["page - ", "file - mugshot-arrivals 1\\nbase http://a.test\\n", "do capture p a s"],
     [said(4, b"", b"bad arrivals: line 2: url", 0)])

# Each write and sync fails in turn; then each line of the output, with the frames that are on the disk then; then the sources.
for fault in range(1, 11):
    case([f"page - {written(LOGS)}", f"lines - {written(LINES)}", disk(b"", writes=fault), "do capture p a s --steps 16"],
         [said(21, b"ack 0 6\n" if fault > 6 else b"", b"disk fault", fault)])
FULL_LIST = b"head http://a.test/ 16 54\nload 50\nrand 7\nnow 60\nrecords 4 inputs 3\n"
for line, (taken, listing, moment) in enumerate([
    (b"", b"head http://a.test/ 16 54\nrecords 1 inputs 0\n", 6),
    (b"ack 0 6\n", FULL_LIST, 10),
    (b"ack 0 6\nack 3 10\n", FULL_LIST, 10),
], 1):
    case([f"page - {written(LOGS)}", f"lines - {written(LINES)}", f"out {line}", "do capture p a s --steps 16", "out -", "do list s"],
         [said(22, taken, b"write fault", moment), said(0, listing, b"", moment)])
case([f"page 1 {written(LOGS)}", "file - ", "do capture p a s"], [said(20, b"", b"read fault", 0)])
case([f"page - {written(LOGS)}", "file 1 ", "do capture p a s"], [said(20, b"", b"read fault", 0)])
case([f"page 1 {written(LOGS)}", "file - ", disk(HAND_MADE), "do capture p a s"], [said(7, b"", b"session is not empty", 0)])
case([f"page - {written(LOGS)}", "file - ", disk(b"", reads=1), "do capture p a s"], [said(21, b"", b"disk fault", 0)])

# Each read of a session fails in turn: the header's, three for each frame, and two at the end.
for name in ("list", "replay"):
    for fault in range(1, 10):
        case([disk(HAND_MADE, reads=fault), f"do {name} s"], [said(21, b"", b"disk fault", 0)])
    case([disk(HAND_MADE), "out 1", f"do {name} s"], [said(22, b"", b"write fault", 0)])
    # What is checked before anything is printed: nothing was, also where a line on standard error fails.
    case([disk(b"MUGSHOT1"), "err 1", f"do {name} s"], ["8 [] [] 0"])

# ---- tables: runs of thin pages, captured, listed and replayed, at every budget

PAGES = [
    b"", LOGS, READS, b"<script>Date.now()</script>", b"<script>Math.random();</script>", b"<script>console.log(7)</script>",
    b"<script>console.log(1,Date.now(),2,Math.random(),9007199254740991)</script>",
    b"<script>console.log(Date.now());Math.random();console.log(0,Math.random())</script>",
    b"<script>console.log(1,2,3,4,5,6,7,8)</script>",
]
for page in PAGES:
    for t, nows, rands in [(None, [], []), (0, [], []), (50, [60], [7]), (9007199254740991, [0, 1, 2], [4294967295, 3])]:
        whole = Capture(page, t, nows, rands, 10_000_000)
        for budget in sorted({1, 2, 3, whole.run.steps - 1, whole.run.steps, whole.run.steps + 1} - {0, -1}):
            c = Capture(page, t, nows, rands, budget)
            stands(page, lines_of(t, nows, rands), str(budget), c.out, c.listed, c.replayed, c.err, c.code, c.moment)
            case([f"page - {written(page)}", f"lines - {written(lines_of(t, nows, rands))}", f"do capture p a s --steps {budget}", "held"],
                 [said(c.code, c.out, c.err, c.moment), written(session(c.frames))])

# The hand-written rows are what the rules give.
for page, lines, steps, captured, listing, replayed, err, code, moment in HAND_ROWS:
    t = 50 if lines else None
    c = Capture(page, t, [int(n) for n in re.findall(rb"now (\d+)", lines)], [int(n) for n in re.findall(rb"rand (\d+)", lines)], int(steps or 10_000_000))
    assert (c.out, c.listed, c.replayed, c.err, c.code, c.moment) == (captured, listing, replayed, err, code, moment), (page, steps, c.out)

# Pages that aren't thin.
for page in [
    b" ", b"<script></script>", b"<script>Date.now() </script>", b"<script>Date.now();;</script>", b"<script>console.log()</script>",
    b"<script>console.log(1,2,3,4,5,6,7,8,9)</script>", b"<script>console.log(01)</script>", b"<script>console.log(9007199254740992)</script>",
    b"<script>date.now()</script>", b"<SCRIPT>Date.now()</SCRIPT>", b"<script>Date.now()</script>\n", b"<script>Date.now()",
    b"<script>console.log(1,)</script>", b"<script>;Date.now()</script>", b"<script>Date.now()Date.now()</script>",
]:
    assert statements(page) is None or page == b"<script></script>"
    case([f"page - {written(page)}", "lines - load 1\\n", "do capture p a s"], [said(40, b"", b"not built yet", 0)])

crate = pathlib.Path(__file__).parent.parent / "crates" / "command_answers"
(crate / "stdin").write_text("\n".join(CASES) + "\n")
(crate / "stdout").write_text("\n".join(ANSWERS) + "\n")
print(len(CASES), "cases")
