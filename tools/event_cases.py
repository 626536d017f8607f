"""Writes the cases of crates/event_answers: its lines, and what it must print for each.

The wanted lines are written by hand from the standards' rules; none comes from the program. Run it at the top of the repository, by hand,
when a case is added.
"""

CASES = []


def case(line, want):
    CASES.append((line, want))


# Timers: equal moments go by number, an interval is set anew from the firing's clock, and any number may be cleared.
case("timers set 7 10, set 8 5, set 9 5, fire 20, fire 20, fire 20, fire 20",
     "1; 2; 3; 2 calls 8; 3 calls 9; 1 calls 7; none; ")
case("timers set 7 10, set 8 5, set 9 5, next 4, next 5, next 20", "1; 2; 3; none; 2; 2; 1 due 10|2 due 5|3 due 5|")
case("timers repeat 1 5 0, repeat 2 5 7, fire 9, fire 9, fire 9, fire 10, fire 16",
     "1; 2; 1 calls 1; 2 calls 2; none; 1 calls 1; 1 calls 1; 1 due 17 every 0|2 due 16 every 7|")
case("timers set 1 5, set 2 5, clear 1, clear 1, clear 0, clear 9, clear 4294967295, fire 5, set 3 0, fire 5",
     "1; 2; ok; ok; ok; ok; ok; 2 calls 2; 3; 3 calls 3; ")
case("timers fire 0, next 0, set 4 0, fire 0, fire 0", "none; none; 1; 1 calls 4; none; ")
# A sum past 2^53 - 1 is never due again; the moment itself may be the last of the clock.
case("timers repeat 1 9007199254740991 9007199254740991, fire 9007199254740990, fire 9007199254740991, next 9007199254740991, set 2 9007199254740992",
     "1; none; 1 calls 1; none; too late; 1 due 18014398509481982 every 9007199254740991|")
# A queue that grows, with timers cleared before it does.
case("timers " + ", ".join(f"set {n} {100 - n}" for n in range(1, 21)) + ", clear 20, clear 3, fire 82, fire 82, next 100",
     "; ".join(str(n) for n in range(1, 21)) + "; ok; ok; 19 calls 19; 18 calls 18; 17; "
     + "".join(f"{n} due {100 - n}|" for n in range(1, 18) if n != 3))

# Requests: the states, what is sent under which number, and what ends a flight.
case("requests make, send 0, open 0 GET /a, send 0, send 0, flying 1, reply 1 200 hello, flying 1, reply 1 200 again",
     "0; not opened, or sent; true; 1; not opened, or sent; true; ok; false; dropped; 4 200 hello none|0 GET /a false|")
case("requests make, open 0 GET /a, send 0, abort 0, reply 1 200 x, abort 0",
     "0; true; 1; true; dropped; false; 0 0  none|0 GET /a false|")
case("requests make, open 0 GET /a, open 0 GET /b, send 0, open 0 POST /c, flying 1, send 0, flying 2, fail 2",
     "0; true; false; 1; false; false; 2; true; ok; 4 0  none|0 GET /b false|0 POST /c false|")
case("requests make, make, open 1 GET /a, send 1, open 0 GET /b, send 0, reply 2 404 no, abort 0, abort 0, open 0 GET /b",
     "0; 1; true; 1; true; 2; ok; false; false; true; 1 0  none|1 0  1|1 GET /a true|0 GET /b false|")
case("requests make, abort 0, open 0 GET /a, abort 0, flying 0, flying 1, fail 0, fail 1, send 1",
     "0; false; true; false; false; false; dropped; dropped; no object; 1 0  none|")

# A dispatch within a listener's call, which changes the listeners of the outer one. Object 1 stands in object 2; third is removed before
# its turn, late is added after the list was copied, and the inner dispatch goes to object 2 alone.
case("dispatch add 2 go 20, add 1 go 11, add 1 go 12, add 1 go 13, start 1/2/0 go up, next, cut 1 go 13, add 1 go 14, start 2/0 go, next, next, next, next, next, next",
     "ok; ok; ok; ok; ok; 11 at 1; ok; ok; ok; 20 at 2; end; 12 at 1; 20 up 2; end; none; 0 2 go 20 bubble|1 1 go 11 bubble|2 1 go 12 bubble|4 1 go 14 bubble|")
# The passes: down from the outermost, the target's capturing listeners first, then up where the event bubbles.
case("dispatch add 1 a 1, add 1 a 2 capture, on 1 a 3, add 2 a 4, add 2 a 5 capture, add 3 a 6 capture, add 3 b 7, on 3 a 8, start 1/2/3 a up, next, next, next, next, next, next, next, next",
     "ok; ok; ok; ok; ok; ok; ok; ok; ok; 6 down 3; 5 down 2; 2 at 1; 1 at 1; 3 at 1 handler; 4 up 2; 8 up 3 handler; end; "
     "0 1 a 1 bubble|1 1 a 2 capture|2 1 a 3 handler|3 2 a 4 bubble|4 2 a 5 capture|5 3 a 6 capture|6 3 b 7 bubble|7 3 a 8 handler|")
case("dispatch add 1 a 1, add 2 a 4, add 2 a 5 capture, start 1/2 a, next, next, next",
     "ok; ok; ok; ok; 5 down 2; 1 at 1; end; 0 1 a 1 bubble|1 2 a 4 bubble|2 2 a 5 capture|")
# The stop flags, in each pass; one that is set before the start ends it at once.
case("dispatch add 2 a 1 capture, add 2 a 2 capture, add 1 a 3, start 1/2 a up, next, next stop, next stop, start 1/2 a up, next, next now, start 1/2 a up, next stop, start 1/2 a up, next now",
     "ok; ok; ok; ok; 1 down 2; 2 down 2; end; ok; 1 down 2; end; ok; end; ok; end; 0 2 a 1 capture|1 2 a 2 capture|2 1 a 3 bubble|")
case("dispatch add 1 a 1 capture, add 1 a 2, add 2 a 3, add 2 a 4, start 1/2 a up, next, next stop, next stop, start 1/2 a up, next, next, next, next stop, next, start 1/2 a up, next, next now",
     "ok; ok; ok; ok; ok; 1 at 1; 2 at 1; end; ok; 1 at 1; 2 at 1; 3 up 2; 4 up 2; end; ok; 1 at 1; end; 0 1 a 1 capture|1 1 a 2 bubble|2 2 a 3 bubble|3 2 a 4 bubble|")
case("dispatch add 1 a 1, add 2 a 2, add 2 a 3, add 3 a 4, start 1/2/3 a up, next, next, next stop, next, start 1/2/3 a up, next, next, next now",
     "ok; ok; ok; ok; ok; 1 at 1; 2 up 2; 3 up 2; end; ok; 1 at 1; 2 up 2; end; 0 1 a 1 bubble|1 2 a 2 bubble|2 2 a 3 bubble|3 3 a 4 bubble|")
# Removed and added again before its turn: another one. A handler that is replaced keeps its place, one that was null in between doesn't.
case("dispatch add 1 a 1, add 1 a 2, on 1 a 3, add 1 a 4, start 1 a, next, cut 1 a 2, add 1 a 2, on 1 a 5, next, next, next",
     "ok; ok; ok; ok; ok; 1 at 1; ok; ok; ok; 5 at 1 handler; 4 at 1; end; 0 1 a 1 bubble|2 1 a 5 handler|3 1 a 4 bubble|4 1 a 2 bubble|")
case("dispatch add 1 a 1, on 1 a 2, add 1 a 3, start 1 a, next, off 1 a, on 1 a 2, next, next, handler 1 a, handler 1 b, off 1 b",
     "ok; ok; ok; ok; 1 at 1; ok; ok; 3 at 1; end; 2; none; ok; 0 1 a 1 bubble|2 1 a 3 bubble|3 1 a 2 handler|")
case("dispatch add 1 a 1, add 2 a 2 capture, start 1/2 a up, next, on 1 a 3, cut 1 a 1, on 2 a 4, next, off 2 a, next",
     "ok; ok; ok; 2 down 2; ok; ok; ok; 3 at 1 handler; ok; end; 1 2 a 2 capture|2 1 a 3 handler|")
# The same on the way down, where no handler is called, and on the way up.
case("dispatch add 2 a 1 capture, add 2 a 2 capture, add 2 a 3 capture, on 2 a 9, add 1 a 4, start 1/2 a, next, cut 2 a 2 capture, add 2 a 2 capture, on 2 a 8, next, next, next",
     "ok; ok; ok; ok; ok; ok; 1 down 2; ok; ok; ok; 3 down 2; 4 at 1; end; 0 2 a 1 capture|2 2 a 3 capture|3 2 a 8 handler|4 1 a 4 bubble|5 2 a 2 capture|")
case("dispatch add 2 a 1, add 2 a 2, on 2 a 3, add 2 a 4, start 1/2 a up, next, cut 2 a 2, add 2 a 2, on 2 a 5, next, next, next",
     "ok; ok; ok; ok; ok; 1 up 2; ok; ok; ok; 5 up 2 handler; 4 up 2; end; 0 2 a 1 bubble|2 2 a 5 handler|3 2 a 4 bubble|4 2 a 2 bubble|")
case("dispatch add 2 a 1, on 2 a 3, add 2 a 4, start 1/2 a up, next, off 2 a, on 2 a 3, next, next",
     "ok; ok; ok; ok; 1 up 2; ok; ok; 4 up 2; end; 0 2 a 1 bubble|2 2 a 4 bubble|3 2 a 3 handler|")
# Equal listeners: by type, what is called behind a wrap, and capture; a handler is equal to none.
case("dispatch add 1 a w7, add 1 a 7, add 1 a 7 capture, on 1 a 7, cut 1 a 7 capture, cut 1 a 7, cut 1 a 7, add 1 a 7, cut 1 a w7, cut 2 a 7, cut 1 b 7",
     "ok; ok; ok; ok; ok; ok; ok; ok; ok; ok; ok; 2 1 a 7 handler|")
case("dispatch start 1/2/3 a up, next, next, start  a, next", "ok; end; none; ok; end; ")

# Paths: the target, its ancestors and the window, which a load at a node hasn't.
case("path <div><p>x</p></div> ; 3 click", "3|2|1|0|window|")
case("path <div><p>x</p></div> ; 2 load", "2|1|0|")
case("path <div></div> ; 0 DOMContentLoaded", "0|window|")
case("path <div></div> ; window load", "window|")
case("path <div></div> ; request readystatechange", "request 3|")
case("path <div></div> ; 2 click", "no node")


if __name__ == "__main__":
    for name, lines in (("stdin", [c[0] for c in CASES]), ("stdout", [c[1] for c in CASES])):
        with open("crates/event_answers/" + name, "w", encoding="utf-8", newline="\n") as file:
            file.write("".join(line + "\n" for line in lines))
