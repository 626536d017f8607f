"""Cases for tokens and for the names of scopes (ECMA-262 edition 5.1, clauses 7 and 10.5, in a profile), each derived by hand.

script_cases.py writes them behind its own.
"""

TOKENS = [
    ("", ""),
    (" \\u0009\\u000B\\u000C\\u00A0\\uFEFF\\u1680\\u2003\\u3000", ""),
    ("iffy if", "Name@0-4 If@5-7"),
    ("a+++b", "Name@0-1 PlusPlus@1-3 Plus@3-4 Name@4-5"),
    (">>>=>>=>>>", "ShiftZeroAssign@0-4 ShiftRightAssign@4-7 ShiftZero@7-10"),
    ("1.a", "Number@0-1=1 Dot@1-2 Name@2-3"),
    ("1..a", "Number@0-1=1 Dot@1-2 Dot@2-3 Name@3-4"),
    (".5", "Dot@0-1 Number@1-2=5"),
    ("a/*\\n*/b//\\nc", "Name@0-1 ^Name@6-7 ^Name@10-11"),
    ("/*/", "Slash@0-1 Star@1-2 Slash@2-3"),
    ("/**/\\u2029a/ b", "^Name@5-6 Slash@6-7 Name@8-9"),
    ("<!--\\n-->", "Less@0-1 Not@1-2 MinusMinus@2-4 ^MinusMinus@5-7 Greater@7-8"),
    ("0", "Number@0-1=0"),
    ("7", "Number@0-1=7"),
    ("1024", "Number@0-4=1024"),
    ("9007199254740991", "Number@0-16=9007199254740991"),
    ("0x0", "Number@0-3=0"),
    ("0x00fF", "Number@0-6=255"),
    ("0x1fffffffffffff", "Number@0-16=9007199254740991"),
    ("''", "Text@0-2="),
    ("\"it's\"", "Text@0-6=0069007400270073"),
    ("'\\\\b\\\\t\\\\n\\\\v\\\\f\\\\r\\\\\"\\\\'\\\\\\\\'", "Text@0-20=00080009000a000b000c000d00220027005c"),
    ("'\\\\0'", "Text@0-4=0000"),
    ("'\\\\x41\\\\u20aC'", "Text@0-12=004120ac"),
    ("'a\\\\\\r\\nb\\\\\\nc\\\\\\rd'", "Text@0-13=0061006200630064"),
    ("'\\\\\\u2028\\\\\\u2029'", "Text@0-6="),
    ("'\\\\q\\\\$'", "Text@0-6=00710024"),
    ("'\\uD83D\\uDE00'", "Text@0-4=d83dde00"),
]

# The first place at which no token begins.
REFUSED = [
    ("#", 0), ("a @ b", 2), ("\\\\u0061", 0), ("\\u00E9", 0), ("a \\u0085", 2), ("\\u180E", 0), ("0X1F", 0), ("0x", 0), ("0xG", 0),
    ("1.5", 0), ("a 1a", 2), ("01", 0), ("00", 0), ("9007199254740992", 0), ("0x20000000000000", 0),
    ("99999999999999999999999999", 0), ("a 'b", 2), ("'\\\\x4'", 0), ("'\\\\u004g'", 0), ("'\\\\1'", 0), ("'\\\\8'", 0), ("'\\\\01'", 0),
    ("'\\u2028'", 0), ("\"a\\nb\"", 0),
]

# Parameters, own name, statements; each function is written with its first unit. Nodes are numbered as they are made.
SCOPES = [
    ("||", ""),
    ("p p|f|name:arguments", " p arguments f | arguments | own"),
    ("p p|f|var:arguments", " p arguments f | arguments | own"),
    ("p p|f|catch:arguments", " p arguments f | arguments | own"),
    ("p p|f|fn:g@7", " p g f | g@7=0 | own"),
    ("p p|f|label:arguments", " p f | own"),
    ("p p|f|member:arguments", " p f | own"),
    ("q p q|f|var:v fn:g@3 name:arguments var:p var:v", " q p g arguments v f | g@3=1 | arguments | own"),
    ("|f|var:f", " f"),
    ("|f|", " f | own"),
    ("f|f|", " f"),
    ("|f|fn:f@9", " f | f@9=0"),
    ("|arguments|", " arguments | own"),
    ("|arguments|name:arguments", " arguments | arguments"),
    ("arguments||name:arguments", " arguments"),
    ("||fn:arguments@4 name:arguments", " arguments | arguments@4=0"),
    ("||fn:g@4 fn:h@20 fn:g@40", " g h | g@4=0 | h@20=1 | g@40=2"),
]


def lines():
    for text, wanted in TOKENS:
        yield "tokens " + text, ("tokens " + wanted).rstrip()
    for text, at in REFUSED:
        yield "tokens " + text, f"no token {at}"
    for written, wanted in SCOPES:
        yield "scope " + written, "scope" + wanted
