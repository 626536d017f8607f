"""Writes the cases of crates/page_answers: its lines, and what it must print for each.

The wanted lines are written by hand from the standards' rules, or counted here from the offsets in the page; none comes from the
program. Run it at the top of the repository, by hand, when a case is added.
"""

CASES = []


def case(line, want):
    CASES.append((line, want))


def places(start, text):
    return "".join(f" {start + i}" for i in range(len(text)))


PRELUDE = (
    "\nfunction $mug_turn(){$mug_log();}\nfunction $mug_fetch(){$mug_log();}\n"
    "function $mug_value(){var r=$mug_apply();$mug_log();return r;}\n"
    "function $mug_timer(){$mug_wrapArg(0);var r=$mug_apply();return r;}\n"
    "function $mug_listen(){$mug_wrapArg(1);var r=$mug_apply();return r;}\n"
    "function $mug_put(){$mug_wrapArg(0);var r=$mug_apply();return r;}\n"
    "function $mug_call(){$mug_count(1);try{return $mug_apply();}finally{$mug_count(-1);}}\n"
)
SHOWN = PRELUDE.replace("\n", "\\n")

# Pages as trees, with the places of their attributes' names.
case("page ", "#|")
case("page <a b=1 b=2>x&lt;<br></i><p>y", "#|0<a b=1|1'x<|1<br|1<p|4'y| name 1 b 3")
case(r"page \xEF\xBB\xBFa\r\nb\rc<!-- > -->d<!x>e</ >f<?y>g</b>h", r"#|0'a\nb\ncdefgh|")
case("page <A X='1'Y=\"2\"/z = 3 w/=>t</A ignored>u",
     "#|0<a x=1 y=2 z=3 w= ==|1't|0'u| name 1 x 3 name 1 y 8 name 1 z 14 name 1 w 20 name 1 = 22")
case("page <script>a<b&lt;</scripty></SCRIPT >c<title>&lt;<p></title/>d",
     "#|0<script|1'a<b&lt;</scripty>|0'c|0<title|4'<<p>|0'd| script 1 'a<b&lt;</scripty> at"
     + places(8, "a<b&lt;</scripty>"))
case("page &amp;&lt;&gt;&quot;&apos;&nbsp;&#65;&#x1F600;&#0;&#xD800;&#13;&#x;&#65 &AMP;",
     "#|0'&<>\"'&nbsp;A\U0001F600&#0;&#xD800;\\u000d&#x;&#65 &AMP;|")
case("page a<b c='d>e", "#|0'a|")
case("page a</b", "#|0'a|")
case("page a<!--b", "#|0'a|")
case("page a<!-->b-->c", "#|0'ac|")
case("page 1 < 2 <3<", "#|0'1 < 2 <3<|")
case("page <div><p><i>x</div>y<img>z", "#|0<div|1<p|2<i|3'x|0'y|0<img|0'z|")
case("page <a><b><a></b></b><c></a></a>x<b></b>y", "#|0<a|1<b|2<a|1<c|0'x|0<b|0'y|")
case("page <wbr>x<area>y<param>z", "#|0<wbr|0'x|0<area|0'y|0<param|0'z|")
# The page of the reserved names: the name's first byte is at 12.
case("page <script>var $mugx=1</script>",
     "#|0<script|1'var $mugx=1| script 1 'var $mugx=1 at" + places(8, "var $mugx=1"))
# Places count the byte order mark and both bytes of a line's end, and not the inserted script.
case(r"page \xEF\xBB\xBF<!doctype html>\p\r\n<b OnClick=f() onclick=g() onx=h><script type=Text/JavaScript>x\r\ny</script>"
     r"<script type=text>z</script><script src='' type>w",
     r"#|0'\n|0<b onclick=f() onx=h|2<script type=Text/JavaScript|3'x\ny|2<script type=text|5'z|2<script src= type=|7'w|"
     r" script 3 'x\ny at 82 83 85 script 7 'w at 143 src ' handler 2 onclick f() 23"
     " name 2 onclick! 23 name 2 onx 47 name 3 type 61 name 5 type 103 name 7 src 131 name 7 type 138")
case(r"page \p\p", "#|0<script id=$mug|1'" + SHOWN + r"|0'\n| script 1 '" + SHOWN + " at" + places(18, PRELUDE) + " name 1 id 8")
# With nothing taken out, the inserted script's `id` is at 8; a character of four bytes is two units.
case(r"whole \p<script>\xC3\xA9\xF0\x9F\x98\x80$mug</script>",
     "#|0<script id=$mug|1'" + SHOWN + r"|0'\n|0<script|4'" + "\u00e9\U0001F600$mug| script 1 '" + SHOWN + " at" + places(18, PRELUDE)
     + " script 4 '\u00e9\U0001F600$mug at 458 460 460 464 465 466 467 name 1 id 8")
case(r"page \xFF", "not utf-8 at 0")
case(r"whole a\xC3", "not utf-8 at 1")
PAGE = ("<!doctype html>\n<html><body><p id=\"g\"></p><button id=\"b\" onclick=\"n++;show()\">+</button>\n<script>\nvar n = 0;\n"
        "</script></body></html>\n")
case("page " + PAGE.replace("\n", "\\n"),
     "#|0'\\n|0<html|2<body|3<p id=g|3<button id=b onclick=n++;show()|5'+|3'\\n|3<script|8'\\nvar n = 0;\\n|0'\\n|"
     " script 8 '\\nvar n = 0;\\n at" + places(PAGE.index("<script>") + 8, "\nvar n = 0;\n")
     + f" handler 5 onclick n++;show() {PAGE.index('onclick')}"
     + f" name 4 id {PAGE.index('id=')} name 5 id {PAGE.index('id=', 40)} name 5 onclick! {PAGE.index('onclick')}")
for page, place in [
    ("", 0), (r"\xEF\xBB\xBF", 3), (r"\xEF\xBB", 0), ("<!DocType html>x>", 15), (r"\xEF\xBB\xBF \t\r\n\x0C<!doctype>x", 18),
    ("<!doctype", 0), (" <!doctype x", 0), ("x<!doctype>", 0), ("<!doctyp>", 0),
]:
    case("first " + page, str(place))

# Documents.
case("dom ", "#|")
case("dom <a b=1 b=2>x&lt;<br></i><p>y", "#,1|0<a b=1,2,3,4|1'x<|1<br|1<p,5|4'y|")
case("dom <input value=v><input><textarea value=w>t&amp;</textarea>u<textarea></textarea>v",
     "#,1,2,3,5,6,7|0<input value=v!v|0<input!|0<textarea value=w!t&,4|3't&|0'u|0<textarea!|0'v|")
START = "#,1,4|0<a,2,3|1<b|1<i|0<u|<s|'w|"
CYCLE = "would make a cycle"
for change, answer, left in [
    ("append 1 5", "ok", "#,1,4|0<a,2,3,5|1<b|1<i|0<u|1<s|'w|"),
    ("append 4 2", "ok", "#,1,4|0<a,3|4<b|1<i|0<u,2|<s|'w|"),
    ("append 1 2", "ok", "#,1,4|0<a,3,2|1<b|1<i|0<u|<s|'w|"),
    ("append 1 3", "ok", START),
    ("insert 1 6 2", "ok", "#,1,4|0<a,6,2,3|1<b|1<i|0<u|<s|1'w|"),
    ("insert 1 3 2", "ok", "#,1,4|0<a,3,2|1<b|1<i|0<u|<s|'w|"),
    ("insert 1 4 3", "ok", "#,1|0<a,2,4,3|1<b|1<i|1<u|<s|'w|"),
    ("insert 1 2 2", "ok", START),
    ("append 2 1", CYCLE, START), ("append 1 1", CYCLE, START), ("append 5 0", CYCLE, START), ("append 6 5", CYCLE, START),
    ("insert 2 1 4", CYCLE, START), ("insert 1 5 4", "not found", START), ("insert 1 5 9", "not found", START),
]:
    case(f"dom <a><b></b><i></i></a><u> ; element s, text w, {change}", f"5; 6; {answer}; {left}")
case("dom <div id=a><b id=c></b></div><script>x</script> ; append 2 1, remove 2 1, element i, insert 1 5 2, in 5, remove 0 1, remove 0 1,"
     " id c, in 2, in 5, in 4",
     f"{CYCLE}; not found; 5; ok; true; ok; not found; none; false; false; true; #,3|<div id=a,5,2|1<b id=c|0<script,4|3'x|1<i|")
case("dom <p><b id=''></b></p><p id=x></p><i><u id=x></u><s id=y>t</s></i> ; id x, id y, id , id z, insert 0 4 1, id x, child 0 1, child 1 0, child 3 0",
     "3; 6; 2; none; ok; 5; 6; 2; none; #,4,1,3|0<p,2|1<b id=|0<p id=x|0<i,5,6|4<u id=x|4<s id=y,7|6't|")
case("dom <a><b>x</b>y<c></c></a>z ; first 1, last 1, first 3, next 2, next 4, next 5, previous 5, previous 2, next 0, below 0, below 2, below 6",
     "2; 5; none; 4; 5; none; 4; none; none; 1 2 3 4 5 6 ; 3 ; ; #,1,6|0<a,2,4,5|1<b,3|2'x|1'y|1<c|0'z|")
case("dom <input a=1 b=2>t ; set 1 a 3, set 1 c 4, unset 1 a, set 2 a 5, write 1 v, write 2 w, get 1 c, get 1 a",
     "ok; ok; ok; ok; ok; ok; 4; none; #,1,2|0<input b=2 c=4!v|0'w a=5|")

with open("crates/page_answers/stdin", "w", encoding="utf-8") as lines:
    lines.write("".join(line + "\n" for line, _ in CASES))
with open("crates/page_answers/stdout", "w", encoding="utf-8") as wanted:
    wanted.write("".join(want + "\n" for _, want in CASES))
