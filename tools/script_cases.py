"""Cases for the grammar of scripts (ECMA-262 edition 5.1, in a profile), each derived by hand, with its reason.

python3 tools/script_cases.py writes the standard input of the program script_answers, a text a line, and what it must print: for each
text its answer, and behind them the trees of some texts, and tokens and scopes (word_cases.py).

In a text the mark ‸ stands before the token that is refused, and ⇓ before the first one that stands too deep; neither is a part
of the text. A text without a mark is accepted. A refusal at the end stands behind the last unit. A page is a program in which no
name begins with `$mug`, hidden is one in which names may, handler is a function's body, with names as in a page.
"""

import pathlib
import sys

from script_trees import TREES
from word_cases import lines as word_lines

PAGE, HIDDEN, HANDLER = "page", "hidden", "handler"
CASES = []


def case(text, reason, kind=PAGE):
    CASES.append((kind, text, reason))


def cases(reason, *texts, kind=PAGE):
    for text in texts:
        case(text, reason, kind)


# Programs and statements ---------------------------------------------------------------------------------------------------

cases("a program may be empty (14)", "", " ", "\n", "//a", "/*a*/", "/*\n*/")
case("function f(){return\n1}\nvar a=1,\nb=2\na\n++b\ndo;while(0) console.log(f(),a,b)", "each insertion in one script (7.9)")
cases("three scripts of one page, of which the second doesn't read", "x", "1 ‸2", "console.log(\"on\")")
case("if(a)\n‸else b", "a semicolon is never inserted as an empty statement (7.9.1)")
case("function f(){‸", "the end stands in the place of the brace")
case("a=‸/b/", "`/` always divides, so that there are no regular expressions")
case("var ‸$mugx", "a page's names don't begin with $mug")
case("var $mugx", "hidden code's do", HIDDEN)

cases("blocks (12.1)", "{}", "{a}", "{a;b}", "{{}{}}", "{;}", "{a\nb}", "{}{}", "{}a", "{a:b}")
cases("a block ends with its brace", "{‸", "{a‸", "{{}‸", "‸}", "{}‸}", "{a ‸b}", "{‸)", "{a,‸}", "{‸]")
case("{a:b,c‸:d}", "a brace that begins a statement opens a block, in which a comma goes on with an expression (12.4)")
cases("var (12.2)", "var a", "var a;", "var a=1", "var a=1,b,c=2;", "var a\nb", "var\na\n=\n1\n,\nb", "var a=b=c", "var a=b?c:d,e", "var a=b in c", "{var a}")
cases("var wants names", "var ‸", "var‸;", "var ‸1", "var a ‸b", "var a,‸", "var a,‸;", "var a=‸", "var a=‸;", "var a=1 ‸2", "var ‸(a)", "var a‸.b",
      "var a‸+=1", "var ‸\"a\"", "var ‸if", "var ‸this", "var a,b‸.c", "var a ‸in b", "var a=1,‸,b")
cases("var takes no patterns", "var ‸[a]=b", "var ‸{a}=b")
cases("empty statements (12.3)", ";", ";;", "a;;", "if(a);", "{;;}")
cases("expression statements (12.4)", "a", "a;", "a,b", "a\n;", "\"a\"", "\"use strict\"", "1", "this", "(function(){})", "({})", "[]", "!function(){}()", "a;b")
cases("function and a brace begin no expression statement (12.4)", "function‸(){}", "{}‸.a", "{}‸=a", "function f(){}‸.a", "if(a)‸function f(){}", "function f(){}‸,a")
case("function f(){}(a)", "behind a declaration an expression in parentheses")
case("function f(){}(‸)", "behind a declaration no arguments")
cases("nothing else begins a statement", "‸)", "‸]", "‸,", "‸.a", "‸:", "‸?", "‸=a", "‸*a", "‸/a", "‸in a", "‸instanceof a", "‸<a", "‸&&a", "‸else", "‸case 1:", "‸default:",
      "‸catch(a){}", "‸finally{}", "a;‸)", "{}‸else a", "{}‸finally{}", "{}‸catch(a){}", "{‸case 1:}", "{‸default:a}")

cases("if (12.5)", "if(a)b", "if(a)b;", "if(a)b;else c", "if(a){}else{}", "if(a);else;", "if(a)b\nelse c", "if(a,b)c", "if(a)if(b)c;else d;else e", "if(a){}else if(b){}else{}", "if\n(\na\n)\nb\nelse\nc",
      "if(a)return_;else var b")
cases("if wants its parts", "if‸", "if ‸a", "if(‸)a", "if(a‸", "if(a‸;)b", "if(a)‸", "if(a)‸}", "if(a)b;else‸", "if(a)b ‸else c", "if(a);;‸else b", "if(a)b;else c;‸else d", "if(a)‸else b",
      "if(a){}else‸}", "if({a ‸b})c", "if(a ‸b)c", "if(a,‸)b", "if‸{}", "if(a)b;else ‸else c", "if(a)b;;‸else c")
cases("else belongs to the nearest if (12.5)", "if(a)if(b)c;else d", "if(a){if(b)c}else d", "if(a)while(b)if(c)d;else e")
case("if(a)if(b)c;else d;else e;‸else f", "two ifs have two elses")

cases("do (12.6.1)", "do;while(a)", "do;while(a);", "do{}while(a)", "do a;while(b)", "do a\nwhile(b)", "do do;while(a)while(b)", "do if(a)b;while(c)", "do\n;\nwhile\n(\na\n)\n;")
cases("behind a do and its while a semicolon is inserted within a line too", "do;while(a) b", "do;while(a)b", "do{}while(a){}", "do;while(a)var b", "do;while(a)do;while(b)c", "if(a)do;while(b)else c", "if(a)do;while(b);else c",
      "do;while(a)function f(){}", "do;while(0)(a)", "do;while(0)++a", "do;while(0)[a]", "do;while(a)-b", "{do;while(a)}", "do do;while(a);while(b)", "do;while(a)b:c")
cases("behind do no semicolon is inserted that doesn't help", "do;while(a)‸.b", "do;while(a)‸,b", "do;while(a)‸)", "do;while(a)‸=b", "do;while(a)‸else b", "do;while(a)‸*b", "do;while(a);‸else b", "if(a)do;while(b);;‸else c")
cases("do wants its parts", "do‸", "do while(a)‸", "do a ‸while(b)", "do ‸}", "do;‸", "do;‸a", "do;while‸", "do;while(‸)", "do;while(a‸", "do;while ‸a", "do a;‸b", "do\nwhile(a)‸", "do‸)while(a)")
cases("while (12.6.2)", "while(a)b", "while(a);", "while(a){b;c}", "while(a,b)c", "while(a)while(b)c", "while\n(\na\n)\nb")
cases("while wants its parts", "while‸", "while ‸a", "while(‸)a", "while(a‸", "while(a)‸", "while(a)\n‸", "while(a)\n‸}", "while(a‸;)b", "while(‸var a)b", "while(a ‸b)c")

cases("for (12.6.3)", "for(;;);", "for(;;)a", "for(a;b;c)d", "for(a;;);", "for(;a;);", "for(;;a);", "for(a,b;c,d;e,f);", "for(var a;;);", "for(var a=1,b=2;a<b;a++);", "for(\na\n;\nb\n;\nc\n)\nd", "for(a=b;;);",
      "for(a.b;;);", "for(a();;);", "for({}.a;;);", "for(function(){};;);", "for([];;);", "for(++a;;);", "for(-a;;);", "for(\"a\";;);", "for(new a;;);", "for((a);;);", "for((a),b;;);", "for(let;;);")
cases("the head of for gets no semicolons inserted (7.9.1)", "for(a\n‸)b", "for(a;b\n‸)c", "for(;‸)a", "for(;\n‸)a", "for(\n‸)a", "for(a\n‸b;c)d", "for(a;b\n‸c)d", "for(a\n;b\n‸c)", "for(var a\n‸b;;);", "for(a\n‸", "for(a;b;c\n‸",
      "for(a;\n‸", "for(;;\n‸", "for(a;b\n‸}", "for(\n‸)")
cases("for wants its parts", "for‸", "for ‸a", "for(‸)", "for(a‸)b", "for(a;b‸)c", "for(;;‸", "for(;;)‸", "for(;;)‸}", "for(;;a‸;)", "for(;;‸;)", "for(var‸;;);", "for(var a,‸;;);", "for(var a=‸;;);", "for(‸if;;);", "for(;‸var a;);",
      "for(;;‸var a);", "for(a ‸b;;);", "for(;;a ‸b);", "for(var ‸this;;);", "for(let ‸a;;);", "for(‸const a=1;;);", "for(function‸;;);")
cases("for in (12.6.4)", "for(a in b);", "for(a in b)c", "for(var a in b)c", "for(a in b,c)d", "for(var a in b,c)d", "for(a in b in c)d", "for(a\nin\nb)\nc", "for(a in{})b", "for(var a in function(){}){}", "for(let in a);", "for(a in b=c);",
      "for(of in a);", "for(var let in a);")
cases("a name in parentheses is a target of for in", "for((a)in b);", "for((a) in b)c", "for(((a))in b);")
cases("the target of for in is a name, or a var of one name without a value (12.6.4)", "for(a.b ‸in c);", "for(a[b]‸in c);", "for(f()‸in b);", "for(1 ‸in a);", "for(this ‸in a);", "for(a,b ‸in c);", "for(a=1 ‸in b);", "for((a,b)‸in c);",
      "for((a.b)‸in c);", "for(a++ ‸in b);", "for(-a ‸in b);", "for(\"a\"‸in b);", "for([a]‸in b);", "for({}‸in a);", "for(var a=1 ‸in b);", "for(var a,b ‸in c);", "for(var ‸(a)in b);", "for(var a‸.b in c);", "for(new a ‸in b);", "for((a)+b ‸in c);", "for(var a=b,c ‸in d);",
      "for((a)(b)‸in c);", "for((a)=b ‸in c);", "for(var a ‸b in c);", "for(var‸[a]in b);", "for(let ‸a in b);")
cases("for in wants its parts", "for(a in‸", "for(a in‸)b", "for(a in b‸", "for(a in b‸;;)c", "for(a in b‸;c)", "for(a in b)‸", "for(var a in‸)", "for(var a in b‸;)", "for((a in b‸;;);", "for(a in b ‸c)d", "for(a in b)\n‸", "for((a)in b‸;;);", "for(a in‸;;);")
cases("in is no operator in the first part of a for head, but in parentheses, brackets, braces, functions and between ? and : (11.8, 11.12)", "for((a in b);;);", "for(a[b in c];;);", "for(f(a in b);;);", "for([a in b];;);", "for({a:b in c}.d;;);", "for(a?b in c:d;;);", "for(var a=(b in c);;);", "for(var a=b?c in d:e;;);",
      "for(function(){a in b};;);", "for(var a=function(){return b in c};;);", "for(;a in b;);", "for(;;a in b);", "for(a in b in c);", "for(new a(b in c);;);", "for(var a=[b in c];;);", "for(a=b?c in d:e;;);", "for(a?b?c in d:e:f;;);")
cases("elsewhere in it in ends the expression (12.6)", "for(a+b ‸in c;;);", "for(var a=b ‸in c;;);", "for(a?b:c ‸in d;;);", "for(a=b ‸in c;;);", "for(a,b ‸in c;;);", "for(var a=b?c:d ‸in e;;);", "for(-a ‸in b;;);", "for(a&&b ‸in c;;);", "for(a<b ‸in c;;);", "for(var a=1,b=c ‸in d;;);", "for((a in b)‸in c;;);", "for(typeof a ‸in b;;);",
      "for(a=b=c ‸in d;;);", "for(a?b in c:d ‸in e;;);")
case("for(var a=1;b ‸of c);", "no later edition's for")
cases("continue (12.7)", "while(a)continue", "while(a)continue;", "for(;;){continue}", "for(a in b)continue", "do continue;while(a)", "do continue\nwhile(a)", "while(a){if(b)continue;c}", "while(a)switch(b){case c:continue}", "while(a)try{continue}finally{continue}", "while(a)while(b)continue", "while(a)b:continue")
cases("continue outside a loop (12.7)", "continue‸;", "continue‸", "{continue‸}", "if(a)continue‸;", "a:continue‸;", "switch(a){case b:continue‸}", "while(a);continue‸;", "while(a)(function(){continue‸;})", "function f(){continue‸}", "while(a)b=function(){continue‸}", "do;while(a)continue‸;", "continue\n‸a", "continue ‸a", "try{continue‸}finally{}")
cases("continue to a loop's label (12.7)", "a:while(b)continue a", "a:while(b){continue a;}", "a:b:while(c)continue a", "a:b:while(c)continue b", "a:for(;;)while(b)continue a", "a:do continue a;while(b)", "a:for(b in c)continue a", "a:while(b)c:{continue a}", "a:for(;;){b:for(;;){continue a}}", "a:while(b)switch(c){default:continue a}", "a:\nb:\nfor(;;)continue a",
      "a:while(b)do continue a\nwhile(c)", "a:for(;;)b:c:for(;;){continue a;continue b;continue c}")
cases("the label must be a loop's own (12.7)", "a:{while(b)continue ‸a}", "a:if(b)while(c)continue ‸a", "a:if(b);else while(c)continue ‸a", "a:switch(b){case c:while(d)continue ‸a}", "while(a)continue ‸b", "a:while(b)(function(){while(c)continue ‸a})", "a:while(b);while(c)continue ‸a", "a:{continue ‸a}", "while(a)b:{continue ‸b}", "a:try{while(b)continue ‸a}finally{}",
      "while(a)b:continue ‸b", "a:b:{while(c)continue ‸b}", "a:while(b)c:{while(d)continue ‸c}", "a:{b:while(c)continue ‸a}")
cases("behind a line end a name is no target of continue (7.9.1)", "while(a){continue\nb}", "a:while(b){continue\na}", "a:while(b)continue\na", "while(a){continue/*\n*/b}")
cases("break (12.8)", "while(a)break", "for(;;)break;", "do break;while(a)", "do{break}while(a)", "switch(a){case b:break}", "switch(a){default:{break}}", "for(a in b){break}", "while(a)if(b)break;else c", "while(a)try{break}catch(b){break}finally{break}", "switch(a){case 1:break;default:break}")
cases("break outside a loop and switch (12.8)", "break‸;", "break‸", "{break‸}", "a:break‸;", "if(a)break‸;else b", "while(a);break‸", "while(a)(function(){break‸})", "switch(a){case function(){break‸}:}", "function f(){while(a);break‸;}", "a:{break‸;}", "switch(a){case b:}break‸;", "break\n‸a", "break\n‸;", "a:break\n‸a", "while(a)b={c:function(){break‸;}}", "break ‸1",
      "break\n‸", "break‸)", "if(a)break ‸else b")
cases("break of a label (12.8)", "a:break a", "a:break a;", "a:{break a}", "a:b:break a", "a:while(b)break a", "a:if(b)break a;else break a", "a:{b:{break a}}", "a:switch(b){case c:break a}", "a:try{break a}finally{}", "while(a){b:{break b}}", "a:{while(b)break a}", "a:for(;;)b:for(;;){break a}", "a:{break a\nb}")
cases("the label must stand around (12.8)", "break ‸a", "a:;break ‸a", "a:{}break ‸a;", "a:(function(){break ‸a})", "while(a)break ‸b", "a:{break ‸b}", "a:b:{c:;break ‸c}", "switch(a){case b:break ‸c}", "a:break ‸b", "a:{‸function f(){break a}}", "a:break a ‸b")
cases("behind a line end a name is no target of break (7.9.1)", "while(a){break\nb}", "a:while(b){break\na}", "switch(a){case b:break\nc}", "a:while(b)break//\na")
cases("behind a jump nothing but its end", "while(a)break ‸1", "while(a)continue ‸1", "a:break a ‸1", "while(a)break‸+1", "while(a)break ‸this", "a:break a‸,b", "while(a){break‸)", "while(a)continue‸.a", "a:while(b)continue a‸.b", "while(a)break‸:")
cases("return in a function (12.9)", "function f(){return}", "function f(){return;}", "function f(){return a}", "function f(){return a,b;}", "(function(){return})", "function f(){return\na}", "function f(){if(a)return;else return b}", "function f(){while(a)return\n}", "function f(){return{a:b}}", "function f(){return function(){return}}", "function f(){return\n;}", "function f(){return(a)}", "function f(){do return\nwhile(a)}",
      "function f(){return-a}", "function f(){return/*\n*/a}", "function f(){return//\n+a}", "function f(){{return}}")
cases("return outside a function counts at its word (12.9)", "‸return", "‸return;", "‸return a", "{‸return}", "if(a)‸return", "while(a)‸return;", "a:‸return", "function f(){}‸return", "switch(a){case b:‸return}", "try{‸return}finally{}", "do ‸return;while(a)", "(function(){return})\n‸return", "if(a);else ‸return")
cases("return has a value or none", "function f(){return ‸)}", "function f(){return a ‸b}", "function f(){return ‸if}", "function f(){return ‸else}", "function f(){return a,‸}", "function f(){return\n‸)}", "function f(){return ‸,a}", "function f(){return ‸/a/}", "function f(){return ‸*a}", "function f(){return\n‸*a}", "function f(){return a ‸b}", "function f(){if(a)return ‸else b}",
      "function f(){return ‸var a}", "function f(){return\n‸else}")
cases("a handler is a function's body, and return is allowed in it", "return", "return;", "return false", "return a,b", "if(a)return;b", "", "a", "function f(){}return f", "a:while(b)break a", "return\na", "{return}", kind=HANDLER)
cases("a handler is no more than a function's body", "‸}", "a‸}", "break‸;", "continue‸", "return ‸)", "1 ‸2", "{‸", "return a ‸b", "‸}{", "if(a)‸function f(){}", "return‸}", "if(a)‸", "(‸", "a=‸", "‸)", kind=HANDLER)
cases("a handler's names are a page's", "‸$mug", "var ‸$mugx", "a.‸$mugx", "return ‸$mug()", kind=HANDLER)

cases("with isn't there", "‸with(a)b", "{‸with(a){}}", "if(a)‸with(b)c", "a;‸with(b)c")
cases("debugger isn't there", "‸debugger", "‸debugger;", "{‸debugger}", "if(a)‸debugger;", "a\n‸debugger", "function f(){‸debugger}")

cases("switch (12.11)", "switch(a){}", "switch(a){case b:}", "switch(a){case b:c}", "switch(a){case b:case c:d;e}", "switch(a){default:}", "switch(a){default:b;case c:d}", "switch(a){case b:default:case c:}", "switch(a,b){case c,d:e}", "switch(a){case b:{}case c:;}", "switch(a){case b:c\ncase d:e}", "switch(a){case b?c:d:e}", "switch(a){case b:c:d}", "switch(a){case b:break;default:c}",
      "switch(a){case\"b\":case 1:case null:}", "switch(a){case b:var c}", "switch(a){case b:if(c)d\ndefault:e}", "switch\n(\na\n)\n{\ncase\nb\n:\n}")
cases("switch has one default at most (12.11)", "switch(a){default:‸default:}", "switch(a){default:b;‸default:c}", "switch(a){case b:default:case c:‸default:}", "switch(a){default:b\n‸default:c}", "switch(a){default:switch(b){default:‸default:}}")
case("switch(a){default:switch(b){default:}}", "each switch has a default of its own")
cases("switch wants its parts", "switch‸", "switch ‸a", "switch(‸){}", "switch(a‸", "switch(a)‸", "switch(a)‸b", "switch(a)\n‸;", "switch(a){‸", "switch(a){‸b}", "switch(a){case‸}", "switch(a){case ‸:}", "switch(a){case b‸}", "switch(a){case b‸;}", "switch(a){case b:‸", "switch(a){default‸}", "switch(a){default ‸a:}", "switch(a){case b:c ‸case d:}", "switch(a){case b:c ‸default:}", "switch(a){‸;}",
      "switch(a){case b:‸function f(){}}", "switch(a){case b:‸)}", "switch(a){case b:;‸else}", "switch(a){‸else}", "switch(a){case b\n‸c:}", "switch(a){case b:c:‸case d:}", "switch(a){case b:if(c)‸case d:}", "switch(a){‸a:b}")
cases("labels (12.12)", "a:;", "a:b", "a:b:c", "a:{}", "a:\nb", "a\n:\nb", "a:if(b)c;else d", "a:var b", "a:;a:;", "{a:;}a:;", "a:b;a:c", "a:(function(){a:;})()", "a:b={c:function(){a:;}}", "get:;", "let:;", "a:if(b)c:;else c:;", "function f(){a:;}a:f()", "yield:;", "async:;", "a:while(b)c:while(d);")
cases("a label isn't repeated around itself, counted at its colon (12.12)", "a:a‸:;", "a:b:a‸:;", "a:{a‸:;}", "a:while(b)a‸:;", "a:if(b)c;else a‸:;", "a:{b:{a‸:;}}", "a:switch(b){case c:a‸:;}", "a:try{}catch(b){a‸:}", "a:a\n‸:;", "a:(function(){b:b‸:;})", "function f(){a:a‸:;}", "a:do a‸:;while(b)", "a:for(;;)a‸:;", "a:a‸:a:;")
cases("a label wants a statement", "a:‸", "a:\n‸", "{a:‸}", "a:‸function f(){}", "a:‸)", "a:‸else", "a:‸:", "a:b:‸", "a:‸,", "if(a)b:‸else c", "a:‸case b:", "a:‸=b")
cases("a label is a name", "1‸:a", "(a)‸:b", "if‸:a", "this‸:a", "a.b‸:c", "\"a\"‸:b", "‸default:a", "null‸:a", "a,b‸:c", "‸class:a", "‸enum:a", "a()‸:b", "-a‸:b", "a=b‸:c", "a;b.c‸:d")
cases("throw (12.13)", "throw a", "throw a;", "throw a,b", "throw a\nb", "{throw a}", "throw{}", "throw function(){}", "throw(a)", "if(a)throw b;else c", "throw-a", "throw/*a*/b", "throw new a\n(b)", "throw[\n]")
cases("throw wants a value in its line (12.13)", "throw‸", "throw‸;", "throw\n‸a", "{throw‸}", "throw\n‸", "throw/*\n*/‸a", "throw//\n‸a", "throw a ‸b", "throw ‸)", "throw ‸var a", "throw\n‸;", "throw a,‸", "throw\u2028‸a", "throw\r‸a", "throw\r\n‸a", "throw\n‸}", "throw ‸if", "throw ‸*a", "if(a)throw‸;else b")
cases("try (12.14)", "try{}catch(a){}", "try{}finally{}", "try{}catch(a){}finally{}", "try{a}catch(b){c}finally{d}", "try{try{}finally{}}catch(a){}", "try\n{}\ncatch\n(\na\n)\n{}\nfinally\n{}", "try{a;b}finally{c;d}", "try{}catch(a){}b", "try{}finally{}b", "try{}catch(a){try{}finally{}}", "if(a)try{}finally{}else b")
cases("try wants catch or finally (12.14)", "try{}‸", "try{}‸a", "try{}\n‸a", "try{}‸;", "{try{}‸}", "try{}‸try{}", "try{a}\n‸", "try{}‸else", "if(a)try{}‸else b", "try{}‸{}", "try{}‸(a)")
cases("try wants its parts", "try‸", "try ‸a", "try‸;", "try{‸", "try{}catch‸", "try{}catch‸{}", "try{}catch(‸", "try{}catch(‸){}", "try{}catch(a‸", "try{}catch(a‸,b){}", "try{}catch(‸1){}", "try{}catch(‸{a}){}", "try{}catch(‸if){}", "try{}catch(a)‸", "try{}catch(a)‸;", "try{}catch(a)‸b", "try{}catch(a){‸", "try{}finally‸", "try{}finally ‸a", "try{}finally{‸", "try{}finally{}‸catch(a){}", "try{}catch(a){}‸catch(b){}", "try{}finally{}‸finally{}",
      "try{}catch(a){}finally‸(b){}", "try{‸function f(){}}finally{}", "try{}finally‸;", "try{}catch ‸a{}", "try{}catch(a‸=1){}", "try‸:{}", "try{}catch(a‸.b){}")

cases("function declarations (13)", "function f(){}", "function f(a){}", "function f(a,b){}", "function f(a,a){}", "function f(){a}", "function f(){a;b}", "function f(){function g(){}}", "function f(){}function g(){}", "function\nf\n(\na\n,\nb\n)\n{\n}", "function f(){\"use strict\"}", "a\nfunction f(){}", "function f(){}a", "function get(){}", "function let(){}", "function f(){}\n;", "function f(){var a}", "(function(){function f(){}})", "function f(){;}", "a;function f(){}b")
cases("function declarations want their parts", "function‸", "function ‸1(){}", "function f‸", "function f‸{}", "function f(‸", "function f(a‸", "function f(a ‸b){}", "function f(‸,){}", "function f(a,‸){}", "function f(a,‸", "function f(‸1){}", "function f(a‸.b){}", "function f(a‸=1){}", "function f(‸...a){}", "function f(‸{a}){}", "function f(‸[a]){}", "function f()‸", "function f()‸;", "function f()\n‸a", "function f(){a‸", "function f(){}‸}", "function ‸if(){}", "function‸*f(){}", "function f(‸this){}",
      "function f‸.a(){}", "function f(){‸)}", "function f(){(‸}", "function f(){[‸}", "function f(){a ‸b}", "function f()‸=>a", "a ‸function f(){}", "function ‸\"f\"(){}", "function‸(a){}")
cases("a function declaration stands at the top of a program or function body alone, and counts at its word (13, 14)", "{‸function f(){}}", "if(a)‸function f(){}", "if(a);else ‸function f(){}", "while(a)‸function f(){}", "for(;;)‸function f(){}", "do ‸function f(){}while(a)", "a:‸function f(){}", "switch(a){case b:‸function f(){}}", "try{}finally{‸function f(){}}", "try{}catch(a){‸function f(){}}", "function f(){{‸function g(){}}}", "for(a in b)‸function f(){}", "switch(a){default:‸function f(){}}", "function f(){if(a)‸function g(){}}",
      "{a\n‸function f(){}}", "{;‸function f(){}}", "{‸function 1(){}}", "(function(){{‸function f(){}}})")
cases("faults in a body and behind it, the first one counts", "function f(){1 ‸2}3 4", "function f(){}3 ‸4", "function f(){1 ‸2", "(function(){1 ‸2},3 4)", "(function(){},3 ‸4)", "a=function(){if(‸)};)", "function f(){function g(){1 ‸2}3 4}5 6", "function f(){function g(){}3 ‸4}5 6", "f(function(){return ‸)},1 2)", "function f(){(‸}1 2")

# Expressions ----------------------------------------------------------------------------------------------------------------

cases("primary expressions (11.1)", "this", "a", "null", "true", "false", "0", "12", "0x1F", "\"a\"", "'a'", "[]", "({})", "(a)", "((a))", "(a,b)", "$", "_", "a1", "$_0", "(this)", "undefined", "NaN", "arguments", "eval")
cases("parentheses want an expression", "(‸)", "(‸", "(a‸", "(a,‸)", "(‸;)", "(a‸;)", "((a)‸", "(a ‸b)", "(a)‸)", "(a‸]", "(‸if)", "(‸var a)", "(a‸}", "(\n‸)", "(a\n‸b)", "(a\n‸", "(‸,a)", "(‸...a)")
cases("arrays and their holes (11.1.4)", "[]", "[a]", "[a,b]", "[a,b,]", "[,]", "[,,]", "[,a]", "[a,,b]", "[a,,]", "[,,a,,b,,]", "[[],[a]]", "[a=b]", "[\na\n,\nb\n]", "[a?b:c,d]", "[(a,b)]", "[function(){}]", "[{}]")
cases("arrays want their end", "[‸", "[a‸", "[a ‸b]", "[a‸;b]", "[a,‸", "[a‸)", "[‸)", "[,‸", "[,‸)", "[a,‸;]", "[‸...a]", "[a,‸...b]", "[a‸:b]", "[‸;]", "[a\n‸b]", "[a‸}", "[‸*a]", "[‸if]")
cases("object literals (11.1.5)", "({})", "({a:b})", "({a:b,c:d})", "({a:b,})", "({\"a\":b})", "({'a b':c})", "({1:a})", "({0x10:a})", "({a:1,a:2})", "({\na\n:\nb\n,\n})", "({a:{b:{}}})", "({a:b=c})", "({a:b?c:d,e:f})", "a={b:c}", "({a:function(){}})", "({\"\":a})", "({0:a,1:b})", "({__proto__:a,__proto__:b})", "a={}")
cases("reserved words are keys (7.6, 11.1.5)", "({if:a})", "({break:1,case:2,catch:3,continue:4,debugger:5,default:6,delete:7,do:8,else:9,finally:0})", "({for:1,function:2,if:3,in:4,instanceof:5,new:6,return:7,switch:8,this:9,throw:0})", "({try:1,typeof:2,var:3,void:4,while:5,with:6,class:7,const:8,enum:9,export:0})", "({extends:1,import:2,super:3,null:4,true:5,false:6})")
cases("object literals want their parts", "({‸", "({a‸", "({a‸})", "({a:‸", "({a:‸})", "({a:b‸", "({a:b ‸c:d})", "({‸,})", "({a:b,‸,})", "({a:b‸;})", "({a‸,b})", "({a:b,c‸})", "({‸[a]:b})", "({a‸(){}})", "({‸...a})", "({‸(a):b})", "({a‸=b})", "({‸-1:a})", "({a:‸,b:c})", "({a:b,‸", "({a ‸b:c})", "({\"a\"‸})", "({1‸})", "({if‸})", "({a‸.b:c})", "({a:b‸:c})", "({‸;})", "({‸*a(){}})", "({a\n‸b:c})", "({async ‸a(){}})",
      "({a:b\n‸c:d})", "({‸)", "({a:b‸)", "({‸]", "({‸:a})", "({1‸,})", "({a:1,\"b\"‸})")
cases("get and set are keys like others", "({get:a})", "({set:a})", "({get:a,set:b})", "({\"get\":a})", "a.get", "a.set", "({get\n:a})", "get", "set(a)")
cases("an accessor is refused at the brace that finishes it", "({get a(){‸}})", "({set a(b){‸}})", "({get a(){return b‸}})", "({get a(){return b;‸}})", "({set a(b){c=b‸}})", "({get if(){‸}})", "({get \"a\"(){‸}})", "({get 1(){‸}})", "({set 1(a){‸}})", "({get get(){‸}})", "({get set(){‸}})", "({set get(a){‸}})", "({a:b,get c(){‸}})", "({get a(){{}‸}})", "({get\na\n(\n)\n{\n‸}\n})", "({set if(a){‸}})", "({set\"a\"(b){‸}})", "({get a(){function f(){}‸}})", "({get a(){while(b)break\n‸}})", "({get a(){\"use strict\"‸}})", "({get a(){({})‸}})",
      "({set a(a){‸}})", "({get a(){‸}", "({get a(){‸}}),1 2", "1+{get a(){‸}}", "({get a(){if(b)return;‸}})", "({set set(set){‸}})", "({get in(){‸}})")
cases("a fault in an accessor comes first", "({get a(){1 ‸2}})", "({get a(‸b){}})", "({set a(‸){}})", "({set a(b‸,c){}})", "({get a‸})", "({get a‸:b})", "({get ‸[a](){}})", "({get a‸,b:c})", "({set a‸})", "({get a()‸:b})", "({get a(){(‸}})", "({get a(){({get b(){‸}})}})", "({get a(){break‸}})", "({set ‸(a){}})", "({get‸(){}})", "({set‸(a){}})", "({set a(‸1){}})", "({set a(b)‸;})", "({get a(){‸", "({get a(){b‸", "({get‸})", "({get‸,a:b})", "({set‸})", "({set a(‸if){}})", "({get a(){{‸function f(){}}}})", "({get a(){{}‸)}})",
      "({get a(){continue‸}})", "while(a)b={get c(){break‸}}", "a:b={get c(){break ‸a}}", "({set a(b‸=1){}})", "({set a(‸...b){}})", "({\"get\" ‸a(){}})", "({get ‸-1(){}})", "({get a ‸b(){}})")
cases("function expressions (13)", "(function(){})", "(function f(){})", "(function(a){})", "(function f(a,b){return a+b})", "a=function(){}", "(function(){})()", "(function(){}())", "!function(){}()", "a(function(){})", "[function(){},function(){}]", "a=function(){\n}\nb", "a=function f(){f()}", "new function(){}", "-function(){}", "(function(){a:while(b)break a})", "void function(){}()", "a=function(){}.b", "a=function(){}(b)")
cases("function expressions want their parts", "(function‸)", "(function f‸)", "(function(‸", "(function(a‸", "(function()‸)", "(function(){‸", "(function(){‸)", "(function ‸1(){})", "(function(a,‸){})", "(function(){}‸", "(function ‸if(){})", "a=function(){} ‸b", "a=function‸*(){}", "(function(‸...a){})", "(function(a‸=1){})", "(function f(‸\"a\"){})", "(function()‸=>a)", "(function(a‸;){})", "(function‸.a(){})", "a=function‸")

cases("members (11.2.1)", "a.b", "a.b.c", "a[b]", "a[b][c]", "a.b[c].d", "a[b,c]", "a\n.b", "a.\nb", "a\n[b]", "a[\nb\n]", "this.a", "\"a\".b", "[].a", "({}).a", "1.a", "(a).b", "null.a", "a[\"b\"]", "a[b=c]", "a[b in c]", "(function(){}).a", "1 .a", "0x1.a", "a.b1", "a.$", "a._", "a . b")
cases("reserved words are names of members (7.6, 11.2.1)", "a.if", "a.in", "a.null", "a.class", "a.function", "a.new.delete", "a.default()", "a.this", "a.true=b", "a.super", "a.debugger", "a.with", "a.return\nb", "a.typeof", "a.instanceof", "a.enum.export.extends.import.const.super")
cases("members want their parts", "a.‸", "a.‸;", "a.‸1", "a.‸\"b\"", "a.‸[b]", "a.‸(b)", "a[‸]", "a[‸", "a[b‸", "a[b‸;]", "a[b,‸]", "a[b‸)", "a[b]‸]", "a.‸.b", "a?‸.b", "a.‸#b", "a[b ‸c]", "a[‸...b]", "a.\n‸", "a[b\n‸c]", "a[‸if]", "a.b.‸-c", "a[b‸:c]", "a.‸+")
cases("calls (11.2.3)", "a()", "a(b)", "a(b,c)", "a()()", "a().b", "a()[b]", "a.b()", "a[b]()", "a\n()", "a(\nb\n,\nc\n)", "a(b=c,d)", "a((b,c))", "a(b?c:d)", "(a)()", "a(function(){})", "this()", "\"a\"()", "1()", "a()()()", "a(b in c)", "a({})", "a\n(b)\n[c]\n.d", "a([b])")
cases("calls want their end", "a(‸", "a(b‸", "a(b ‸c)", "a(b,‸)", "a(‸,b)", "a(b,‸,c)", "a(b‸;c)", "a(b‸]", "a(‸;)", "a(‸...b)", "a(b,‸...c)", "a()‸)", "a(\nb\n‸c)", "a(‸var b)", "a(b‸:c)", "a(‸if)", "a(b‸", "a(b,\n‸", "a(b‸}", "a()‸{}", "a() ‸b", "a()‸b")
cases("new (11.2.2)", "new a", "new a()", "new a(b,c)", "new a.b", "new a.b()", "new a[b]", "new a[b](c)", "new a().b", "new a()()", "new a()[b]", "new new a", "new new a()", "new new a()()", "new new a().b()", "new new a.b().c(d)", "new(a)", "new(a())", "new(a())()", "new(a().b)", "new this", "new function(){}", "new function(){}()", "new\na", "new a\n(b)", "new a\nb", "new {}.a", "new[]", "new\"a\"", "new 1", "new a,b", "new a+b", "new a?b:c", "new new new a()()()", "new a.if", "-new a", "typeof new a", "new a instanceof b", "new new a.b", "new new(a)()", "new(a)(b)",
      "new a.b.c.d(e).f", "new a[b].c[d]()", "new new a", "new null", "new a.new", "new a()\nb")
cases("new wants a callee", "new‸", "new ‸;", "new ‸-a", "new ‸++a", "new ‸typeof a", "new‸.target", "new a.‸", "new a[‸]", "new a(‸", "new a(b,‸)", "new ‸if", "new a‸=b", "new a‸++", "new a()‸++", "new a()‸=b", "new new‸", "new a ‸b", "new ‸!a", "new ‸delete a", "new[‸", "new‸)", "new ‸,a", "new new a‸=b", "new a() ‸b", "new a‸:b", "new a(b ‸c)", "new ‸void 0", "new ‸return", "new new ‸-a", "new a‸+=b",
      "new new a()‸--", "new\n‸", "new ‸class{}", "new a()()‸=b", "new a.b‸=c", "new a[b]‸++", "new a.b‸--", "new(‸)", "new(a)‸=b")

cases("postfix operators (11.3)", "a++", "a--", "a.b++", "a[b]--", "(a)++", "(a.b)--", "a++\nb", "a++,b", "a+++b", "a---b", "a++*b", "a++ +b", "a().b++", "new a().b++", "this.a++", "((a))++", "a ++", "a++ in b", "a++?b:c", "(a[b])++", "a.if++", "\"a\".b++", "a++ + ++b", "[].a++", "a++ - --b", "a++-b")
cases("the target of a postfix operator is judged at it (11.3)", "1‸++", "a()‸++", "this‸++", "(a,b)‸--", "(a+b)‸++", "a++‸++", "a--‸++", "a+1‸++", "\"a\"‸++", "[]‸++", "(a=b)‸++", "(function(){})‸++", "null‸++", "(a++)‸++", "(-a)‸--", "new a‸++", "true‸--", "({})‸++", "a().b()‸--", "a++ ‸++", "(a())‸++", "((a,b))‸++", "!1‸++", "-a()‸++", "(new a)‸--", "a++‸--", "(a?b:c)‸++", "this ‸++ +a", "false‸++", "NaN.a()‸++")
cases("no line end before a postfix operator (7.9.1)", "a\n++b", "a\n--b", "a\n++\nb", "1\n++a", "a++\n++b", "a/*\n*/++b", "a\r++b", "a\u2029++b", "a()\n--b", "a\n++b\n--c", "a--\n--b", "if(a)b\n++c", "a=b\n++c", "var a=b\n++c", "a\n++(b)")
cases("then the operand is missing or no semicolon is inserted (7.9.1)", "a\n++‸", "a\n++‸;", "(a\n‸++)", "if(a\n‸++b)c", "[a\n‸++]", "a(b\n‸--)", "for(a\n‸++;;);", "a\n++\n‸", "for(;;a\n‸++);", "{a\n++‸}", "while(a\n‸--)b", "({a:b\n‸++})", "a\n--‸)", "a[b\n‸++]", "a\n++\n‸", "a?b\n‸++:c", "switch(a\n‸++){}")
cases("what stands behind a postfix operator", "a++‸.b", "a++‸(b)", "a++‸[b]", "a++ ‸b", "a++‸=b", "a++ ‸1", "a++‸:b", "a++‸)", "a--‸+=b", "a++‸.b()", "a++ ‸this", "a++‸{", "a++‸!b")
case("a++\n(b)", "behind a postfix operator no arguments can follow, so that a semicolon is inserted")
case("a++\n[b]", "nor a member in brackets")
case("a++\n‸.b", "nor a member, with which no statement begins")
cases("prefix operators (11.4)", "delete a.b", "delete a[b]", "void a", "typeof a", "++a", "--a", "+a", "-a", "~a", "!a", "- -a", "-+-a", "!!a", "typeof typeof a", "void 0", "-a.b", "!a()", "-a++", "+-~!a", "typeof(a)", "delete a.b.c", "~-a", "- --a", "+ ++a", "!a.b[c]", "-\na", "!\na", "typeof\na", "++\na", "void\na", "delete\na.b", "delete a().b", "-1", "typeof a.b", "typeof delete a.b", "void void a", "- - - a", "!function(){}", "typeof[]", "-{}", "typeof null", "a- -b", "a+ +b", "a- --b", "-(a)", "~~a")
cases("prefix operators want an operand", "-‸", "-‸;", "!‸)", "delete‸", "delete‸;", "typeof‸", "void‸;", "++‸", "++‸;", "- ‸if", "~‸,a", "‸!=a", "- ‸*a", "typeof‸.a", "!‸/a/", "+‸}", "-\n‸", "{-‸}", "--‸)", "++‸=a", "+ +‸", "~‸&a", "typeof ‸in a", "-‸:a", "void ‸var a", "delete‸,a", "delete‸)")
cases("the target of ++ and -- is judged where the operand is finished (11.4.4)", "++1‸", "++1‸;", "--1‸+a", "++a()‸", "++a()‸;", "++this‸", "++(a,b)‸", "++a‸++", "++a‸++", "++a‸--;", "++-a‸", "++-a‸;", "++ ++a‸;", "++!a‸", "++(a+b)‸", "++new a‸", "++new a()‸;", "--\"a\"‸", "++[]‸,a", "++{}‸", "++function(){}‸", "++typeof a‸;", "++1\n‸a", "(++1‸)", "++delete a.b‸;", "++(a++)‸;", "--(-a)‸", "++null‸", "++a()‸=b", "++a.b()‸;", "{++1‸}", "++(a())‸", "-++1‸;", "++void a‸+b", "-- --a‸", "++a.b‸++",
      "++(1)‸*a", "--true‸?a:b", "++new a(b)‸", "++1‸++", "++a()‸--", "++1\n‸++a", "++{}‸", "--a() ‸b")
cases("an operand with an operator before it is no target", "++ ++a‸", "++ --a‸;", "--+a‸", "++~a‸;", "++!a.b‸", "--void a‸;", "--typeof a‸", "--delete a.b‸", "++-a.b‸+c", "--!a()‸;")
cases("such an operand is finished where a postfix operator would stand in it, and so is refused at that operator (11.4.4)", "++-a‸++;", "--!a‸--", "++typeof a‸++;", "++ ++a‸++", "++- -a‸--", "++~a.b‸++", "++delete a‸++", "++void a[b]‸--;", "++-a‸++\n", "--+1‸++", "++- ++a‸++")
cases("elsewhere a postfix operator stands in the operand", "-a++;", "!a--", "typeof a++", "delete a++", "- -a++", "void a[b]--", "-a++\n++b", "++(a)\n++b")
cases("targets of prefix ++ and --", "++a", "++a.b", "++a[b]", "++(a)", "--(a.b)", "++a().b", "++new a().b", "++this.a", "++((a))", "++a.b.c", "--a[b][c]", "++a;--b", "-++a", "typeof --a", "++a in b", "++a+b", "++a\n++b", "++a\n(b).c", "++\"a\".b", "++[].a", "++{}.a", "++function(){}.a", "--a?b:c", "++new a.b().c")
case("++a\n(b)‸", "a line end doesn't end the operand, and a call is no target")
cases("delete of a bare name is judged where the operand is finished (11.4.1)", "delete a‸", "delete a‸;", "delete (a)‸", "delete ((a))‸;", "delete a‸+b", "delete a‸=b", "(delete a‸)", "delete a‸,b", "delete a ‸in b", "delete a\n‸b", "delete a\n‸++b", "{delete a‸}", "[delete a‸]", "delete (a)++", "typeof delete a‸;", "-delete a‸", "delete a‸?b:c", "delete a‸*b", "if(delete a‸)b", "delete delete a‸", "delete a ‸b", "delete arguments‸;", "delete(a)\n‸", "!delete a‸&&b",
      "delete undefined‸;", "a=delete b‸", "delete a‸:", "delete a‸]", "f(delete a‸,b)", "for(;;delete a‸);", "delete (a)‸,b")
cases("delete of what is no bare name (11.4.1)", "delete a.b", "delete a[b]", "delete a()", "delete 1", "delete this", "delete (a,b)", "delete -a", "delete a++", "delete new a", "delete (a.b)", "delete delete a.b", "delete typeof a", "delete (a=b)", "delete ++a", "delete []", "delete \"a\"", "delete a.b.c", "delete !a", "delete null", "delete (a+b)", "delete (a).b", "delete {}", "delete (a)(b)", "delete a\n(b)", "delete a\n.b", "delete void a", "delete function(){}")

OPERATORS = "* / % + - << >> >>> < > <= >= instanceof in == != === !== & ^ | && ||".split()
for operator in OPERATORS:
    case("a %s b" % operator, "an operator between two operands (11.5 to 11.11)")
    case("a %s b %s c" % (operator, operator), "an operator is repeated")
    case("a %s‸" % operator, "an operator wants a right operand")
    case("a %s b ‸c" % operator, "behind the right operand no other one")
    case("a\n%s\nb" % operator, "an operator goes on behind a line end")
    case("a %s b‸=c" % operator, "what an operator gives is no target (11.13)")
for operator in "* / % << >> >>> < > <= >= instanceof in == != === !== & ^ | && ||".split():
    case("‸%s a" % operator, "an operator between operands begins no expression")
    case("a + ‸%s b" % operator, "nor a right operand")
cases("operators of each level after one another", "a||b&&c|d^e&f==g<h<<i+j*k", "a*b+c<<d<e==f&g^h|i&&j||k", "a+b-c", "a*b/c%d", "a<b>c", "a==b!=c===d!==e", "a<<b>>c>>>d", "a in b instanceof c", "a-b*c", "a*b-c", "a|b&c", "a&b|c", "a&&b||c&&d", "a<b==c<d", "-a*-b", "a+(b+c)", "a*(b+c)*d", "!a in b", "!a instanceof b", "a in b in c", "a<!--b", "a-->b", "a- -b- -c", "a+ ++b", "a%-b", "a/b/c", "a\n/b/c", "a=b/c/d", "typeof a==\"b\"")
cases("two operators of which none is a prefix", "a*‸*b", "a&&‸=b", "a===b", "a>>>‸>b", "a<<=b", "a?‸?b", "a||‸=b", "a=‸>b", "a==‸>b", "a=‸>b", "a‸!b", "a ‸~b", "a‸!", "a*‸*=b", "a!==‸=b", "a===‸=b", "a+‸*b", "a<‸>b", "a-‸/b", "a&‸|b", "a==‸>b", "a ‸typeof b", "a ‸void 0", "a ‸new b", "a ‸delete b.c")
cases("?: (11.12)", "a?b:c", "a?b:c?d:e", "a?b?c:d:e", "a?b=c:d=e", "a\n?\nb\n:\nc", "a?(b,c):d", "a||b?c:d", "a?b:c,d", "(a?b:c)?d:e", "a?function(){}:{}", "a?b in c:d in e", "a=b?c:d", "a?b:c=d", "a?-b:+c", "a?b:c||d", "a?[]:{}", "a?b.c:d.e", "a?b(c):d(e)")
cases("?: wants its parts", "a?‸", "a?b‸", "a?b‸;", "a?b:‸", "a?b:‸;", "a?‸:b", "a?b‸,c:d", "a?b‸)", "(a‸:b)", "a?b:c‸:d", "‸?a:b", "a?b ‸c:d", "a?b\n‸c", "(a?b:c)‸=d", "a?b:c ‸d", "a?b?c:d‸", "a?b:c?d‸", "a?‸.b:c", "a?b:‸,c", "(a?b‸)", "[a?b‸]", "a?b\n‸", "a?b:\n‸", "a?b=c‸,d:e", "a?‸?b:c", "a?b:1‸=c", "{a?b‸}")
for operator in "= += -= *= /= %= <<= >>= >>>= &= ^= |=".split():
    case("a%sb" % operator, "assignment to a name (11.13)")
    case("a.b %s c" % operator, "assignment to a member")
    case("a[b]%s(c)" % operator, "assignment to a member in brackets")
    case("1‸%sa" % operator, "the target is judged at the operator")
    case("a()‸%sb" % operator, "a call is no target")
    case("a%s‸;" % operator, "an assignment wants a value")
    case("a%sb ‸c" % operator, "behind the value no other operand")
    case("a%sb%sc" % (operator, operator), "an assignment is a value of another one")
cases("targets of assignments (11.13)", "a=b", "(a)=b", "(a.b)=c", "((a))=b", "a.b.c=d", "a().b=c", "new a().b=c", "this.a=b", "a=b=c=d", "a[b]=c", "a=b,c=d", "a=function(){}", "a\n=\nb", "a=b+=c", "undefined=a", "eval=a", "arguments=a", "a=b?c:d", "a=(b,c)", "\"a\".b=c", "[].a=b", "(a[b])=c", "a=b in c", "let=a", "a=-b", "a.b=c.d=e", "(a)[b]=c", "a()()[b]=c", "1 .a=b", "(a)\n=b", "a=b||c", "(a)+=b")
cases("what is no target (11.13)", "this‸=a", "1‸=a", "\"a\"‸=b", "null‸=a", "true‸=a", "a+b‸=c", "a++‸=b", "++a‸=b", "-a‸=b", "a()‸=b", "new a‸=b", "(a,b)‸=c", "(a=b)‸=c", "[a]‸=b", "({a:b})‸=c", "(function(){})‸=a", "a?b:c()‸=d", "a||b‸=c", "a&&b‸=c", "typeof a‸=b", "(a+b)‸=c", "a=b+c‸=d", "a=1‸=b", "a,1‸=b", "(a())‸=b", "(a++)‸=b", "!a‸=b", "void a‸=b", "a==b‸=c", "a in b‸=c", "(1)‸=a", "({})‸=a", "[]‸=a", "a=b()‸=c", "a=this‸=b", "((a,b))‸=c", "a-b‸-=c", "a.b()‸=c", "a?b:c+d‸=e", "delete a.b‸=c", "(a?b:c)‸+=d", "a instanceof b‸=c",
      "false‸=a", "(null)‸=a", "a\n||b\n‸=c")
cases("an assignment wants a value", "a=‸", "a=‸;", "a=‸)", "a=b=‸", "a=‸,b", "a= ‸=b", "a=‸if", "a=b ‸c", "a=‸var b", "a=\n‸", "a=‸}", "{a=‸}", "a=‸*b", "a=‸:b", "a=‸]", "a+=‸-=b")
cases("the comma (11.14)", "a,b", "a,b,c", "(a,b),c", "a=b,c=d", "a\n,\nb", "a,function(){}", "a,b?c:d,e", "a,(b,c)", "a,{}")
cases("the comma wants operands", "a,‸", "a,‸;", "a,‸,b", "‸,a", "a,‸)", "(a,‸)", "a,b,‸", "a,b ‸c", "a,\n‸", "a,‸if", "{a,‸}", "a,‸var b", "a,b‸:c")

# Semicolons -----------------------------------------------------------------------------------------------------------------

cases("before a token behind a line end that can't go on (7.9.1)", "a\nb", "a\n1", "a\n\"b\"", "a\nthis", "a\n{}", "a\nif(b)c", "a\nvar b", "a\nfunction f(){}", "a\n!b", "a\n~b", "a\ntypeof b", "a\nnew b", "a\nvoid 0", "a\ndelete b.c", "a\nwhile(b)c", "a\nb\nc", "a\rb", "a\r\nb", "a\u2028b", "a\u2029b", "a\n\n\nb", "a //c\nb", "a/*\n*/b", "a/*b\r*/c", "a/*\u2028*/b", "a /**/\n b", "a\n//\nb", "a=b\nc=d", "a()\nb()", "a.b\nc", "a[b]\nc", "var a\nvar b", "var a=1\nvar b", "a\nb:c", "a\nfor(;;);", "a\ntry{}finally{}", "a\nthrow b", "a\ndo;while(b)", "a\nswitch(b){}", "a\n;b", "a/*b\n\nc*/d")
cases("not within a line (7.9.1)", "a ‸b", "a ‸1", "a ‸{}", "a ‸if(b)c", "a ‸var b", "a/**/‸b", "a ‸this", "a()‸b", "a ‸!b", "a[b]‸c", "var a ‸var b", "a ‸\"b\"", "a/*b*/‸c", "a ‸function(){}", "a;b ‸c", "a ‸throw b", "a ‸for(;;);", "a ‸do;while(b)", "\"a\"‸\"b\"", "a ‸~b", "1 ‸a", "a\t‸b", "a\u00a0‸b", "a\ufeff‸b", "a\u000b‸b", "a\u000c‸b", "a\u2003‸b", "a\u3000‸b", "(a)‸b", "a ‸try{}finally{}", "this‸{}", "a ‸\"b\"\nc", "a/*\t*/‸b")
cases("not where the token goes on (7.9.1)", "a\n(b)", "a\n[b]", "a\n.b", "a\n+b", "a\n-b", "a\n*b", "a\n/b", "a\n,b", "a\n=b", "a\n?b:c", "a\nin b", "a\ninstanceof b", "a\n&&b", "a\n==b", "var a\n=1", "var a\n,b", "a=function(){}\n(b)", "a\n[b]\n(c)", "a=b\n(c)", "a\n+\nb", "a\n-\nb")
cases("a token that goes on is wanted (7.9.1)", "a\n(b ‸c)", "a\n[b,‸]", "a\n(‸;)", "a\n/b‸)", "a\n.‸;", "a\n+‸;", "var a\n=‸;", "a\n[‸]", "a\n/b‸:", "a\n*‸", "a\n?b‸;", "a\n(b\n‸c)", "a\n-‸)")
cases("before a brace (7.9.1)", "{a}", "function f(){a}", "{var a}", "{a;b}", "function f(){return}", "while(a){break}", "while(a){continue}", "{throw a}", "{do;while(a)}", "switch(a){case b:c}", "if(a){b}else{c}", "try{a}catch(b){c}finally{d}", "{{a}b}", "{a++}", "(function(){return a})", "{a=b}", "{new a}", "{if(a)b}")
cases("before a brace it doesn't help", "{if(a)‸}", "{while(a)‸}", "{for(;;)‸}", "{a:‸}", "{a=‸}", "{a,‸}", "{var‸}", "{throw‸}", "{(a‸}", "{a?b‸}", "{if(a)b;else‸}", "{new‸}", "{-‸}", "{do a‸}", "{for(a‸}", "{a.‸}", "{for(a in b)‸}", "{var a=‸}", "a‸}", "a;‸}", "{if(a‸}", "{do;while(a‸}", "{a[b‸}", "{a(b‸}")
cases("at the end (7.9.1)", "a", "var a", "do;while(a)", "throw a", "a=b", "if(a)b", "a:b", "while(a)b", "for(;;)a", "a\n", "a//", "a/*b*/", "var a=1", "if(a);else b", "a++", "new a", "a ", "a\u2029")
cases("at the end it doesn't help", "(‸", "if(a)‸", "while(a)‸", "for(;;)‸", "a:‸", "a=‸", "a+‸", "a.‸", "a?b:‸", "new‸", "if(‸", "do‸", "try‸", "switch(a)‸", "var‸", "{‸", "a(‸", "throw‸", "for(‸", "a=\n‸", "a= ‸", "a=//\n‸", "a=/**/‸", "if(a)b;else‸", "for(a in b)‸", "if(a) \n ‸")
cases("never as an empty statement (7.9.1)", "if(a)\n‸else b", "while(a)\n‸}", "for(;;)\n‸", "a:\n‸", "if(a)b;else\n‸", "if(a)\n‸", "{if(a)\n‸}", "for(a in b)\n‸}", "do\n‸}", "a:\n‸else", "if(a);else\n‸}", "do\nwhile(a)\n‸")
case("while(a)\nb", "the body may stand on the next line")
cases("return takes a line end as its own end (7.9.1)", "function f(){return\n}", "function f(){return\n;}", "function f(){return\na\n}", "function f(){return\n+a}", "function f(){return\n(a)}", "function f(){return\n[a]}", "function f(){return\n{}}", "function f(){return\n-a}")
cases("nor does it go on behind it (7.9.1)", "function f(){return\n‸.a}", "function f(){return\n‸,a}", "function f(){return\n‸=a}", "function f(){return\n‸?a:b}", "function f(){return\n‸in a}")
cases("an inserted semicolon is one", "if(a)b\nelse c", "if(a)b;\nelse c", "do a\nwhile(b)", "do a;\nwhile(b)\nc", "if(a)throw b\nelse c", "if(a)var b\nelse c", "if(a)do;while(b)\nelse c", "function f(){if(a)return\nelse b}", "while(a)if(b)break\nelse c", "while(a)if(b)continue\nelse c", "a:if(b)break a\nelse c")
cases("and a second one isn't inserted", "if(a)b;\n;‸else c", "do a;\n‸;while(b)", "do a;\n‸b\nwhile(c)", "do a\n‸b\nwhile(c)", "if(a)b\nc\n‸else d", "if(a)b\n;\n;\n‸else c")
cases("a statement that needs none", "if(a){}b", "while(a){}b", "{}b", "function f(){}b", "try{}finally{}b", "switch(a){}b", "for(;;){}b", "a:{}b", "for(a in b){}c", "if(a){}else{}b")

# Names -----------------------------------------------------------------------------------------------------------------------

MUG = ["‸$mug", "‸$mugx", "var ‸$mug", "var a,‸$mugx", "var ‸$mugx=1", "function ‸$mugx(){}", "function f(‸$mugx){}", "function f(a,‸$mugx){}", "(function ‸$mugx(){})", "(function(‸$mug){})", "a.‸$mugx", "({‸$mugx:a})", "({a:b,‸$mugx:c})", "a=‸$mugx", "‸$mugx=a", "‸$mugx:a", "try{}catch(‸$mugx){}",
       "for(‸$mugx in a);", "for(var ‸$mugx in a);", "for((‸$mugx)in a);", "a(‸$mugx)", "new ‸$mugx", "typeof ‸$mugx", "a[‸$mugx]", "[‸$mugx]", "++‸$mugx", "a?‸$mugx:b", "({a:‸$mugx})", "throw ‸$mugx", "function f(){return ‸$mugx}", "switch(‸$mug){}", "if(‸$mugx)a", "a\n‸$mugx", "‸$mugx()", "for(;‸$mugx;);", "a.b.‸$mug_log()", "a+‸$mugx", "a,‸$mug", "{‸$mugx}", "a;‸$mug1", "do;while(a)‸$mugx", "while(a){break\n‸$mugx}"]
for text in MUG:
    case(text, "each name that begins with $mug is refused in a page")
    case(text.replace("‸", ""), "and is a name like others in hidden code", HIDDEN)
cases("each name that begins with $mug is refused in a page", "a:while(b)break ‸$mugx", "({get ‸$mugx(){}})", "({set ‸$mugx(a){}})", "({set a(‸$mugx){}})", "function f(){return\n‸$mugx}", "while(a)continue ‸$mugx")
cases("names like others in hidden code", "({get $mugx(){‸}})", "({set a($mugx){‸}})", "a ‸$mugx", "$mugx ‸a", "$mugx:$mugx‸:;", "delete $mugx‸", "while(a)break ‸$mugx", "$mug(‸", "‸return $mug", kind=HIDDEN)
cases("names in hidden code", "$mugx:while(a){break $mugx}", "$mugx:while(a)continue $mugx", "function $mug_value(){var r=$mug_apply();$mug_log();return r;}", "function $mug_call(){$mug_count(1);try{return $mug_apply();}finally{$mug_count(-1);}}", kind=HIDDEN)
cases("names that don't begin so", "mug", "$mu", "$Mug", "_$mug", "$$mug", "x$mug", "$MUG", "$m", "a.$mu", "$;mug", "\"$mug\"", "a[\"$mug\"]", "({\"$mug\":a})", "'$mugx'", "/*$mug*/", "//$mug")
cases("reserved words are no names (7.6.1)", "var ‸class", "var ‸enum", "var ‸super", "var ‸const", "var ‸export", "var ‸extends", "var ‸import", "var ‸null", "var ‸true", "var ‸false", "var ‸while", "var ‸in", "var ‸instanceof", "var ‸typeof", "var ‸debugger", "var ‸with", "function ‸class(){}", "a=‸class", "a=‸enum", "‸super()", "a=‸debugger", "‸export a", "‸import a", "‸enum a{}", "a=‸with", "‸extends", "var ‸do", "var ‸new", "var ‸void", "var ‸delete", "var ‸default", "var ‸case", "var ‸catch", "var ‸finally", "var ‸try", "var ‸throw", "var ‸return", "var ‸break", "var ‸continue", "var ‸for", "var ‸function", "var ‸else", "var ‸switch", "var ‸var", "null‸=a")
RESERVED = ("break case catch continue debugger default delete do else finally for function if in instanceof new return switch this throw try typeof "
            "var void while with class const enum export extends import super null true false").split()
for word in RESERVED:
    cases("any reserved word is the name of a property (7.6, 11.1.5, 11.2.1)", "({%s:a})" % word, "a.%s" % word, "a.%s=b" % word, "({a:b,%s:c,})" % word, "a\n.\n%s\nb" % word)
    cases("and nothing but a property's name there", "({%s:a‸;})" % word, "a.%s ‸b" % word, "({a:b,%s‸})" % word, "({%s ‸a:b})" % word)
    cases("an accessor may have its name too, and is refused as others", "({get %s(){‸}})" % word, "({set %s(a){‸}})" % word)
    cases("and is no name elsewhere (7.6.1)", "var ‸%s" % word, "function ‸%s(){}" % word, "function f(‸%s){}" % word, "try{}catch(‸%s){}" % word, "a:{break ‸%s}" % word)

cases("words that are reserved in strict mode alone are names (7.6.1.2)", "var implements,interface,let,package,private,protected,public,static,yield", "let=1", "yield+1", "static:a", "function static(){}", "\"use strict\";var let", "package", "(function(public,private){})")
cases("words of later editions are names", "var async,await,of,get,set,from,as,target", "async(a)", "await(a)", "of\nof", "async=a", "await:a", "let\na", "yield\na", "async\na", "let(a)", "let[a]", "let.a", "async\nfunction f(){}", "yield*a", "yield/a", "await\na", "static\na")
cases("a name is case sensitive", "If(a)", "Var", "THIS=a", "Function(a)", "Null=a", "nulL", "iF", "True=False")
case("If(a)‸b", "a name is case sensitive")
case("Var ‸a", "a name is case sensitive")

# Later editions ---------------------------------------------------------------------------------------------------------------

cases("no lexical declarations", "let ‸a", "let ‸a=1", "‸const a=1", "for(let ‸a;;);", "let ‸{a}=b", "{let ‸a}", "for(let ‸a of b);", "let\n[a]=b", "if(a)let ‸b")
cases("no classes", "‸class A{}", "a=‸class{}", "‸class A extends B{}", "(‸class{})", "{‸class A{}}")
cases("no arrow functions", "a=‸>b", "(a)=‸>b", "(‸)=>a", "(a,b)‸=>c", "a=‸>{}", "f(a=‸>b)", "(a,b)‸=>{}", "async ‸a=>b", "a=b=‸>c", "(a=1)‸=>b")
cases("no template literals", "‸`a`", "a‸`b`", "a=‸`${b}`", "f(‸`a`)", "a ‸`\n`")
cases("no spread and rest", "f(‸...a)", "[‸...a]", "({‸...a})", "function f(‸...a){}", "[a,‸...b]", "new a(‸...b)")
cases("no later operators", "a*‸*b", "a?‸?b", "a?‸.b", "a||‸=b", "a&&‸=b", "a?‸.(b)", "a?‸.[b]", "a?‸?=b", "a*‸*=b")
cases("no other later syntax", "function‸*f(){}", "async ‸function f(){}", "await ‸a", "yield ‸a", "for(a ‸of b);", "for(var a ‸of b);", "try{}catch‸{}", "({a‸})", "({‸[a]:b})", "({a‸(){}})", "function f(a‸=1){}", "new‸.target", "‸import(a)", "‸import.meta", "({a:b,‸[c]:d})", "for ‸await(a of b);", "var ‸{a}=b", "var ‸[a]=b", "function f(‸{a}){}", "f(a,‸)", "function f(a,‸){}", "(function(a,‸){})", "‸import a from \"b\"", "‸export default a", "({async ‸*a(){}})", "({‸*a(){}})", "f(a,b,‸)", "[a]‸=[b]", "({a:b}‸=c)", "({a‸=1}=b)")

# Tokens ----------------------------------------------------------------------------------------------------------------------

cases("no token begins here (7)", "‸#", "‸@", "a ‸#", "a‸@b", "‸\\u0061", "a=‸\\", "‸\u00e9", "a‸\u00e9", "‸`", "a.‸#b", "‸\u0000", "‸\u0085", "a‸\u180e", "‸\ud83d\ude00", "‸\u200b", "a‸\u200d", "‸\u03b1", "var ‸\u00fc", "‸#!a", "a‸\\u0062", "‸\u0001", "‸\u007f", "‸\uffff", "‸\u2027", "‸\u202a", "‸\u2060", "a‸\u200c", "‸\ud800", "‸\udfff")
cases("a place without a token counts before every other refusal", "1 2 ‸#", "‸#1 2", "if(‸@", ") ‸#", "var $mugx;‸#", "function f(){ ‸\"", "1 2 3 ‸'a", "break;‸`", "$mug ‸1.5", "{ ‸08", "return;‸1e3", "({get a(){}}) ‸\\", "a b c ‸1a", "/*;‸#")
cases("strings (7.8.4)", "\"\"", "''", "\"a\"", "'a\"b'", "\"a'b\"", "\"\\\"\"", "'\\''", "\"\\b\\t\\n\\v\\f\\r\\\\\"", "\"\\0\"", "\"\\x41\"", "\"\\u0041\"", "\"\\a\\c\\z\\$\\ \"", "\"\\\n\"", "\"a\\\r\nb\"", "\"\\\r\"", "\"\\\u2028\"", "\"\\\u2029\"", "\"\u00e9\ud83d\ude00\"", "\"\\0a\"", "\"//\"", "\"/*\"", "'\\xff\\uFFFF'", "\"\u0000\"", "\"\t\"", "\"\\\u00e9\"", "\"\\\\\"", "'#@`'", "\"\ud800\"", "\"\\0\\0\"", "\"\\xaF\"", "\"\u0085\"", "\"\\\r\n\"\n'\\\n\\\n'")
cases("what is no string stands at its quote (7.8.4)", "‸\"", "‸'", "‸\"a", "‸\"a\n\"", "‸'a\r'", "‸\"a\u2028b\"", "‸\"\u2029\"", "‸\"\\1\"", "‸\"\\8\"", "‸\"\\9\"", "‸\"\\7a\"", "‸\"\\00\"", "‸\"\\01\"", "‸\"\\08\"", "‸\"\\x\"", "‸\"\\x4\"", "‸\"\\xg0\"", "‸\"\\u\"", "‸\"\\u123\"", "‸\"\\u{41}\"", "‸\"a\\\"", "a=‸'b", "‸'a\"", "\"a\"‸\"", "‸\"\\", "a;‸\"b\nc\"", "f(‸\"a)", "‸\"\\u00g0\"", "‸'\\x 1'", "‸\"\\\r\n\n\"", "''‸'", "a=‸\"\\\\\\\"", "‸'\\5'", "({‸\"a:b})")
cases("numbers (7.8.3)", "0", "1", "10", "123456789", "9007199254740991", "0x0", "0x1F", "0xaBcDeF", "0x1fffffffffffff", "0x00001", "1;", "1+2", "1 .a", "1.a", "0.a", "1.a()", "[1,2]", "1\n.a", "0xf.a", "1.$", "1._", "1.if", "9007199254740991.a", "0x0000000000000000000001")
cases("what is no number stands at its first digit (7.8.3)", "‸01", "‸00", "‸08", "‸1.5", "‸1e3", "‸1E3", "‸0x", "‸0xg", "‸0X1F", "‸1a", "‸1_000", "‸1n", "‸0b1", "‸0o7", "‸9007199254740992", "‸0x20000000000000", "‸123$", "‸0.5", "a=‸01", "a[‸00]", "‸0x1g", "‸3in a", "‸10px", "a.b+‸1.0", "‸99999999999999999999", "‸1.5.a", "‸0x1.5", "‸0_", "f(‸1e3)", "‸0xfn", "[0,‸01]", "‸1if", "‸0x1_0", "‸0xffffffffffffffffffff", "({‸01:a})", "‸123456789012345678")
cases("a point behind a number (7.7, 7.8.3)", "1.‸", "1.‸;", "1.‸.a", "1.‸+2", "1. ‸5", "1.‸\"a\"", "1.‸)", "a=1.‸,b")
cases("a point begins no number", "‸.5", "a.‸5", "a=‸.5", "[‸.5]", "a?‸.5:b", "-‸.5", "a.‸..b", "1 .‸5", "a(‸.5)")
cases("the longest token first (7)", "a+++b", "a---b", "a>>>=b", "a>>>b", "a>>=b", "a>=b", "a===b", "a!==b", "a&&b", "a<<=b", "a- -b", "a+ +b", "a/=b", "a!=b", "a!==b", "ina", "inb=1", "ifa(b)", "varx", "function_()", "newa", "typeofa", "a=+b", "a=-b", "a=!b", "a=~b", "a<<-b", "a&+b", "a||!b", "a<-b", "a*-b", "a/+b")
cases("the longest token first, and then a fault (7)", "a++‸b", "a+++‸", "a--‸--b", "a++‸+++b", "a>>>‸>b", "a===‸=b", "a!==‸=b", "a<<‸<b", "a= ‸=b", "a+ ‸=b", "a- ‸=b", "a> ‸>b", "a ‸! =b", "a& ‸&b", "a| ‸|b", "a&&‸&b", "a||‸|b", "a< ‸<b", "a= ‸=b", "a/ ‸=b", "a* ‸=b", "a+ ‸", "a^‸^b", "a%‸%b", "a== ‸=b")
cases("comments (7.4)", "a//b c", "a//\nb", "//a\nb", "/*a*/b", "a/*b*/", "a/**/+b", "/* \" */a", "// '\na", "/***/a", "/*/*/a", "/*//*/a", "a/*b*//*c*/\n//d\ne", "/*#@`*/", "//#", "a//\u2028b", "a//\rb", "/*\u00e9\ud83d\ude00*/", "//\\", "/**\n**/a", "//a/*\nb", "/*a*/ /*b*/", "a///\nb", "//*\na", "a/*;*/+b", "a=1//b\n+2", "/* a\n*b/ */c")
cases("a comment within a line separates, and no more (7.4)", "a/*b*/‸c", "var a/**/‸b", "/**/‸)", "1/**/‸2", "a/**//**/‸b", "if(a)b/**/‸else c", "a//b\n‸)", "a=//b‸", "a=/*b*/‸", "a/*b*/ /*c*/‸d")
cases("a comment that nothing ends is none", "‸/*", "‸/*a", "a/‸*b", "a/‸*", "‸/*/", "a/‸*b/", "/**/‸/*", "a/‸*=b", "a//\n/‸*b", "a/‸*\nb", "‸/* a\nb", "a/‸*//b")
cases("no comments in the manner of HTML", "‸<!--a", "a<!--b", "a-->b", "‸<!--", "a\n--‸>b", "--‸>b", "a--\n>b", "‸<!a", "a<!b", "a<!--‸", "--‸>", "a-->‸", "/**/--‸>a")
cases("white space (7.2)", "\ta\t", "\u000ba", "\u000ca", " a ", "\u00a0a", "\ufeffa", "\u1680a", "\u2000a\u2001", "\u2002a\u2003", "\u2004a\u2005", "\u2006a\u2007", "\u2008a\u2009", "\u200aa", "\u202fa", "\u205fa", "\u3000a", "var\u00a0a", "var\ufeffa", "a\u3000+\u2003b", "\ufeff", "a\u000b\u000c+b")
cases("no regular expressions (7.8.5)", "a=‸/b/", "‸/a/", "f(‸/a/)", "‸/a/.test(b)", "a=‸/=b/", "[‸/a/]", "a?‸/b/:c", "a=‸/b/g", "a(‸/b/g)", "!‸/a/", "({a:‸/b/})", "a,‸/b/", "return_(‸/a/)", "(‸/a/)", "‸/=a/")
cases("a place without a token in what would be a regular expression", "a=/‸'/", "a=/[‸\"]/", "a=/‸\\d/", "a=/b‸#/", "f(/‸`/)", "a=/‸1e3/")
cases("a slash divides", "a/b", "a/b/c", "a/b/g", "a\n/b/g", "a/=b/c", "a++/b/c", "(a)/b/c", "[]/a/b", "a[b]/c/d", "this/a/b", "1/a/b", "\"a\"/b/c", "({})/a/b", "a()/b/c", "if_/a/b", "a/b\n/c", "null/a/b")
case("{}‸/a/b", "behind a block a slash begins nothing")
case("if(a)‸/b/", "nor behind the parenthesis of if")

# Nesting ---------------------------------------------------------------------------------------------------------------------
# Open statements, assignment expressions, prefix operators before their operand and `new` before its callee count. A token may
# stand at 200. A name that is an expression statement has two open, the statement and the expression.

def deep(reason, text, kind=PAGE):
    case(text, "nesting: " + reason, kind)


deep("200 blocks", "{" * 200 + "}" * 200)
deep("201 blocks", "{" * 200 + "⇓{" + "}" * 201)
deep("199 blocks and an empty statement", "{" * 199 + ";" + "}" * 199)
deep("200 blocks and an empty statement", "{" * 200 + "⇓;" + "}" * 200)
deep("198 blocks, a statement and its expression", "{" * 198 + "a" + "}" * 198)
deep("199 blocks, a statement and its expression", "{" * 199 + "⇓a" + "}" * 199)
deep("200 blocks, a statement and its expression", "{" * 200 + "⇓a" + "}" * 200)
deep("200 times while, the last with an empty statement", "while(a)" * 199 + ";")
deep("200 times while and an empty statement", "while(a)" * 199 + "while(⇓a);")
deep("199 times while", "while(a)" * 198 + "while(a);")
deep("199 times if", "if(a)" * 199 + ";")
deep("200 times if", "if(a)" * 199 + "if(⇓a);")
deep("199 times if and an expression", "if(a)" * 199 + "⇓b")
deep("198 times if and an expression", "if(a)" * 198 + "b")
deep("199 times if, and an empty statement behind the last else", "if(a);else " * 199 + ";")
deep("200 times if in an else", "if(a);else " * 199 + "if(⇓a);else;")
deep("200 times for", "for(;;)" * 199 + ";")
deep("201 times for", "for(;;)" * 200 + "⇓for(;;);")
deep("200 times for and an empty statement", "for(;;)" * 200 + "⇓;")
deep("200 times for, and a first part in the last head", "for(;;)" * 199 + "for(⇓a;;);")
deep("199 times for, with a first part", "for(;;)" * 198 + "for(a;b;c);")
deep("200 times for, with a var", "for(;;)" * 199 + "for(var a,b;;)⇓;")
deep("200 times for, with a var and a value", "for(;;)" * 199 + "for(var a=⇓1;;);")
deep("199 times for, with a var and a value", "for(;;)" * 198 + "for(var a=1;;);")
deep("the target of a for in, where 200 are open", "for(;;)" * 199 + "for(a in ⇓b);")
deep("the target of a for in in parentheses, where 200 are open", "for(;;)" * 199 + "for((⇓a)in b);")
deep("the first part of a for head in parentheses, where 200 are open", "for(;;)" * 199 + "for(⇓(a);;);")
deep("the first part of a for head in parentheses, where 199 are open", "for(;;)" * 197 + "for((a);;);")
deep("the var of a for in, where 200 are open", "for(;;)" * 199 + "for(var a in ⇓b);")
deep("199 times for in", "for(a in b)" * 199 + ";")
deep("200 times for in", "for(a in b)" * 199 + "for(a in ⇓b);")
deep("199 times for in, with targets in parentheses", "for((a)in b)" * 199 + ";")
deep("199 times for in, with a target in two parentheses", "for(a in b)" * 198 + "for(((⇓a))in b);")
deep("198 times for in, with a target in two parentheses", "for(a in b)" * 197 + "for(((a))in b);")
deep("199 times do", "do " * 199 + ";" + "while(a)" * 199)
deep("200 times do", "do " * 200 + "⇓;" + "while(a)" * 200)
deep("200 times do, the last with a block", "do " * 199 + "{}" + "while(a)" * 199)
deep("200 times do, whose test stands at 201", "do " * 199 + "do ⇓;" + "while(a)" * 200)
deep("199 times a label", "".join("a%d:" % i for i in range(199)) + ";")
deep("200 times a label and an empty statement", "".join("a%d:" % i for i in range(200)) + "⇓;")
deep("201 times a label", "".join("a%d:" % i for i in range(200)) + "⇓a200:;")
deep("199 times a label, and a name", "".join("a%d:" % i for i in range(199)) + "⇓b")
deep("198 times a label, and a name", "".join("a%d:" % i for i in range(198)) + "b")
deep("199 times a label, and another one", "".join("a%d:" % i for i in range(199)) + "b:⇓;")
deep("a repeated label at 200 is refused at its colon", "a:" + "{" * 198 + "a‸:;" + "}" * 198)
deep("a repeated label at 201 is too deep before its colon", "a:" + "{" * 199 + "⇓a:;" + "}" * 199)
deep("a name at 201, and not a label", "a:" + "{" * 198 + "⇓a;" + "}" * 198)
deep("199 times switch", "switch(a){case b:" * 199 + ";" + "}" * 199)
deep("200 times switch", "switch(a){case b:" * 199 + "switch(⇓a){case b:}" + "}" * 199)
deep("199 times switch, with a default", "switch(a){default:" * 199 + ";" + "}" * 199)
deep("199 times try", "try{" * 199 + ";" + "}finally{}" * 199)
deep("200 times try", "try{" * 200 + "}finally{}" * 200)
deep("201 times try", "try{" * 200 + "⇓try{}finally{}" + "}finally{}" * 200)
deep("200 times try and an empty statement", "try{" * 200 + "⇓;" + "}finally{}" * 200)
deep("200 times try within catch", "try{}catch(a){" * 200 + "}" * 200)
deep("200 times try within catch and an empty statement", "try{}catch(a){" * 200 + "⇓;" + "}" * 200)
deep("200 times try within finally and an empty statement", "try{}finally{" * 200 + "⇓;" + "}" * 200)
deep("200 times try within finally", "try{}finally{" * 200 + "}" * 200)
deep("200 function declarations", "function f(){" * 200 + "}" * 200)
deep("201 function declarations", "function f(){" * 200 + "⇓function f(){" + "}" * 201)
deep("199 function declarations and an empty statement", "function f(){" * 199 + ";" + "}" * 199)
deep("200 function declarations and an empty statement", "function f(){" * 200 + "⇓;" + "}" * 200)
deep("parameters count none", "function f(){" * 199 + "function g(a,b){}" + "}" * 199)
deep("199 blocks and a var", "{" * 199 + "var a,b" + "}" * 199)
deep("199 blocks, a var and a value", "{" * 199 + "var a=⇓1" + "}" * 199)
deep("198 blocks, a var and a value", "{" * 198 + "var a=1,b=2" + "}" * 198)
deep("200 blocks and a var", "{" * 200 + "⇓var a" + "}" * 200)
deep("break at 200", "while(a)" + "{" * 198 + "break" + "}" * 198)
deep("break at 201", "while(a)" + "{" * 199 + "⇓break" + "}" * 199)
deep("break of a label at 200", "a:" + "{" * 198 + "break a" + "}" * 198)
deep("continue at 201", "while(a)" + "{" * 199 + "⇓continue" + "}" * 199)
deep("continue at 200", "while(a)" + "{" * 198 + "continue" + "}" * 198)
deep("return at 200, and a value at 201", "{" * 199 + "return ⇓a" + "}" * 199, HANDLER)
deep("return at 200", "{" * 199 + "return" + "}" * 199, HANDLER)
deep("return at 201", "{" * 200 + "⇓return" + "}" * 200, HANDLER)
deep("return and a value at 200", "{" * 198 + "return a" + "}" * 198, HANDLER)
deep("throw at 200, and a value at 201", "{" * 199 + "throw ⇓a" + "}" * 199)
deep("throw and a value at 200", "{" * 198 + "throw a" + "}" * 198)
deep("a handler begins at 0", "{" * 200 + "}" * 200, HANDLER)
deep("201 blocks in a handler", "{" * 200 + "⇓{}" + "}" * 200, HANDLER)
deep("a handler's name at 200", "{" * 198 + "a" + "}" * 198, HANDLER)

deep("198 parentheses", "(" * 198 + "a" + ")" * 198)
deep("199 parentheses", "(" * 199 + "⇓a" + ")" * 199)
deep("200 parentheses", "(" * 199 + "⇓(" + "a" + ")" * 200)
deep("198 brackets", "[" * 198 + "a" + "]" * 198)
deep("199 brackets", "[" * 199 + "⇓a" + "]" * 199)
deep("199 empty brackets", "[" * 199 + "]" * 199)
deep("200 brackets", "[" * 199 + "⇓[" + "]" * 200)
deep("holes count none", "[" * 199 + ",," + "]" * 199)
deep("198 members in brackets", "a[" * 198 + "a" + "]" * 198)
deep("199 members in brackets", "a[" * 199 + "⇓a" + "]" * 199)
deep("198 arguments", "a(" * 198 + "a" + ")" * 198)
deep("199 calls without arguments", "a(" * 198 + "a()" + ")" * 198)
deep("199 arguments", "a(" * 199 + "⇓a" + ")" * 199)
deep("198 values of properties", "a=" + "{a:" * 197 + "a" + "}" * 197)
deep("199 values of properties", "a=" + "{a:" * 198 + "⇓a" + "}" * 198)
deep("198 values of properties in parentheses", "({a:" + "{a:" * 196 + "a" + "}" * 196 + "})")
deep("198 assignments", "a=" * 198 + "a")
deep("199 assignments", "a=" * 199 + "⇓a")
deep("198 assignments with operators", "a+=" * 198 + "a")
deep("199 assignments with operators", "a+=" * 199 + "⇓a")
deep("198 times ? and :", "a?b:" * 198 + "a")
deep("199 times ? and :", "a?b:" * 198 + "a?⇓b:a")
deep("198 times ? in ?", "a?" * 198 + "b" + ":c" * 198)
deep("199 times ? in ?", "a?" * 199 + "⇓b" + ":c" * 199)
deep("operators and commas count none", "a" + "+a" * 300)
deep("commas count none", "a" + ",a" * 300)
deep("members and calls count none", "a" + ".b" * 200 + "()" * 200 + "[c]" * 200)
deep("statements one after the other count none", "a;" * 300)
deep("elements count none", "[" + "a," * 300 + "]")
deep("postfix operators count none", "{" * 198 + "a++" + "}" * 198)
for operator in ("-", "+", "!", "~", "typeof ", "void ", "delete "):
    space = " " if operator in "-+" else ""
    deep("198 prefix operators", (operator + space) * 198 + "a.b")
    deep("199 prefix operators", (operator + space) * 199 + "⇓a.b")
    deep("200 prefix operators", (operator + space) * 199 + "⇓" + operator + "a.b")
deep("197 prefix operators and ++", "- " * 197 + "++a")
deep("198 prefix operators and ++", "- " * 198 + "++⇓a")
deep("198 prefix operators and --", "! " * 198 + "--⇓a.b")
deep("a prefix operator counts in its operand, and not at its own token", "{" * 198 + "-⇓a" + "}" * 198)
deep("a prefix operator in 197 blocks", "{" * 197 + "-a" + "}" * 197)
deep("++ in 197 blocks", "{" * 197 + "++a" + "}" * 197)
deep("++ in 198 blocks", "{" * 198 + "++⇓a" + "}" * 198)
deep("the operand of a prefix operator has ended behind it", "{" * 197 + "-a*b" + "}" * 197)
deep("an argument of a call in the operand", "{" * 197 + "-a(⇓b)" + "}" * 197)
deep("an argument of a call behind it", "{" * 197 + "-a*b(c)" + "}" * 197)
deep("a bracket in the operand", "{" * 196 + "-a[b]" + "}" * 196)
deep("198 times new", "new " * 198 + "a")
deep("199 times new", "new " * 199 + "⇓a")
deep("200 times new", "new " * 199 + "⇓new a")
deep("198 times new, with as many arguments", "new " * 198 + "a" + "()" * 198)
deep("new counts in its callee, and not in its arguments", "{" * 197 + "new a(b)" + "}" * 197)
deep("new counts in its callee", "{" * 198 + "new ⇓a(b)" + "}" * 198)
deep("a member of a callee", "{" * 197 + "new a.b" + "}" * 197)
deep("a bracket in a callee", "{" * 197 + "new a[⇓b]" + "}" * 197)
deep("a bracket in a callee in 196 blocks", "{" * 196 + "new a[b]" + "}" * 196)
deep("a bracket behind new and its arguments", "{" * 197 + "new a()[b]" + "}" * 197)
deep("arguments of new, in 198 blocks", "{" * 197 + "new a(b,-⇓c)" + "}" * 197)
deep("arguments of the inner new stand in the outer callee", "{" * 196 + "new new a(b)" + "}" * 196)
deep("arguments of the inner new stand in the outer callee, in 197 blocks", "{" * 197 + "new new ⇓a(b)" + "}" * 197)
deep("functions in parentheses, three for each", "(function(){" * 66 + ";" + "})" * 66)
deep("functions in parentheses: statement and two expressions each", "(function(){" * 66 + "var a" + "})" * 66)
deep("functions in parentheses, a 67th", "(function(){" * 66 + "(⇓function(){})" + "})" * 66)
deep("functions as values, a var each", "var a=function(){" * 99 + ";" + "}" * 99)
deep("functions as values, two for each", "var a=function(){" * 100 + "}" * 100)
deep("functions as values, and an empty statement", "var a=function(){" * 100 + "⇓;" + "}" * 100)
deep("functions as values, and one more", "var a=function(){" * 100 + "⇓var a=function(){}" + "}" * 100)
deep("a mix of blocks, parentheses and prefix operators", "{" * 50 + "(" * 50 + "- " * 50 + "(" * 48 + "a" + ")" * 48 + ")" * 50 + "}" * 50)
deep("a mix of blocks, parentheses and prefix operators, one more", "{" * 50 + "(" * 50 + "- " * 50 + "(" * 49 + "⇓a" + ")" * 49 + ")" * 50 + "}" * 50)
deep("a mix with new", "{" * 100 + "new " * 98 + "a" + "}" * 100)
deep("a mix with new, one more", "{" * 100 + "new " * 99 + "⇓a" + "}" * 100)
deep("a mix with brackets and assignments", "a=[" * 99 + "a" + "]" * 99)
deep("a mix with brackets and assignments, one more", "a=[" * 99 + "a=⇓a" + "]" * 99)
deep("a mix of if, while and labels", "if(a)" * 60 + "while(b)" * 60 + "".join("c%d:" % i for i in range(79)) + ";")
deep("a mix of if, while and labels, one more", "if(a)" * 60 + "while(b)" * 60 + "".join("c%d:" % i for i in range(80)) + "⇓;")
deep("the earlier of two refusals: too deep", "{" * 200 + "⇓{}1 2" + "}" * 200)
deep("the earlier of two refusals: unexpected", "1 ‸2" + "{" * 201 + "}" * 201)
deep("a token that has no derivation isn't too deep", "{" * 200 + "‸)" + "}" * 200)
deep("nor a word that begins no statement here", "{" * 200 + "‸return" + "}" * 200)
deep("nor a function declaration in a block", "{" * 200 + "‸function f(){}" + "}" * 200)
deep("nor a place without a token, which counts first", "{" * 201 + "}" * 201 + "‸#")
deep("nor a page's name that begins with $mug", "{" * 200 + "‸$mugx" + "}" * 200)
deep("nor debugger", "{" * 200 + "‸debugger" + "}" * 200)
deep("nor what begins no operand", "- " * 199 + "‸;")
deep("nor the end", "- " * 199 + "‸")
deep("an accessor at 200", "{" * 198 + "a,{get b(){‸}}" + "}" * 198)
deep("statements of an accessor's body", "{" * 198 + "a,{get b(){⇓;}}" + "}" * 198)
deep("an array closes where it opened", "{" * 198 + "[]" + "}" * 198)
deep("else stands in its if", "{" * 199 + "if(⇓a);else;" + "}" * 199)
deep("case stands in its switch", "{" * 198 + "switch(a){case b:;default:;}" + "}" * 198)
deep("a case's expression", "{" * 199 + "switch(⇓a){case b:}" + "}" * 199)
deep("the catch's name", "{" * 199 + "try{}catch(a){}" + "}" * 199)


def units(text):
    raw = text.encode("utf-16-le", "surrogatepass")
    return [raw[k] + 256 * raw[k + 1] for k in range(0, len(raw), 2)]


def spelled(text):
    signs = {10: "\\n", 13: "\\r", 92: "\\\\"}
    return "".join(signs.get(unit) or (chr(unit) if 32 <= unit < 127 else "\\u%04x" % unit) for unit in units(text))


def expected(text):
    for mark, word in (("‸", "unexpected"), ("⇓", "too deep")):
        if mark in text:
            return "%s %d" % (word, len(units(text[:text.index(mark)])))
    return "accepted"


def main():
    seen = {}
    folder = pathlib.Path(__file__).resolve().parent.parent / "crates" / "script_answers"
    with open(folder / "stdin", "w") as texts, open(folder / "stdout", "w") as answers:
        for kind, text, reason in CASES:
            assert text.count("‸") + text.count("⇓") <= 1, (text, reason)
            plain = text.replace("‸", "").replace("⇓", "")
            if (kind, plain) in seen:
                if seen[kind, plain] != text:
                    sys.exit("two answers for one text: %s %s" % (kind, text))
                continue
            seen[kind, plain] = text
            texts.write("%s %s\n" % (kind, spelled(plain)))
            answers.write(expected(text) + "\n")
        for text, tree in TREES:
            texts.write("tree %s\n" % spelled(text))
            answers.write("accepted %s\n" % tree)
        for case, answer in word_lines():
            texts.write(case + "\n")
            answers.write(answer + "\n")


if __name__ == "__main__":
    main()
