#!/usr/bin/env python3
"""Runs the program of ./show: pages typed here with what is to be told of them beside, and the pages of `pages/`, whose
trees without indentation and without the children's names are to be the boxes that stand in these pages as comments,
also after they were brought into canonical form, and whose values by --all, --node and --why are to be those of the
boxes and of each other.

usage: bench/show.py [SHOW]     SHOW is the proved program, crates/ftl_show/out/ftl_show, if left out
"""
import os
import re
import subprocess
import sys
import tempfile
import xml.dom.minidom

from example_pages import example_pages, status_of

TOP = os.path.dirname(os.path.dirname(os.path.abspath(__file__)))

TOOLBAR = open(f"{TOP}/pages/toolbar.page", encoding="utf-8").read()

# A frame around one box, which is 3 from its edge; `slack` is a local.
FRAME = """%page 1
%grammar
root Window;
interface Window { syn w, h; show w, h; }
interface Item { inh x, y; syn w, h; show x, y, w, h; }
class Frame : Window {
  local slack;
  body : Item;
  self.slack := 3;
  body.x := self.slack;
  body.y := self.slack;
  self.w := body.w + 2 * self.slack;
  self.h := body.h + 2 * self.slack;
}
class Box : Item {
  input bw, bh;
  self.w := self.bw;
  self.h := self.bh;
}
%schedule auto
%document
Frame { body = Box { bw = 20 bh = 10 } }
"""

# The frame with a box whose width is above the greatest number.
OVERFLOW = FRAME.replace("self.w := self.bw;", "self.w := self.bw * 2147483647;")
# The frame with a box that is wider than the frame has room for.
WIDE = FRAME.replace("self.w := body.w + 2 * self.slack;", "self.w := 10;")
# The ninth line of the file has a `:` where `:=` is wanted.
BROKEN = FRAME.replace("  self.slack := 3;", "  self.slack : 3;")
# A letter of two bytes stands before the place.
LETTERS = FRAME.replace("Frame { body = Box", "# höher\nFrame { body = é Box")
HALF = FRAME.replace("Frame { body = Box { bw = 20 bh = 10 } }\n", "Frame { body =")
UNKNOWN = FRAME.replace("%schedule auto", "%plan")
# All that HTML takes as its own, and a control character.
MARKUP = FRAME.replace("%grammar", "# </pre></script><b>&amp;\"' ]]> \x01\t\u00e9\n%grammar")
# One box, farther from the beginning of the page than a drawing can tell.
FAR = """%page 1
%grammar
root Window;
interface Window { syn w; show w; }
interface Item { inh x, y; syn w, h; show x, y, w, h; }
class Frame : Window { body : Item; body.x := 2000000000; body.y := 0; self.w := 1; }
class Box : Item { self.w := 20; self.h := 10; }
%schedule auto
%document
Frame { body = Box { } }
"""
# Three boxes, one below the other, whose places Overflow hides, and one beside these.
HIDDEN = FRAME.replace("body : Item;", "kids : [Item];").replace("body.y", "kids.y").replace("body.w", "20")
HIDDEN = HIDDEN.replace("body.x := self.slack", "kids.x := this.w * 2147483647").replace("body.h", "10")
HIDDEN = HIDDEN.replace("body = Box { bw = 20 bh = 10 }",
                        f"kids = [ {'Box { bw = 20 bh = 10 } ' * 3}Box {{ bw = 0 bh = 10 }} ]")
LONG = f"{TOP}/pages/overflow.page"
# A column of 20,000 boxes: one node more than are drawn before they are looked at.
MANY = """%page 1
%grammar
root Window;
interface Window { syn w, h; show w, h; }
interface Item { inh x, y; syn w, h; show x, y, w, h; }
class Column : Window {
  kids : [Item];
  kids.x := 0;
  kids.y := first 0 then prev.y + prev.h;
  self.w := 10;
  self.h := last kids.y or 0;
}
class Box : Item { self.w := 10; self.h := 1; }
%schedule auto
%document
Column { kids = [ """ + "Box { } " * 20000 + "] }\n"

# Every form of an expression but a sum, with as few spaces as there may be.
FORMS = """%page 1
%grammar
root Screen;
interface Screen { syn w, b; show w; }
interface Kid { syn v; show v; }
class Top : Screen {
  input a;
  kids : [Kid];
  self.w := if![self.a<2||self.b>=3]&&self.a!=7 then(self.a)*self.b/2 else min(self.a,0);
  self.b := last kids.v or self.a;
}
class One : Kid { self.v := 1; }
%schedule auto
%document
Top { a = 4 kids = [ One { } ] }
"""
FRAME_FORMATTED = """%page 1
%grammar
root Window;

interface Window {
  syn w;
  syn h;
  show w, h;
}

interface Item {
  inh x;
  inh y;
  syn w;
  syn h;
  show x, y, w, h;
}

class Frame : Window {
  local slack;
  body : Item;
  self.slack := 3;
  body.x := self.slack;
  body.y := self.slack;
  self.w := body.w + 2 * self.slack;
  self.h := body.h + 2 * self.slack;
}

class Box : Item {
  input bw;
  input bh;
  self.w := self.bw;
  self.h := self.bh;
}

%schedule auto

%document
Frame { body = Box { bw = 20 bh = 10 } }
"""
# Two boxes in a row that no line has room for, with a name as long as a line.
NAME = "n" * 60
ROWS = f"""%page 1
%grammar
root Window; interface Window {{ syn w; show w; }} interface Item {{ syn {NAME}; }}
class Row : Window {{ input gap, pad; kids : [Item]; body : Item; self.w := self.gap - self.pad; }}
class Box : Item {{ input bw; self.{NAME} := if ![self.bw < 2 || self.bw >= 3] then -self.bw else 0; }}
%schedule
bottomup {{ Item.{NAME} Window.w }}
%document
Row {{ gap = -1 pad = 2 kids = [ Box {{ bw = -20 }} Box {{ bw = 30 }} Box {{ bw = 40 }} Box {{ bw = 50 }} Box {{ bw = 60 }} ]
body = Box {{ bw = 7 }} }}
"""
ROWS_FORMATTED = f"""%page 1
%grammar
root Window;

interface Window {{
  syn w;
  show w;
}}

interface Item {{
  syn {NAME};
}}

class Row : Window {{
  input gap;
  input pad;
  kids : [Item];
  body : Item;
  self.w := self.gap - self.pad;
}}

class Box : Item {{
  input bw;
  self.{NAME} := if ![self.bw < 2 || self.bw >= 3] then - self.bw else 0;
}}

%schedule
bottomup {{ Item.{NAME} Window.w }}

%document
Row {{
  gap = -1 pad = 2
  kids = [ Box {{ bw = -20 }} Box {{ bw = 30 }} Box {{ bw = 40 }} Box {{ bw = 50 }} Box {{ bw = 60 }} ]
  body = Box {{ bw = 7 }}
}}
"""
# A grammar that is named, and edits; lines 6 and 7 have these.
NAMED = """%page 1
# a word in a column
%grammar  stack
# no more of it
%edits
2.iw=7; 2.ih
  = -1;
%schedule
bottomup { Box.w Box.h Page.h };topdown { Box.x Box.y }

%document
Sheet{body=Column{kids=[Word{ih=10 iw=-20}]}}
"""
NAMED_FORMATTED = """%page 1
%grammar stack

%schedule
bottomup { Box.w Box.h Page.h } ;
topdown { Box.x Box.y }

%document
Sheet { body = Column { kids = [ Word { iw = -20 ih = 10 } ] } }

%edits
2.iw = 7;
2.ih = -1;
"""
STACK = """root Page;
interface Page { syn h; show h; }
interface Box { inh x, y; syn w, h; show x, y, w, h; }
class Sheet : Page { body : Box;
  self.h := body.h;
  body.x := 0;
  body.y := 0;
}
class Column : Box { kids : [Box];
  self.w := fold kids from 0 with max(acc, this.w);
  self.h := fold kids from 0 with acc + this.h;
  kids.x := self.x;
  kids.y := first self.y then prev.y + prev.h;
}
class Word : Box { input iw, ih;
  self.w := self.iw;
  self.h := self.ih;
}
"""
WANTED = ("show: --box wants four names, as x,y,w,h, --why a node and a name, as 2.w, --svg and --html one file, and "
          "--watch one file with a name\n")

FOLD = """0.w=60  Bar: self.w := fold items from 0 with max(acc, this.x + this.w)
  1.x=0  Bar: items.x := first 0 then prev.x + prev.w + self.gap
"""

CASES = [
    # words, files, status, standard output, standard error
    (["a"], {"a": TOOLBAR}, 0, """0 Bar w=60 h=18
  1 Button items 0 x=0 y=0 w=38 h=14
  2 Button items 1 x=40 y=0 w=20 h=18
""", ""),
    (["--node", "2", "a"], {"a": TOOLBAR}, 0, """2 Button items 1
  x=40   Bar: items.x := first 0 then prev.x + prev.w + self.gap
         read 1.x=0 1.w=38 0.gap=2
  y=0    Bar: items.y := 0
  w=20   Button: self.w := self.tw + 8
         read 2.tw=12
  h=18   Button: self.h := self.th + 4
         read 2.th=14
  tw=12  input
  th=14  input
""", ""),
    (["--node", "0", "a"], {"a": TOOLBAR}, 0, """0 Bar
  w=60   Bar: self.w := fold items from 0 with max(acc, this.x + this.w)
         read 1.x=0 1.w=38 2.x=40 2.w=20
  h=18   Bar: self.h := fold items from 0 with max(acc, this.h)
         read 1.h=14 2.h=18
  gap=2  input
""", ""),
    (["--node", "0", "a"], {"a": FORMS}, 0, """0 Top
  w=2  Top: self.w := if ![self.a < 2 || self.b >= 3] && self.a != 7 then (self.a) * self.b / 2 else min(self.a, 0)
       read 0.a=4 0.b=1 0.a=4 0.a=4 0.b=1 0.a=4
  b=1  Top: self.b := last kids.v or self.a
       read 1.v=1 0.a=4
  a=4  input
""", ""),
    (["--all", "a"], {"a": FRAME}, 0, """0 Frame w=26 h=16 slack=3
  1 Box body x=3 y=3 w=20 h=10 bw=20 bh=10
""", ""),
    (["--node", "2", "a"], {"a": FRAME}, 2, "", "show: a: the nodes are 0 to 1\n"),
    (["--node=1", "a"], {"a": OVERFLOW}, 8, """1 Box body
  x=3         Frame: body.x := self.slack
              read 0.slack=3
  y=3         Frame: body.y := self.slack
              read 0.slack=3
  w=overflow  Box: self.w := self.bw * 2147483647
              read 1.bw=20
  h=10        Box: self.h := self.bh
              read 1.bh=10
  bw=20       input
  bh=10       input
""", ""),
    (["--format", "a"], {"a": FRAME}, 0, FRAME_FORMATTED, ""),
    (["--format", "a"], {"a": FRAME_FORMATTED}, 0, FRAME_FORMATTED, ""),
    (["--format", "a"], {"a": ROWS}, 0, ROWS_FORMATTED, ""),
    (["--format", "a"], {"a": ROWS_FORMATTED}, 0, ROWS_FORMATTED, ""),
    (["--format", "a"], {"a": NAMED}, 0, NAMED_FORMATTED, ""),
    (["--format", "a"], {"a": NAMED_FORMATTED}, 0, NAMED_FORMATTED, ""),
    (["--why", "2.x", "a"], {"a": TOOLBAR}, 0, """2.x=40  Bar: items.x := first 0 then prev.x + prev.w + self.gap
  1.x=0  Bar: items.x := first 0 then prev.x + prev.w + self.gap
  1.w=38  Button: self.w := self.tw + 8
    1.tw=30  input
  0.gap=2  input
""", ""),
    (["--why", "0.w", "a"], {"a": TOOLBAR}, 0, FOLD + """  1.w=38  Button: self.w := self.tw + 8
    1.tw=30  input
  2.x=40  Bar: items.x := first 0 then prev.x + prev.w + self.gap
    1.x=0  above
    1.w=38  above
    0.gap=2  input
  2.w=20  Button: self.w := self.tw + 8
    2.tw=12  input
""", ""),
    (["--why", "0.w", "--lines", "4", "a"], {"a": TOOLBAR}, 0, FOLD + """  1.w=38  Button: self.w := self.tw + 8
    1.tw=30  input
... 6 more
""", ""),
    (["--why", "1.tw", "a"], {"a": TOOLBAR}, 0, "1.tw=30  input\n", ""),
    (["--why", "0.w", "a"], {"a": OVERFLOW}, 8, """0.w=overflow  Frame: self.w := body.w + 2 * self.slack
  1.w=overflow  Box: self.w := self.bw * 2147483647  overflow begins here
    1.bw=20  input
  0.slack=3  Frame: self.slack := 3
overflow begins at 1.w
""", ""),
    (["--why", "0.h", "a"], {"a": OVERFLOW}, 8, """0.h=16  Frame: self.h := body.h + 2 * self.slack
  1.h=10  Box: self.h := self.bh
    1.bh=10  input
  0.slack=3  Frame: self.slack := 3
""", ""),
    (["--why", "0.w", "--lines", "1", "--width", "20", "a"], {"a": OVERFLOW}, 8, """0.w=overflow  Frame…
... 3 more
overflow begins at …
""", ""),
    (["--why", "2.w", "a"], {"a": FRAME}, 2, "", "show: a: the nodes are 0 to 1\n"),
    (["--why", "1.slack", "a"], {"a": FRAME}, 2, "", "show: a: the attributes of the node are x y w h bw bh\n"),
    (["--why", "w", "a"], {"a": FRAME}, 2, "", WANTED),
    (["--format", "a"], {"a": NAMED.replace("2.iw=7;", "2.iw 7;")}, 10, "", """a:6:6:
    6 | 2.iw 7; 2.ih
      |      ^
refused edits: syntax at 5
"""),
    (["--format", "a"], {"a": BROKEN}, 5, "", """a:9:14:
    9 |   self.slack : 3;
      |              ^
      = expected `:=`
      = hint: a rule is written with `:=`
refused grammar: syntax at 177
"""),
    (["--grammar", "stack"], {}, 0, STACK, ""),
    (["--grammar", "list"], {}, 2, "", "show: no grammar list comes with the program: there are stack, "
     "block, inline, float, table and flow\n"),
    (["--watch", "-"], {"-": FRAME}, 2, "", WANTED),
    (["a"], {"a": OVERFLOW}, 8, """0 Frame w=overflow h=16
  1 Box body x=3 y=3 w=overflow h=10
""", ""),
    (["--color", "a"], {"a": OVERFLOW}, 8, """0 \x1b[1mFrame\x1b[0m \x1b[31mw=overflow\x1b[0m h=16
  1 \x1b[1mBox\x1b[0m body x=3 y=3 \x1b[31mw=overflow\x1b[0m h=10
""", ""),
    (["--width", "12", "a"], {"a": FRAME}, 0, "0 Frame w=2…\n  1 Box bod…\n", ""),
    (["-"], {"-": FRAME}, 0, "0 Frame w=26 h=16\n  1 Box body x=3 y=3 w=20 h=10\n", ""),
    (["a", "b"], {"a": FRAME, "b": OVERFLOW}, 8, """==> a <==
0 Frame w=26 h=16
  1 Box body x=3 y=3 w=20 h=10

==> b <==
0 Frame w=overflow h=16
  1 Box body x=3 y=3 w=overflow h=10
""", ""),
    (["a"], {"a": BROKEN}, 5, "", """a:9:14:
    9 |   self.slack : 3;
      |              ^
      = expected `:=`
      = hint: a rule is written with `:=`
refused grammar: syntax at 177
"""),
    (["a"], {"a": LETTERS}, 7, "", """a:23:18:
   23 | Frame { body = é Box { bw = 20 bh = 10 } }
      |                  ^~~
      = expected `{`
refused document: syntax at 27
"""),
    (["a"], {"a": HALF}, 7, "", """a:22:15:
   22 | Frame { body =
      |               ^
      = expected a name, a number, `-` or `[`
refused document: syntax at 14
"""),
    (["a"], {"a": UNKNOWN}, 4, "", """a:20:
   20 | %plan
      = expected `%grammar`, `%schedule`, `%document` or `%edits`, and nothing behind it
refused page: unknown section at line 20
"""),
    (["a"], {"a": FRAME.replace("bw = 20 ", "")}, 7, "", """a:22:16:
   22 | Frame { body = Box { bh = 10 } }
      |                ^~~
      = hint: each node gives each of its inputs, which have no defaults: `w = 0`
refused document: node 1 field bw missing
"""),
    # A line whose number has six digits stands under a wider gutter, and so does its mark.
    (["a"], {"a": FRAME.replace("%document\n", "%document\n" + "\n" * 99978).replace("bw = 20", "bw = é")}, 7, "",
     """a:100000:29:
100000 | Frame { body = Box { bw = é bh = 10 } }
       |                             ^~
       = expected `{`
refused document: syntax at 100007
"""),
    (["a"], {}, 3, "", "show: a: No such file or directory (os error 2)\n"),
]


def run(show, words, files):
    with tempfile.TemporaryDirectory() as room:
        for name, text in files.items():
            if name != "-":
                with open(f"{room}/{name}", "w", encoding="utf-8") as it:
                    it.write(text)
        told = subprocess.run([show, *words], cwd=room, input=files.get("-", "").encode(), capture_output=True)
    return told.returncode, told.stdout.decode(), told.stderr.decode()


def watched(show):
    """What --watch tells of a page that changes, is away for a while, and comes back as it was."""
    with tempfile.TemporaryDirectory() as room:
        file = f"{room}/a"
        running = None
        told = []
        for text in (FRAME, FRAME.replace("bw = 20", "bw = 30"), BROKEN, None, FRAME):
            if text is None:
                os.unlink(file)
            else:
                with open(f"{room}/b", "w", encoding="utf-8") as it:
                    it.write(text)
                os.replace(f"{room}/b", file)
            if running is None:
                running = subprocess.Popen([show, "--watch", "a"], cwd=room, text=True, stdout=subprocess.PIPE,
                                           stderr=subprocess.STDOUT)
            lines = 6 if text == BROKEN else 1 if text is None else 2
            told.append("".join(running.stdout.readline() for _ in range(lines)))
        running.kill()
        running.wait()
    return told


WATCHED = [
    "0 Frame w=26 h=16\n  1 Box body x=3 y=3 w=20 h=10\n",
    "0 Frame w=36 h=16\n  1 Box body x=3 y=3 w=30 h=10\n",
    "a:9:14:\n    9 |   self.slack : 3;\n      |              ^\n      = expected `:=`\n      = hint: a rule is written with `:=`\n"
    "refused grammar: syntax at 177\n",
    "show: a: No such file or directory (os error 2)\n",
    "0 Frame w=26 h=16\n  1 Box body x=3 y=3 w=20 h=10\n",
]


def boxes_of(tree):
    """The lines of a tree as boxes: without indentation, and without the words between the class and the values."""
    return re.sub(r"(?m)^ *(\d+ \w+)(?: (?!\w+=)\w+)*", r"\1", tree)


def drawn(show, page):
    """The drawing of a page as a document of XML, with the classes of what it draws."""
    status, text, _ = run(show, ["--svg", "a"], {"a": page})
    tree = xml.dom.minidom.parseString(text)
    return status, [it.getAttribute("class") for it in tree.getElementsByTagName("path")]


def texts_drawn(show, words, page):
    """What is written into the boxes of a drawing, each text with its offsets from the corner of its box."""
    tree = xml.dom.minidom.parseString(run(show, ["--svg", *words, "a"], {"a": page})[1])
    return [(text_in(it), it.getAttribute("dx"), it.getAttribute("dy")) for it in tree.getElementsByTagName("text")]


def shapes_drawn(show, page):
    """The part of the page that a drawing shows, and its paths."""
    tree = xml.dom.minidom.parseString(run(show, ["--svg", "a"], {"a": page})[1])
    paths = [it.getAttribute("d") for it in tree.getElementsByTagName("path")]
    return tree.documentElement.getAttribute("viewBox"), paths


DRAWINGS = [
    # what is drawn, told by which function, of which page, and what it is to be
    (drawn, FRAME, (0, ["c0", "c1 leaf"])),
    (drawn, WIDE, (0, ["c0", "c1 leaf out"])),
    (drawn, OVERFLOW, (8, ["unknown", "unknown"])),
    (shapes_drawn, FRAME, ("-1 -1 28 18", ["M0 0h26v16H0z", "M3 3h20v10H3z"])),
    (shapes_drawn, FAR, ("-1 -1 22 12", ["M0 0h20v10H0z"])),
    (shapes_drawn, HIDDEN, ("-1 -1 28 18", ["M0 0h26v16H0z", "M0 0l2 2m0 -2l-2 2", "M3 0l2 2m0 -2l-2 2",
                                            "M6 0l2 2m0 -2l-2 2", "M0 3h0v10H0z"])),
    (shapes_drawn, open(LONG, encoding="utf-8").read(),
     ("-16 -16 832 832", ["M0 0l32 32m0 -32l-32 32", "M0 0h800v0H0z", "M0 0h800v800H0z"])),
    (lambda show, page: texts_drawn(show, [], page), FRAME, [("1 Box", "0.3em", "1.1em")]),
    (lambda show, page: texts_drawn(show, ["--names"], page), FRAME,
     [("0 Frame", "0.3em", "1.1em"), ("1 Box", "0.3em", "1.1em")]),
    (lambda show, page: texts_drawn(show, ["--names"], page), TOOLBAR,
     [("0 Bar", "0.3em", "1.1em"), ("1 Button", "0.3em", "2.4em"), ("2 Button", "0.3em", "1.1em")]),
]


def text_in(it):
    """All text in an element, in order."""
    return "".join(part.data if part.nodeType == part.TEXT_NODE else text_in(part) for part in it.childNodes)


class Html:
    """What --html makes of a page, read as XML, which it is as well."""

    def __init__(self, show, page, name="a"):
        self.status, self.text, self.told = run(show, ["--html", name], {name: page})
        self.tree = xml.dom.minidom.parseString(self.text)
        self.elements = self.tree.getElementsByTagName("*")
        self.ids = [it.getAttribute("id") for it in self.elements if it.hasAttribute("id")]

    def named(self, name):
        """The text in the element of this id; a line feed at its front is none of it."""
        return "".join(text_in(it).removeprefix("\n") for it in self.elements if it.getAttribute("id") == name)

    def of(self, tag, kind=""):
        return [text_in(it) for it in self.elements if it.tagName == tag and it.getAttribute("class") == kind]

    def source(self):
        """The numbers of the lines and the lines of the panel with the page's text."""
        panel = next(it for it in self.elements if it.getAttribute("id") == "source")
        return [text_in(it).removeprefix("\n") for it in panel.childNodes]

    def boxes(self):
        return [it for it in self.ids if re.fullmatch(r"n\d+", it)]


def lines_to(count):
    return "".join(f"{number}\n" for number in range(1, count + 1))


def html_of_pages(show):
    """What is told of HTML of pages, what it is told of, and what it is to be."""
    frame = Html(show, FRAME)
    yield "status", frame.status, 0
    yield "tree", frame.named("lines"), "0 Frame w=26 h=16\n  1 Box body x=3 y=3 w=20 h=10\n"
    yield "values", frame.named("all"), "0 Frame w=26 h=16 slack=3\n  1 Box body x=3 y=3 w=20 h=10 bw=20 bh=10\n"
    yield "boxes", frame.boxes(), ["n0", "n1"]
    yield "text", frame.source(), [lines_to(22), FRAME]
    yield "drawing", run(show, ["--svg", "a"], {"a": FRAME})[1] in frame.text, True
    yield "ids", len(frame.ids), len(set(frame.ids))
    yield "addresses", set(re.findall(r"\w+://[^\s\"']+", frame.text)), {
        "http://www.w3.org/1999/xhtml", "http://www.w3.org/2000/svg"}
    yield "links", re.findall(r"(?:src|href|url|import)\b", frame.text), []
    name = "<i>&amp;'.page"
    markup = Html(show, MARKUP, name)
    yield "escaped text", markup.source()[1], MARKUP.replace("\x01", "\u2401")
    yield "escaped name", [markup.of("title")[0], *markup.of("h1")], [name, name]
    yield "status of Overflow", Html(show, OVERFLOW).status, 8


def html_of_many(show):
    """The same of a page with more nodes than stand there as elements."""
    many = Html(show, MANY)
    tree = ["0 Column w=10 h=19999", *(f"  {1 + k} Box kids {k} x=0 y={k} w=10 h=1" for k in range(20000)), ""]
    boxes = ["-16 -16 42 20032 1", "0 0 0 0 0 10 19999", *(f"{1 + k} 1 1 0 {k} 10 1" for k in range(19999)),
             "20000 1 3 0 19999 10 1", ""]
    yield "status", many.status, 0
    yield "boxes", many.named("boxes").split("\n"), boxes
    yield "tree", many.named("rows").split("\n"), tree
    yield "values", many.named("all").split("\n"), tree
    yield "elements", [len(many.tree.getElementsByTagName(it)) for it in ("canvas", "svg", "path")], [1, 0, 0]
    few = Html(show, MANY.replace("Box { } ", "", 1))
    yield "elements of one node less", [len(few.tree.getElementsByTagName(it)) for it in ("canvas", "svg")], [0, 1]
    yield "boxes of one node less", few.boxes(), [f"n{node}" for node in range(20000)]


def html_of_refusals(show):
    """The same of pages that are refused."""
    for page, status, line, mark, number in [
            (BROKEN, 5, "  self.slack : 3;", [":"], 9),
            (LETTERS, 7, "Frame { body = é Box { bw = 20 bh = 10 } }", ["Box"], 23),
            (HALF, 7, "Frame { body = ", [" "], 22), (UNKNOWN, 4, "%plan", [], 20),
            (FRAME.replace("Frame { body", "").replace(" = Box { bw = 20 bh = 10 } }", ""), 7, " ", [" "], 22)]:
        made = Html(show, page)
        _, lines = made.source()
        marked = made.of("b", "marked")
        yield "status", made.status, status
        yield "standard error", made.told, run(show, ["a"], {"a": page})[2]
        yield "refusal", made.of("pre", "refusal"), ["\n" + made.told]
        yield "marked line", [marked, made.of("mark")], [[line], mark]
        yield "place of the marked line", lines.split("\n").index(line) + 1, number
    yield "class of the node that lacks a field", Html(show, FRAME.replace("bw = 20 ", "")).of("mark"), ["Box"]


class Table:
    """What --node tells of each node of a page: values by node and name, and what each was computed from."""

    def __init__(self, show, text, count):
        self.values, self.rules, self.reads = {}, {}, {}
        for node in range(count):
            told = run(show, ["--node", str(node), "a"], {"a": text})[1]
            for line in told.splitlines()[1:]:
                self.add(node, line)

    def add(self, node, line):
        if line.lstrip().startswith("read "):
            self.reads[self.last] = re.findall(r"(\d+)\.(\w+)=(\S+)", line)
            return
        name, value, rule = re.fullmatch(r"  (\w+)=(\S+) +(.*)", line).groups()
        self.last = node, name
        self.values[self.last], self.rules[self.last], self.reads[self.last] = value, rule, []

    def wrong_reads(self):
        """Each value that was read and is another one in its own line."""
        return [(at, read) for at, reads in self.reads.items() for read in reads
                if self.values[int(read[0]), read[1]] != read[2]]

    def why(self, at, met):
        """The lines that --why is to tell of an attribute, without indentation: it, then what it read."""
        node, name = at
        line = f"{node}.{name}={self.values[at]}  "
        if at in met:
            return [line + "above"]
        met.add(at)
        reads = [(int(read[0]), read[1]) for read in self.reads[at]]
        begins = self.values[at] == "overflow" and all(self.values[it] != "overflow" for it in reads)
        lines = [line + self.rules[at] + ("  overflow begins here" if begins else "")]
        for read in reads:
            lines += self.why(read, met)
        return lines

    def beginning(self, at):
        """The line that tells where an Overflow begins; none of a number."""
        if self.values[at] != "overflow":
            return []
        while True:
            further = [(int(read[0]), read[1]) for read in self.reads[at] if read[2] == "overflow"]
            if not further:
                return [f"overflow begins at {at[0]}.{at[1]}"]
            at = further[0]


def of_values(show, text, boxes, tree):
    """What is told of the values of a page by --all, --node and --why, what it is told of, and what it is to be."""
    shown = [re.findall(r"(\w+)=(\S+)", line) for line in boxes.splitlines()]
    table = Table(show, text, len(shown))
    for node, fields in enumerate(shown):
        for name, value in fields:
            yield f"--node {node}, {name}", table.values[node, name], value
    yield "--all", re.findall(r"\w+=(\S+)", tree), list(table.values.values())
    yield "what was read", table.wrong_reads(), []
    for at in list(table.values)[:60]:
        told = run(show, ["--why", f"{at[0]}.{at[1]}", "--lines", "100000", "a"], {"a": text})[1]
        wanted = [*table.why(at, set()), *table.beginning(at)]
        yield f"--why {at[0]}.{at[1]}", [it.lstrip() for it in told.splitlines()], wanted


def main():
    show = sys.argv[1] if len(sys.argv) > 1 else f"{TOP}/crates/ftl_show/out/ftl_show"
    wrong = 0
    for words, files, *wanted in CASES:
        told = run(show, words, files)
        if list(told) != wanted:
            wrong += 1
            print(f"show {' '.join(words)}: told {told}, wanted {tuple(wanted)}")
    pages = values = 0
    for name, command, text, wanted in example_pages():
        if command == "run" and not wanted.startswith("refused"):
            pages += 1
            told = subprocess.run([show, f"{TOP}/{name}"], capture_output=True)
            if boxes_of(told.stdout.decode()) != wanted or told.returncode != status_of(wanted):
                wrong += 1
                print(f"{name}: told {told.stdout.decode()}")
            # In canonical form it is the same page, and prints as itself.
            _, page, _ = run(show, ["--format", "a"], {"a": text.decode()})
            tree, again = run(show, ["a"], {"a": page})[1], run(show, ["--format", "-"], {"-": page})[1]
            if tree != told.stdout.decode() or again != page:
                wrong += 1
                print(f"{name}: as {page}")
            if Html(show, text.decode()).named("lines") != told.stdout.decode():
                wrong += 1
                print(f"{name}: the tree in HTML is another one")
            every = run(show, ["--all", "a"], {"a": text.decode()})[1]
            for what, it, wanted_of_it in of_values(show, text.decode(), wanted, every):
                values += 1
                if it != wanted_of_it:
                    wrong += 1
                    print(f"{name}: {what}: told {str(it)[:1000]}, wanted {str(wanted_of_it)[:1000]}")
    for told_by, page, wanted in DRAWINGS:
        told = told_by(show, page)
        if told != wanted:
            wrong += 1
            print(f"drawn as {told}, wanted {wanted}")
    for told, wanted in zip(watched(show), WATCHED):
        if told != wanted:
            wrong += 1
            print(f"watched as {told!r}, wanted {wanted!r}")
    html = [*html_of_pages(show), *html_of_many(show), *html_of_refusals(show)]
    for what, told, wanted in html:
        if told != wanted:
            wrong += 1
            print(f"{what} in HTML: told {str(told)[:2000]}, wanted {str(wanted)[:2000]}")
    counts = f"{len(CASES)} cases, {pages} pages with {values} facts of values, {len(DRAWINGS)} drawings, {len(WATCHED)} changes, {len(html)} facts of HTML"
    print(f"{counts}, {wrong} wrong")
    return 1 if wrong else 0


if __name__ == "__main__":
    sys.exit(main())
