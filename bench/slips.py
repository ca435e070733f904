#!/usr/bin/env python3
"""Runs the program of ./show on a page into which one slip was made each time, and holds what it marks and says against
what was typed here: the line and column that are to be marked, and words that are to stand in its notes. Then the same
of the pages of `pages/refused` that have both in a comment `# ./show marks 5:24: WORDS`.

usage: bench/slips.py [SHOW]     SHOW is the proved program, crates/ftl_show/out/ftl_show, if left out
"""
import glob
import os
import re
import sys

from show import TOP, run

PAGE = """%page 1
%grammar
root Window;
interface Window { input w; syn h; show w, h; }
interface Box { inh x, y; syn w, h; show x, y, w, h; }
class Panel : Window {
  input pad;
  local sum;
  kids : [Box];
  self.sum := fold kids from 0 with acc + this.h;
  self.h := self.sum + 2 * self.pad;
  kids.x := self.pad;
  kids.y := first self.pad then prev.y + prev.h;
}
class Label : Box {
  input tw, th;
  self.w := self.tw + 4;
  self.h := self.th + 2;
}
%schedule
bottomup { Box.w Box.h Panel.sum Window.h } ;
topdown { Box.x Box.y }
%document
Panel { w = 200 pad = 8 kids = [
  Label { tw = 60 th = 12 }
  Label { tw = 90 th = 20 }
] }
"""

SLIPS = [
    # lines of the page that are other ones, the place that is marked, words of the notes
    # expressions
    ({18: "  self.h := if (self.th < 9) then 9 else self.th;"}, "18:25", "grouped by `[ ]`"),
    ({18: "  self.h := if self.th = 9 then 9 else self.th;"}, "18:24", "`==`"),
    ({18: "  self.h := if self.th < 9 and self.tw < 9 then 9 else 8;"}, "18:28", "`&&`"),
    ({18: "  self.h := if !self.th < 9 then 9 else 8;"}, "18:17", "`![self.a < 3]`"),
    ({18: "  self.h := if self.th < 9 then 9 else if self.th < 20 then 20 else 30;"}, "18:40", "stands in `( )`"),
    ({18: "  self.h := if self.th < 9 then 9;"}, "18:34", "`else`"),
    ({17: "  self.w := self.tw / self.th;"}, "17:23", "only a number from 1 on divides"),
    ({11: "  self.h := 1 + fold kids from 0 with acc + this.h;"}, "11:17", "whole of a rule"),
    ({17: "  self.w := tw + 4;"}, "17:16", "a name alone is no value"),
    ({18: "  self.h := min(self.th, 9, 8);"}, "18:27", "take two"),
    ({11: "  self.h := last kids.h;"}, "11:24", "`last kids.w or 0`"),
    ({17: "  self.w := 1.5 * self.tw;"}, "17:14", "whole"),
    # rules and declarations
    ({17: "  self.w = self.tw + 4;"}, "17:10", "`:=`"),
    ({17: "  w := self.tw + 4;"}, "17:5", "`self.w := ..`"),
    ({17: "  self.w := self.tw + 4"}, "18:3", "a `;` seems to be missing behind `4` at 17:23"),
    ({16: "  input tw, th,;"}, "16:16", "no comma"),
    ({16: "  // sizes"}, "16:3", "`#`"),
    ({16: "  input tw, th, tool-tip;"}, "16:21", "`tool_tip`"),
    ({9: "  kids : [Box]; input gap;"}, "9:17", "before the children"),
    ({7: "  input pad = 5;"}, "7:13", "no defaults"),
    ({14: ""}, "15:1", "the `}` of what is declared above"),
    ({15: "class Label {"}, "15:13", "names its interface"),
    # names and reads
    ({9: "  kids : [Label];"}, "9:11", "its interface is Box"),
    ({17: "  self.w := self.tv + 4;"}, "17:13", "`tw`"),
    ({17: "  self.w := parent.w;"}, "17:13", "declare an `inh`"),
    ({11: "  self.h := kids.h;"}, "11:13", "`fold kids from 0 with ..`"),
    ({13: "  kids.y := prev.y + prev.h;"}, "13:13", "`kids.x := first 0 then prev.x`"),
    ({18: ""}, "15:7", "expected a rule `self.h := ..;` in this class; it is declared at 5:34"),
    ({18: "  self.h := self.th + 2; self.x := 1;"}, "18:26", "given by the parent's class"),
    # schedules
    ({21: "bottomup { Box.w, Box.h Panel.sum Window.h } ;"}, "21:17", "without a mark"),
    ({22: "downwards { Box.x Box.y }"}, "22:1", "expected `topdown`, `bottomup` or `inorder`"),
    ({21: "bottomup { Label.w Box.h Panel.sum Window.h } ;"}, "21:12", "named with its interface, here Box"),
    ({22: "topdown { Box.x }"}, "5:24", "stands in a list; `%schedule auto`"),
    ({21: "topdown { Box.w Box.h Panel.sum Window.h } ;"}, "21:23", "has to be `bottomup`"),
    ({12: "  kids.x := this.w;", 17: "  self.w := self.x;", 20: "%schedule auto", 21: "", 22: ""}, "12:3",
     "`Label self.w` at 17:3 reads `self.x` at 17:13"),
    # documents and headings
    ({23: ""}, "", "expected a line `%document` with a document below it"),
    ({25: "  label { tw = 60 th = 12 }"}, "25:3", "capital and small letters differ: Label"),
    ({25: "  Label { tw = 60 }"}, "25:3", "gives each of its inputs"),
    ({25: "  Label { x = 3 tw = 60 th = 12 }"}, "25:11", "computed by a rule"),
    ({25: "  Label { tw = 60, th = 12 }"}, "25:18", "without a mark"),
]


def page_with(lines):
    text = PAGE.split("\n")
    for number, line in lines.items():
        text[number - 1] = line
    return "\n".join(text)


def marked(told):
    """The place that is told, and what the mark stands below, by its column."""
    place = re.match(r"a:([\d:]*?):?\n", told)
    return place.group(1) if place else ""


def pages_with_marks():
    """The pages that say what is marked, each with its name, the text, the place and the words."""
    for file in sorted(glob.glob(f"{TOP}/pages/refused/*.page")):
        with open(file, encoding="utf-8", errors="replace") as it:
            text = it.read()
        wanted = re.search(r"(?m)^# ./show marks ([\d:]+): (.*)$", text)
        if wanted:
            yield os.path.basename(file), text, wanted.group(1), wanted.group(2)


def is_told(show, text, place, words):
    """Whether this is marked and said of the page; what is told otherwise is printed."""
    status, out, told = run(show, ["a"], {"a": text})
    notes = "\n".join(re.findall(r"(?m)^ +[=] (.*)$", told))
    if status in (4, 5, 6, 7) and not out and marked(told) == place and words in notes:
        return True
    print(f"wanted {place} and {words}, told with status {status}\n{out}{told}")
    return False


def main():
    show = sys.argv[1] if len(sys.argv) > 1 else f"{TOP}/crates/ftl_show/out/ftl_show"
    wrong = 0
    for lines, place, words in SLIPS:
        if not is_told(show, page_with(lines), place, words):
            wrong += 1
            print(f"that was {lines}\n")
    pages = list(pages_with_marks())
    for name, text, place, words in pages:
        if not is_told(show, text, place, words):
            wrong += 1
            print(f"that was {name}\n")
    if run(show, ["a"], {"a": PAGE})[0] != 0:
        wrong += 1
        print("the page without a slip is refused")
    print(f"{len(SLIPS)} slips, {len(pages)} pages, {wrong} wrong")
    return 1 if wrong else 0


if __name__ == "__main__":
    sys.exit(main())
