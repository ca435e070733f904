#!/usr/bin/env python3
"""Holds the command `demand` against a plain reading of what a noncircular grammar is, written from the definition
alone: which attribute of which class first may depend on itself, and else the boxes that `plain_layout.py` finds.

usage: bench/demand.py random [COUNT [SEED [PROGRAM]]]   tells where they differ on so many random pages, 2000 if left out
       bench/demand.py times [PROGRAM]                   processor time and peak memory of `demand` beside `run` on samples
                                                         of 200,000 pieces and on a list of 1,000,000 kids whose reads
                                                         chain through it, and of `demand` on grammars at the limits

PROGRAM is the proved one, which ./prove builds, if left out.
"""
import collections
import random
import subprocess
import sys
import threading

from pages import Run
from plain_layout import GRAMMARS, OVERFLOW, Grammar, Solver, Tokens, document, preorder, sample, shown
from program import program_at


# ---- a random grammar, as a text and with what its rules read


class Rule:
    """A rule's target, what it reads as (child or None, attribute, whether by `prev`), and its text."""

    def __init__(self, child, attribute):
        self.target, self.reads, self.text = (child, attribute), [], ""


class Drawn:
    """A grammar that was drawn: interfaces (inherited, synthesized), classes (interface, inputs, locals, children as
    (name, interface, whether a list)), and the rules of each class."""

    def __init__(self, draw):
        self.draw, self.share = draw, draw.choice([0.1, 0.25, 0.5])
        self.interfaces = {"R": ([], ["v"])}
        for k in range(draw.randint(1, 3)):
            inherited = [f"i{k}{n}" for n in range(draw.randint(0, 2))]
            self.interfaces[f"N{k}"] = (inherited, [f"s{k}{n}" for n in range(draw.randint(1, 2))])
        self.classes = {"Top": self.drawn_class("R", 1)}
        for name in [it for it in self.interfaces if it != "R"]:
            for n in range(draw.randint(0, 2)):
                self.classes[f"{name}c{n}"] = self.drawn_class(name, draw.randint(1, 3))
            self.classes[f"{name}leaf"] = self.drawn_class(name, 0)
        self.rules = {name: self.rules_of(name) for name in self.classes}

    def drawn_class(self, interface, children):
        draw = self.draw
        others = [it for it in self.interfaces if it != "R"]
        kids = [(f"c{n}", draw.choice(others), draw.random() < 0.5) for n in range(children)]
        return interface, ["p"] * draw.randint(0, 1), ["l"] * draw.randint(0, 1), kids

    def own(self, name):
        interface, inputs, local, _ = self.classes[name]
        inherited, synthesized = self.interfaces[interface]
        return [*inherited, *synthesized, *inputs, *local]

    def shared(self, interface):
        inherited, synthesized = self.interfaces[interface]
        return [*inherited, *synthesized]

    def rules_of(self, name):
        interface, _, local, kids = self.classes[name]
        rules = [self.own_rule(name, it) for it in [*self.interfaces[interface][1], *local]]
        for child, of, is_list in kids:
            rules += [self.child_rule(name, child, is_list, it) for it in self.interfaces[of][0]]
        self.draw.shuffle(rules)
        return rules

    def own_rule(self, name, attribute):
        rule = Rule(None, attribute)
        lists = [it for it in self.classes[name][3] if it[2]]
        if lists and self.draw.random() < 0.4:
            child, of, _ = self.draw.choice(lists)
            begin = self.expression(rule, name, self.plain_reads(name) + self.last_reads(name))
            this = [("this", child, it) for it in self.shared(of)]
            step = self.expression(rule, name, [*this, *this, *self.plain_reads(name), *self.last_reads(name)])
            rule.text = f"fold {child} from {begin} with acc + {step}"
        else:
            rule.text = self.expression(rule, name, self.plain_reads(name) + self.last_reads(name))
        return rule

    def child_rule(self, name, child, is_list, attribute):
        rule = Rule(child, attribute)
        of = next(it[1] for it in self.classes[name][3] if it[0] == child)
        reads = self.plain_reads(name)
        if not is_list:
            rule.text = self.expression(rule, name, reads + self.last_reads(name))
            return rule
        reads += [("this", child, it) for it in self.shared(of)]
        if self.draw.random() < 0.6:
            first = self.expression(rule, name, reads)
            prev = [("prev", child, it) for it in self.shared(of)]
            rule.text = f"first {first} then {self.expression(rule, name, [*reads, *prev, *prev])}"
        else:
            rule.text = self.expression(rule, name, reads)
        return rule

    def plain_reads(self, name):
        singles = [(child, of) for child, of, is_list in self.classes[name][3] if not is_list]
        found = [("self", None, it) for it in self.own(name)]
        return found + [("single", child, it) for child, of in singles for it in self.shared(of)]

    def last_reads(self, name):
        lists = [(child, of) for child, of, is_list in self.classes[name][3] if is_list]
        return [("last", child, it) for child, of in lists for it in self.shared(of)]

    def expression(self, rule, name, reads):
        parts = [str(self.draw.randint(0, 9))]
        count = sum(self.draw.random() < self.share for _ in range(3))
        for how, child, attribute in self.draw.sample(reads, min(len(reads), count)):
            rule.reads.append((child, attribute, how == "prev"))
            word = {"self": "self", "this": "this", "prev": "prev", "single": child, "last": child}[how]
            parts.append(f"(last {word}.{attribute} or 1)" if how == "last" else f"{word}.{attribute}")
        return " + ".join(parts) if self.draw.random() < 0.8 else " * 2 + ".join(parts)

    def text(self):
        lines = ["root R;"]
        for name, (inherited, synthesized) in self.interfaces.items():
            inh = f"inh {', '.join(inherited)}; " if inherited else ""
            syn = ", ".join(synthesized)
            lines.append(f"interface {name} {{ {inh}syn {syn}; show {', '.join([*inherited, *synthesized])}; }}")
        for name, (interface, inputs, local, kids) in self.classes.items():
            lines.append(f"class {name} : {interface} {{")
            lines += [f"  input {it};" for it in inputs] + [f"  local {it};" for it in local]
            lines += [f"  {child} : {f'[{of}]' if is_list else of};" for child, of, is_list in kids]
            lines += [f"  {it.target[0] or 'self'}.{it.target[1]} := {it.text};" for it in self.rules[name]]
            lines.append("}")
        return "\n".join(lines) + "\n"

    def document(self, name, depth):
        """The document of a node; below the depth, and in a single child there, leaves alone."""
        fields = [f"{it} = {self.draw.randint(-5, 20)}" for it in self.classes[name][1]]
        for child, of, is_list in self.classes[name][3]:
            if is_list:
                count = self.draw.randint(0, 3) if depth else 0
                fields.append(f"{child} = [ {' '.join(self.document(self.kid(of, depth), depth - 1) for _ in range(count))} ]")
            else:
                fields.append(f"{child} = {self.document(self.kid(of, depth), max(depth - 1, 0))}")
        return f"{name} {{ {' '.join(fields)} }}"

    def kid(self, interface, depth):
        return self.draw.choice([it for it in self.classes if self.classes[it][0] == interface]) if depth else f"{interface}leaf"


# ---- what a noncircular grammar is


def walks(edges):
    """From each vertex, all to which a walk of at least one edge leads."""
    found = {}
    for start in edges:
        reached, left = set(), list(edges[start])
        while left:
            it = left.pop()
            if it not in reached:
                reached.add(it)
                left += edges.get(it, ())
        found[start] = reached
    return found


def class_edges(drawn, name, pairs, prevs):
    """The edges of a class: what rules read, and through each child what its interface's pairs lead to."""
    edges = collections.defaultdict(set)
    for rule in drawn.rules[name]:
        for child, attribute, is_prev in rule.reads:
            if prevs or not is_prev:
                edges[child, attribute].add(rule.target)
    for child, of, _ in drawn.classes[name][3]:
        for one, other in pairs[of]:
            edges[child, one].add((child, other))
    return edges


def least_pairs(drawn):
    """For each interface the pairs of an inherited and a synthesized attribute that may depend on it."""
    pairs = {name: set() for name in drawn.interfaces}
    while True:
        before = sum(len(it) for it in pairs.values())
        for name, (interface, *_) in drawn.classes.items():
            inherited, synthesized = drawn.interfaces[interface]
            reached = walks(class_edges(drawn, name, pairs, True))
            for one in inherited:
                to = reached.get((None, one), ())
                pairs[interface] |= {(one, other) for other in synthesized if (None, other) in to}
        if before == sum(len(it) for it in pairs.values()):
            return pairs


def first_circular(drawn):
    """The first vertex that may depend on itself, as `Class child.attribute`, or none."""
    pairs = least_pairs(drawn)
    for name, (_, _, _, kids) in drawn.classes.items():
        by_any = walks(class_edges(drawn, name, pairs, True))
        without_prev = walks(class_edges(drawn, name, pairs, False))
        vertices = [(None, it, False) for it in drawn.own(name)]
        vertices += [(child, it, is_list) for child, of, is_list in kids for it in drawn.shared(of)]
        for child, it, is_list in vertices:
            if (child, it) in (without_prev if is_list else by_any).get((child, it), ()):
                return f"{name} {child or 'self'}.{it}"
    return None


def wanted_of(drawn, text, written):
    vertex = first_circular(drawn)
    if vertex:
        return 5, f"refused grammar: {vertex} may depend on itself\n"
    grammar = Grammar(text)
    nodes = preorder(document(Tokens(written)), grammar, [])
    solver, lines, status = Solver(grammar, 31), [], 0
    for number, node in enumerate(nodes):
        values = [(it, solver.value(node, it)) for it in shown(grammar, node)]
        status = 8 if any(value is OVERFLOW for _, value in values) else status
        told = [f"{it}={'overflow' if value is OVERFLOW else value}" for it, value in values]
        lines.append(" ".join([str(number), node.name, *told]) + "\n")
    return status, "".join(lines)


def compare(count, seed, program):
    kinds, differ = collections.Counter(), 0
    for number in range(count):
        drawn = Drawn(random.Random(f"{seed}/{number}"))
        text, written = drawn.text(), drawn.document("Top", 4)
        page = f"%page 1\n%grammar\n{text}%document\n{written}\n"
        run = subprocess.run([program, "demand"], input=page.encode(), stdout=subprocess.PIPE)
        wanted = wanted_of(drawn, text, written)
        kinds["circular" if wanted[0] == 5 else "boxes"] += 1
        auto = page.replace("%document\n", "%schedule auto\n%document\n")
        if wanted[0] != 5:
            by_schedule = subprocess.run([program, "run"], input=auto.encode(), stdout=subprocess.PIPE)
            kinds["boxes that no schedule gives"] += by_schedule.returncode == 6
        if (run.returncode, run.stdout.decode()) != wanted:
            differ += 1
            print(f"page {number} of seed {seed}:\n{page}printed, with status {run.returncode}:\n{run.stdout.decode()}wanted: {wanted}")
    print(", ".join(f"{kinds[it]} {it}" for it in kinds), f"of {count} pages; {differ} differ")
    sys.exit(differ > 0)


# ---- times


CHAIN = """root R; interface R { syn h; show h; } interface K { input w; inh x; syn e; }
class Col : R { kids : [K]; kids.x := first 0 then prev.e; self.h := last kids.e or 0; }
class W : K { self.e := self.x + self.w; }
"""

DEEP = """root R; interface R { syn h; show h; } interface K { inh x; syn e; }
class Top : R { t : K; t.x := 0; self.h := t.e; }
class In : K { kids : [K]; kids.x := first self.x + 1 then prev.e + 1; self.e := last kids.e or self.x; }
"""


def deep_page(chains, depth):
    """A node with so many chains of so many nodes each, one below the other."""
    chain = "In { kids = [ " * depth + "] }" * depth
    return f"%page 1\n%grammar\n{DEEP}%schedule auto\n%document\nTop {{ t = In {{ kids = [\n{(chain + chr(10)) * chains}] }} }}\n"


def chain_page(kids):
    rows = "W { w = 1 }\n" * kids
    return f"%page 1\n%grammar\n{CHAIN}%schedule auto\n%document\nCol {{ kids = [\n{rows}] }}\n"


def names(letter, count):
    return [f"{letter}{k}" for k in range(count)]


def dense_page():
    """127 classes with 16 children of 32 + 32 attributes, each child's read by the next, of 31 interfaces."""
    inherited, synthesized = names("a", 32), names("b", 32)
    lines = ["root R; interface R { syn v; }"]
    lines += [f"interface I{i} {{ inh {','.join(inherited)}; syn {','.join(synthesized)}; }}" for i in range(31)]
    lines.append(f"class Top : R {{ t : I0; {' '.join(f't.{it} := 0;' for it in inherited)} self.v := t.b0; }}")
    own, all_of = " + ".join(f"self.{it}" for it in inherited), lambda child: " + ".join(f"{child}.{it}" for it in synthesized)
    lines += [f"class L{i} : I{i} {{ {' '.join(f'self.{it} := {own};' for it in synthesized)} }}" for i in range(31)]
    for n in range(96):
        children = [f"c{m} : I{(n + 1 + m) % 31};" for m in range(16)]
        rules = [f"c0.{it} := self.{it};" for it in inherited]
        rules += [f"c{m}.{it} := {all_of(f'c{m - 1}')};" for m in range(1, 16) for it in inherited]
        rules += [f"self.{it} := {all_of('c15')};" for it in synthesized]
        lines.append(f"class C{n} : I{n % 31} {{ {' '.join(children)} {' '.join(rules)} }}")
    return page_of(lines)


def turned_page(spread):
    """31 interfaces whose pairs are found each by the one before: classes that turn the attributes round."""
    inherited, synthesized = names("a", 31), names("b", 32)
    lines = ["root R; interface R { syn v; }"]
    lines += [f"interface I{i} {{ inh {','.join(inherited)}; syn {','.join(synthesized)}; }}" for i in range(31)]
    lines.append(f"class Top : R {{ t : I0; {' '.join(f't.{it} := 0;' for it in inherited)} self.v := t.b0; }}")
    for i in range(31):
        rest = " ".join(f"self.b{k} := 0;" for k in range(1, 32))
        below = f"x : I{i - 1}; x.a30 := self.a0; {' '.join(f'x.a{k} := 0;' for k in range(30))} self.b0 := x.b31;"
        lines.append(f"class L{i} : I{i} {{ {below if i else 'self.b0 := self.a0;'} {rest} }}")
        turned = [f"x.a{k} := self.a{(k + 1) % 31};" for k in range(31)] + [f"self.b{(k + 1) % 32} := x.b{k};" for k in range(32)]
        lines += [f"class C{i}_{s} : I{i} {{ x : I{i}; {' '.join(turned)} }}" for s in range(spread)]
    return page_of(lines)


def page_of(lines):
    return "%page 1\n%grammar\n" + "\n".join(lines) + "\n%document\nTop { t = L0 { } }\n"


def least(program, command, page):
    runs = [Run([program, command], page, (0, 8)) for _ in range(3)]
    return min(it.seconds for it in runs), min(it.peak for it in runs)


def beside(program, name, page):
    demand, run = least(program, "demand", page), least(program, "run", page)
    check = min(Run([program, "check"], page, (0,)).seconds for _ in range(3))
    print(f"{name}: demand {demand[0] * 1000:.0f} ms, {demand[1] / 1e6:.0f} MB; run {run[0] * 1000:.0f} ms, {run[1] / 1e6:.0f} MB; "
          f"{demand[0] / run[0]:.2f} times as long, {demand[1] / run[1]:.2f} times the memory; check {check * 1000:.0f} ms")


def times(program):
    for name in GRAMMARS:
        beside(program, f"{name}, 200,000 pieces", sample(name, 200_000))
    beside(program, "1,000,000 kids in a chain of reads", chain_page(1_000_000))
    beside(program, "1,950 chains of 510 nodes", deep_page(1_950, 509))
    for name, page in [("dense", dense_page()), ("turned", turned_page(1)), ("turned by three classes", turned_page(3))]:
        seconds = least(program, "demand", page)[0]
        print(f"{name}, at the limits: demand {seconds * 1000:.0f} ms for a page of {len(page):,} bytes")


def main():
    words = sys.argv[1:]
    if words[:1] == ["random"]:
        compare(int((words[1:2] or ["2000"])[0]), (words[2:3] or ["0"])[0], program_at(4))
    elif words[:1] == ["times"]:
        times(program_at(2))
    else:
        sys.exit(__doc__)


if __name__ == "__main__":
    # What is read is evaluated below what reads it.
    sys.setrecursionlimit(1 << 30)
    threading.stack_size(1 << 29)
    thread = threading.Thread(target=main)
    thread.start()
    thread.join()
