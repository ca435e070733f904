#!/usr/bin/env python3
"""Holds schedules whose passes nest others against a plain reading of what they mean, written from the definitions
alone: which nests are closed and have their attributes on the right sides, which pairs are ordered, which orders are
allowed, and the boxes that `plain_layout.py` finds.

usage: bench/nests.py random [COUNT [SEED [PROGRAM]]]   tells where they differ on so many random pages, 1000 if left out
       bench/nests.py limits [PROGRAM]                   processor time of `check` of a schedule of 2,048 passes, flat and
                                                         with half of them in a nest, less that of the grammar alone
       bench/nests.py times [PROGRAM]                    milliseconds of processor time that planning and solving take,
                                                         and all up to the boxes, of samples of `table` by the schedule
                                                         found and by that of pages/table_nest.page
PROGRAM is the proved one, which ./prove builds, if left out.

Of each page are looked at: what `check` tells; of a pair that is not ordered the example that `explain` prints; and of an
accepted schedule its canonical text, which is read as the same again, and the boxes by several workers and grains.
"""
import collections
import contextlib
import itertools
import random
import os
import re
import subprocess
import sys
import tempfile

from demand import Drawn
from explain import (Orders, Place, Rule, Trees, as_node, attribute_of, computed, computed_at, instance_at, is_above, is_of,
                     is_ordered, key, places_of, preorder, reads_of, rule_of, rules_of, shown_by, text_of, writers_of, MOST)
from part_times import times_of
from parts import PARTS, SIZES
from plain_layout import OVERFLOW, Grammar, Solver, Tokens, document, sample, shown
from program import TOP, program_at
from stops import addresses
from timing import processor_seconds

Nest = collections.namedtuple("Nest", "host stages")  # the stages are lists of passes, each a kind and a list
Pass = collections.namedtuple("Pass", "kind attributes nest")
Spot = collections.namedtuple("Spot", "outer nest inner")  # where an attribute stands; the nest that it stands in, if any

KINDS = ["topdown", "bottomup", "inorder"]


# ---- regions


def children_of(grammar, name):
    return [of for _, of in grammar.classes[name]["children"].values()]


def region(grammar, host):
    """The interfaces of the host's children, and with each those of the children of all its classes."""
    found, left = set(), children_of(grammar, host)
    while left:
        it = left.pop()
        if it not in found:
            found.add(it)
            left += [of for name, made in grammar.classes.items() if made["of"] == it for of in children_of(grammar, name)]
    return found


def is_closed(grammar, root, host):
    inside = region(grammar, host)
    if grammar.classes[host]["of"] in inside or root in inside:
        return False
    others = [name for name, it in grammar.classes.items() if name != host and it["of"] not in inside]
    return not any(of in inside for name in others for of in children_of(grammar, name))


def is_inside(grammar, host, attribute):
    owner, inside = attribute[0], region(grammar, host)
    return owner in inside or owner in grammar.classes and grammar.classes[owner]["of"] in inside


# ---- texts


def list_text(kind, attributes):
    return f"{kind} {{ {''.join(f'{owner}.{name} ' for owner, name in attributes)}}}"


def pass_text(it):
    told = list_text(it.kind, it.attributes)
    if it.nest is None:
        return told
    inner = " ;".join(" " + " || ".join(list_text(*one) for one in passes) for passes in it.nest.stages)
    return f"{told} nest {it.nest.host} {{{inner} }}"


def schedule_text(stages):
    return " ;\n".join(" || ".join(map(pass_text, passes)) for passes in stages) + "\n"


def rule_text(rule):
    return f"{rule.owner} {rule.child}.{rule.name}"


# ---- what `check` tells


def fault_of_names(grammar, root, stages):
    """The first of the names of a schedule that is wrong, by its place in the text."""
    known = set(computed(grammar))
    for it in (one for passes in stages for one in passes):
        for attribute in it.attributes:
            if attribute not in known:
                return f"unknown attribute {'.'.join(attribute)}"
        if it.nest is None:
            continue
        if it.nest.host not in grammar.classes:
            return f"unknown class {it.nest.host}"
        if not is_closed(grammar, root, it.nest.host):
            return f"nest {it.nest.host} is not closed"
        for attribute in it.attributes:
            if is_inside(grammar, it.nest.host, attribute):
                return f"{'.'.join(attribute)} on the wrong side of a nest"
        for attribute in (a for passes in it.nest.stages for _, attributes in passes for a in attributes):
            if attribute not in known:
                return f"unknown attribute {'.'.join(attribute)}"
            if not is_inside(grammar, it.nest.host, attribute):
                return f"{'.'.join(attribute)} on the wrong side of a nest"
    return None


def entries(stages):
    for passes in stages:
        for it in passes:
            yield from it.attributes
            if it.nest:
                yield from (a for inner in it.nest.stages for _, attributes in inner for a in attributes)


def spots_of(stages):
    """Where each attribute stands: in the outer stages, and if in a nest in that."""
    whole = [[(it.kind, [*entries([[it]])]) for it in passes] for passes in stages]
    spots = {a: Spot(place, None, None) for a, place in places_of(whole).items()}
    for it in (one for passes in stages for one in passes if one.nest):
        for a, place in places_of(it.nest.stages).items():
            spots[a] = Spot(spots[a].outer, it.nest, place)
    return spots


def is_nest_ordered(grammar, spots, reader, read, where, writer):
    """Whether the writer of what is read runs before the reader, line by line as the table has it."""
    before, after = spots[attribute_of(grammar, writer)], spots[attribute_of(grammar, reader)]
    if (before.outer.stage, before.outer.beside) != (after.outer.stage, after.outer.beside):
        return before.outer.stage < after.outer.stage
    if before.nest and after.nest:
        return is_ordered(grammar, places_of(after.nest.stages), reader, read, where, writer)
    if after.nest:
        return after.outer.kind == "topdown"
    if before.nest:
        return before.outer.kind == "bottomup"
    return is_ordered(grammar, {a: it.outer for a, it in spots.items()}, reader, read, where, writer)


def first_pair(grammar, stages):
    spots = spots_of(stages)
    for reader in rules_of(grammar):
        for read in reads_of(grammar, reader):
            where, writers = writers_of(grammar, reader, read)
            for writer in writers:
                if not is_nest_ordered(grammar, spots, reader, read, where, writer):
                    return reader, read, writer
    return None


def fault_of_order(grammar, stages):
    """An attribute that stands twice, one that is missing, or a pair that is not ordered, with the pair."""
    before = set()
    for attribute in entries(stages):
        if attribute in before:
            return f"{'.'.join(attribute)} twice", None
        before.add(attribute)
    for attribute in computed(grammar):
        if attribute not in before:
            return f"{'.'.join(attribute)} missing", None
    pair = first_pair(grammar, stages)
    return pair and f"{rule_text(pair[0])} reads {rule_text(pair[2])} unordered", pair


# ---- orders


class NestOrders(Orders):
    """Which instance of a tree must precede which, where passes nest others."""

    def __init__(self, grammar, stages, nodes):
        whole = [[(it.kind, [*entries([[it]])]) for it in passes] for passes in stages]
        super().__init__(grammar, whole, nodes)
        self.spots = spots_of(stages)
        self.inner = {id(it.nest): Orders(grammar, it.nest.stages, nodes) for passes in stages for it in passes if it.nest}

    def host(self, instance, spot):
        """The node of the host class at or above the visit of a step."""
        rule, node = rule_of(self.grammar, instance), instance[0]
        visit = node if rule.child == "self" else node.parent
        while visit.name != spot.nest.host:
            visit = visit.parent
        return visit

    def precedes(self, one, other):
        spot, spot2 = (self.spots[attribute_of(self.grammar, rule_of(self.grammar, it))] for it in (one, other))
        if (spot.outer.stage, spot.outer.beside) != (spot2.outer.stage, spot2.outer.beside):
            return spot.outer.stage < spot2.outer.stage
        if not spot.nest and not spot2.nest:
            return super().precedes(one, other)
        if spot.nest and spot2.nest:
            return self.host(one, spot) is self.host(other, spot2) and self.inner[id(spot.nest)].precedes(one, other)
        hosted, instance, alone = (spot, one, other) if spot.nest else (spot2, other, one)
        host, rule = self.host(instance, hosted), rule_of(self.grammar, alone)
        visit = alone[0] if rule.child == "self" else alone[0].parent
        is_over = visit is host or is_above(visit, host)
        return is_over and spot.outer.kind == ("bottomup" if spot.nest else "topdown")


def why_no_example(grammar, root, stages, pair, told):
    """Why what is printed is no example of the pair, or none."""
    lines = told.splitlines()
    if len(lines) < 3 or not lines[0].startswith("reader ") or not lines[1].startswith("writer "):
        return "no example is printed"
    tree = document(Tokens(lines[2]))
    if not is_of(grammar, tree, root) or text_of(grammar, tree) != lines[2]:
        return "the tree is none of the grammar"
    nodes = preorder(tree, grammar, [])
    order = [instance_at(nodes, line) for line in lines[3:]]
    reader, writer = (instance_at(nodes, line[7:]) for line in lines[:2])
    if (reader, writer) not in list(shown_by(grammar, nodes, pair)):
        return "the instances don't show the pair"
    wanted = [(node, name) for node in nodes for name in computed_at(grammar, node)]
    if sorted((id(node), name) for node, name in order) != sorted((id(node), name) for node, name in wanted):
        return "the order is not of the tree's instances"
    orders = NestOrders(grammar, stages, nodes)
    if any(orders.precedes(later, earlier) for earlier, later in itertools.combinations(order, 2)):
        return "the order is not allowed"
    return None if order.index(reader) <= order.index(writer) else "the reader stands after the writer"


# ---- random schedules


class Layered(Drawn):
    """A grammar whose interfaces have children of later ones alone, so that many nests are closed."""

    def drawn_class(self, interface, children):
        names = list(self.interfaces)
        later = names[names.index(interface) + 1 :]
        kids = [(f"c{n}", self.draw.choice(later), self.draw.random() < 0.5) for n in range(children if later else 0)]
        return interface, ["p"] * self.draw.randint(0, 1), ["l"] * self.draw.randint(0, 1), kids


def cut(draw, these, kinds):
    """The attributes as stages of passes."""
    left, stages = [*these], []
    while left:
        passes = []
        for _ in range(draw.choice([1, 1, 1, 2])):
            count = draw.randint(1, max(1, len(left)))
            passes.append((draw.choice(kinds), left[:count]))
            left = left[count:]
        stages.append(passes)
    return stages


def with_nests(draw, grammar, hosts, stages):
    """Flat stages with some passes that nest what they have of a region."""
    found = []
    for passes in stages:
        made = []
        for kind, attributes in passes:
            host = draw.choice(hosts) if hosts and draw.random() < 0.6 else None
            if host is None or kind == "inorder" and draw.random() < 0.9:
                made.append(Pass(kind, attributes, None))
                continue
            inside = [a for a in attributes if is_inside(grammar, host, a)]
            own = [a for a in attributes if not is_inside(grammar, host, a)]
            inner = cut(draw, inside, [kind, *KINDS]) or draw.choice([[], [[(kind, [])]]])
            made.append(Pass(kind if kind != "inorder" else draw.choice(KINDS[:2]), own, Nest(host, inner)))
        found.append(made)
    return found


def flat_stages(text):
    """The stages of a text without nests."""
    found = []
    for stage in text.split(";"):
        passes = [re.fullmatch(r"\s*(\w+) \{ (.*)\}\s*", it) for it in stage.split("||")]
        found.append([(it[1], [tuple(a.split(".")) for a in it[2].split()]) for it in passes])
    return found


def spoiled(draw, grammar, stages):
    """The same with one thing changed at random."""
    spots = [(n, k) for n, passes in enumerate(stages) for k, it in enumerate(passes)]
    n, k = draw.choice(spots)
    it, some = stages[n][k], draw.choice(computed(grammar))
    made = [[*passes] for passes in stages]
    what = draw.randint(0, 5)
    if what == 0:
        made[n][k] = it._replace(attributes=[*it.attributes, some])
    elif what == 1:
        made[n][k] = it._replace(attributes=it.attributes[1:])
    elif what == 2:
        made[n][k] = it._replace(attributes=[*it.attributes, ("Top", "none")])
    elif it.nest is None and it.kind != "inorder":
        made[n][k] = it._replace(nest=Nest(draw.choice([*grammar.classes, "Nobody"]), [[("topdown", [some])]]))
    elif it.nest is not None:
        host = draw.choice([it.nest.host, draw.choice([*grammar.classes, "Nobody"])])
        made[n][k] = it._replace(nest=Nest(host, [*it.nest.stages, [(draw.choice(KINDS), [some])]]))
    return made


def drawn_schedule(draw, grammar, hosts, program, page):
    """A schedule with nests: one drawn from nothing, or nests in the automatic one, the first of some that is accepted."""
    every = computed(grammar)
    told = subprocess.run([program, "schedule"], input=f"{page}%schedule auto\n".encode(), stdout=subprocess.PIPE)
    for _ in range(20):
        if told.returncode == 0 and draw.random() < 0.9:
            flat = flat_stages(told.stdout.decode())
            if draw.random() < 0.5:
                flat = [[one] for passes in flat for kind, these in passes for one in cut_by(draw, grammar, hosts, kind, these)]
        else:
            draw.shuffle(every)
            flat = cut(draw, every, KINDS)
        stages = with_nests(draw, grammar, hosts, flat)
        if fault_of_order(grammar, stages)[0] is None:
            break
    return spoiled(draw, grammar, stages) if draw.random() < 0.25 else stages


def cut_by(draw, grammar, hosts, kind, these):
    """A pass as two: what a region has of it, and the rest."""
    host = draw.choice(hosts) if hosts else None
    inside = [a for a in these if host and is_inside(grammar, host, a)]
    parts = [(kind, [a for a in these if a not in inside]), (kind, inside)]
    return [it for it in (parts if kind == "topdown" else parts[::-1]) if it[1]] or [(kind, [])]


# ---- what is held against the program


def run(program, words, page):
    made = subprocess.run([program, *words], input=page.encode(), stdout=subprocess.PIPE)
    return made.returncode, made.stdout.decode()


def boxes_of(grammar, text):
    nodes, solver = preorder(document(Tokens(text)), grammar, []), Solver(grammar, 31)
    lines = []
    for number, node in enumerate(nodes):
        values = [(it, solver.value(node, it)) for it in shown(grammar, node)]
        lines.append(" ".join([str(number), node.name, *(f"{it}={'overflow' if v is OVERFLOW else v}" for it, v in values)]))
    return "\n".join(lines) + "\n"


def why_wrong(draw, program, drawn, grammar, stages, head):
    """Why what is printed for a page is wrong, or none, and what kind of page it is."""
    page = f"{head}%schedule\n{schedule_text(stages)}"
    fault, pair = fault_of_names(grammar, "R", stages), None
    kind = "a fault of names"
    if fault is None:
        fault, pair = fault_of_order(grammar, stages)
        kind = "a pair" if pair else "an entry twice or missing"
    told = run(program, ["check"], page)
    if fault is not None:
        wanted = 6, f"refused schedule: {fault}\n"
        if told != wanted:
            return f"check tells {told}, wanted {wanted}", kind
        return (why_no_pair(program, grammar, stages, pair, page) if pair else None), kind
    kind = "nests accepted" if any(it.nest for passes in stages for it in passes) else "no nest accepted"
    if told != (0, "accepted\n"):
        return f"check tells {told} of an accepted schedule", kind
    for text in (page, f"{head}%schedule\n{' '.join(schedule_text(stages).split())}\n"):
        if run(program, ["schedule"], text) != (0, schedule_text(stages)):
            return "the canonical text is another", kind
    return why_no_boxes(draw, program, drawn, grammar, page), kind


def why_no_pair(program, grammar, stages, pair, page):
    status, told = run(program, ["explain"], page)
    if status:
        return f"explain ends with {status}"
    if told in ("no tree shows the pair\n", "each tree that shows the pair has more than 512 nodes\n"):
        trees = Trees(grammar)
        for tree in (it for size in range(1, MOST) for it in trees.of("R", size)):
            if any(shown_by(grammar, preorder(as_node(grammar, tree), grammar, []), pair)):
                return "a small tree shows the pair"
        return None
    return why_no_example(grammar, "R", stages, pair, told)


def why_no_boxes(draw, program, drawn, grammar, page):
    text = drawn.document("Top", draw.randint(1, 3))
    wanted = boxes_of(grammar, text)
    for workers, grain in [(1, 1), (1, 64), (draw.choice([2, 8]), draw.choice([1, 2, 3, 64]))]:
        words = ["run", "--workers", str(workers), "--grain", str(grain)]
        status, told = run(program, words, f"{page}%document\n{text}\n")
        if told != wanted or status not in (0, 8):
            return f"{' '.join(words)} of {text} prints, with status {status}:\n{told}wanted:\n{wanted}"
    return None


def compare(count, seed, program):
    kinds, differ = collections.Counter(), 0
    for number in range(count):
        draw = random.Random(f"{seed}/{number}")
        drawn = (Layered if draw.random() < 0.8 else Drawn)(draw)
        grammar = Grammar(drawn.text())
        head = f"%page 1\n%grammar\n{drawn.text()}"
        hosts = [it for it in grammar.classes if is_closed(grammar, "R", it)]
        stages = drawn_schedule(draw, grammar, hosts, program, head)
        why, kind = why_wrong(draw, program, drawn, grammar, stages, head)
        kinds[kind] += 1
        if why:
            differ += 1
            print(f"page {number} of seed {seed}, {why}\n{head}%schedule\n{schedule_text(stages)}")
    print(", ".join(f"{kinds[it]} with {it}" for it in sorted(kinds)), f"of {count} pages; {differ} differ")
    sys.exit(differ > 0)


# ---- schedules at the limits

HELD = 64  # attributes of an interface


def at_limits():
    """A grammar of 128 classes and 2,047 attributes, each of which reads the one before it and itself at the parent or at a
    child, so that it stands alone in a pass; and the kinds of these passes with their attributes, in order."""
    text = ["root R;", "interface R { }", f"class Top : R {{ d : I0; {' '.join(f'd.a{k} := 0;' for k in range(0, HELD, 2))} }}"]
    order = []
    for n in range(32):
        is_last = n == 31
        inherited, synthesized = range(0, HELD, 2), range(1, HELD - 2 * is_last, 2)
        text.append(f"interface I{n} {{ inh {names(inherited)}; syn {names(synthesized)}; }}")
        order += [("topdown" if k in inherited else "bottomup", (f"I{n}", f"a{k}")) for k in range(HELD - is_last)]
        down = [f"c.a{k} := self.a{k}{f' + self.a{k - 1}' if k else ''};" for k in inherited]
        up = [f"self.a{k} := c.a{k} + self.a{k - 1};" for k in synthesized]
        below = "" if is_last else f"d : I{n + 1}; d.a0 := self.a{HELD - 1}; {' '.join(f'd.a{k} := 0;' for k in inherited[1:])}"
        text.append(f"class C{n} : I{n} {{ c : I{n}; {below} {' '.join(down + up)} }}")
        for leaf in range(2 if is_last else 3):
            text.append(f"class L{n}x{leaf} : I{n} {{ {' '.join(f'self.a{k} := self.a{k - 1};' for k in synthesized)} }}")
    return "\n".join(text) + "\n", order


def names(numbers):
    return ", ".join(f"a{k}" for k in numbers)


def limits(program):
    text, order = at_limits()
    flat = [[Pass(kind, [attribute], None)] for kind, attribute in order]
    inner = [[(kind, [attribute])] for kind, attribute in order[1024:]]
    head = f"%page 1\n%grammar\n{text}%schedule\n"
    grammar = processor_seconds([program, "check"], head + "}\n", (6,), 9)
    for name, stages in [("flat", flat), ("half in a nest", flat[:1024] + [[Pass("topdown", [], Nest("Top", inner))]])]:
        page = head + schedule_text(stages)
        told = run(program, ["check"], page)[1].strip()
        print(f"{name}: {told}, {1e3 * (processor_seconds([program, 'check'], page, (0, 6), 9) - grammar):.1f} ms")


# ---- how long plans with and without nests take


def nested_table(page):
    """A sample of `table` by the schedule of the example page."""
    with open(os.path.join(TOP, "pages/table_nest.page")) as example:
        nested = example.read().split("%schedule")[1].split("%document")[0]
    return page.replace("%schedule auto\n", "%schedule" + nested, 1)


def least_times(program, functions, pages):
    """Of each page the milliseconds of each part: the least of several runs, which are made in turns."""
    with contextlib.ExitStack() as open_files:
        files = [open_files.enter_context(tempfile.NamedTemporaryFile("w")) for _ in pages]
        for file, page in zip(files, pages):
            file.write(page)
            file.flush()
        turns = [[times_of(program, file.name, functions) for file in files] for _ in range(15)]
    return [{part: min(run[part] for run in runs) for part in runs[0]} for runs in zip(*turns)]


def times(program):
    functions = addresses(program, PARTS)
    print(f"{'pieces':>7} {'part':6} {'flat':>8} {'nested':>8} {'ratio':>6}")
    for size in SIZES:
        page = sample("table", size)
        flat, nested = least_times(program, functions, [page, nested_table(page)])
        for part in ("plan", "solve", "whole"):
            print(f"{size:7} {part:6} {flat[part]:8.2f} {nested[part]:8.2f} {nested[part] / flat[part]:6.2f}", flush=True)


def main():
    words = sys.argv[1:]
    if words[:1] == ["times"]:
        times(program_at(2))
    elif words[:1] == ["limits"]:
        limits(program_at(2))
    elif words[:1] == ["random"]:
        compare(int((words[1:2] or ["1000"])[0]), (words[2:3] or ["0"])[0], program_at(4))
    else:
        sys.exit(__doc__)


if __name__ == "__main__":
    main()
