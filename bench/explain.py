#!/usr/bin/env python3
"""Holds the command `explain` against a plain reading of what an example of a refused pair is, written from the
definitions alone: which pair is the first that a schedule leaves unordered, which trees show it, found by going through
all trees of up to six nodes, and which orders a schedule allows.

usage: bench/explain.py random [COUNT [SEED [PROGRAM]]]   tells where they differ on so many random grammars with random
                                                          schedules, 1000 if left out
PROGRAM is the proved one, which ./prove builds, if left out.

Of an example are looked at: that its tree is one of the grammar, written as documents are, with each input 0; that it has
as many nodes as the least tree that was found, or more than six where none was; that its two instances show the pair; and
that each computed instance stands once in its order, none before one that must precede it, the reader not after the writer.
"""
import collections
import itertools
import random
import subprocess
import sys

from demand import Drawn
from plain_layout import Grammar, Node, Tokens, document, preorder
from program import program_at

MOST = 6
ENOUGH = 20_000  # so many trees of a size are gone through at most

Rule = collections.namedtuple("Rule", "owner child name")  # child is "self" for a rule of the node itself
Read = collections.namedtuple("Read", "part over word child name")  # over is the list that the part goes over, if any
Place = collections.namedtuple("Place", "stage beside kind place")


# ---- rules and what they read


def rules_of(grammar):
    return [Rule(owner, *target) for owner, it in grammar.classes.items() for target in it["rules"]]


def parts_of(grammar, rule):
    """The parts of a rule: their names, the list that they go over, and their expressions."""
    form = grammar.classes[rule.owner]["rules"][rule.child, rule.name]
    if form[0] == "plain":
        return [("plain", None, form[1])]
    if form[0] == "first":
        return [("first", None, form[1]), ("then", None, form[2])]
    return [("from", None, form[2]), ("with", form[1], form[3])]


def reads_in(e):
    """The reads of an expression in the order of the text, each as a word, a child where it names one, and a name."""
    if e[0] in ("number", "acc"):
        return []
    if e[0] == "read":
        return [(e[1] if e[1] in ("self", "this", "prev") else "single", e[1], e[2])]
    if e[0] == "last":
        return [("last", e[1], e[2]), *reads_in(e[3])]
    return [it for part in e[1:] for it in reads_in(part)]


def reads_of(grammar, rule):
    """The reads of a rule in the order of the text, those by `this` and `prev` with the list that they are of."""
    found = []
    for part, over, e in parts_of(grammar, rule):
        for word, child, name in reads_in(e):
            of = {"this": over or rule.child, "prev": rule.child, "self": None}.get(word, child)
            found.append(Read(part, over, word, of, name))
    return found


def interface_of(grammar, owner, child):
    return grammar.interfaces[grammar.classes[owner]["of"] if child is None else grammar.classes[owner]["children"][child][1]]


def writers_of(grammar, reader, read):
    """Where the rules run that write what is read, beside the reader, and these rules in order; none of an input."""
    of = interface_of(grammar, reader.owner, read.child)
    own = grammar.classes[reader.owner]
    if read.child is None and read.name in of["inh"]:
        return "parent", [it for it in rules_of(grammar) if it.child != "self" and it.name == read.name
                          and interface_of(grammar, it.owner, it.child) is of]
    if read.child is not None and read.name in of["syn"]:
        return "child", [it for it in rules_of(grammar) if it.child == "self" and it.name == read.name
                         and interface_of(grammar, it.owner, None) is of]
    if read.child is None and read.name not in of["syn"] + own["local"] or read.name in of["input"]:
        return "input", []
    return "same", [Rule(reader.owner, read.child or "self", read.name)]


# ---- schedules


def attribute_of(grammar, rule):
    """What a rule computes, as it stands in a schedule."""
    it = grammar.classes[rule.owner]
    if rule.child == "self":
        return (rule.owner if rule.name in it["local"] else it["of"]), rule.name
    return it["children"][rule.child][1], rule.name


def computed(grammar):
    """All attributes that stand in a schedule."""
    shared = [(of, name) for of, it in grammar.interfaces.items() for name in it["attributes"] if name not in it["input"]]
    return shared + [(owner, name) for owner, it in grammar.classes.items() for name in it["local"]]


def drawn_schedule(draw, grammar):
    """A schedule that has each computed attribute once: stages of passes of a kind with a list."""
    left, stages = computed(grammar), []
    draw.shuffle(left)
    while left:
        passes = []
        for _ in range(draw.choice([1, 1, 1, 2])):
            count = draw.randint(1, max(1, len(left)))
            passes.append((draw.choice(["topdown", "bottomup", "inorder"]), left[:count]))
            left = left[count:]
        stages.append(passes)
    return stages


def schedule_text(stages):
    def pass_text(kind, attributes):
        return f"{kind} {{ {' '.join('.'.join(it) for it in attributes)} }}"

    return " ;\n".join(" || ".join(pass_text(*it) for it in passes) for passes in stages) + "\n"


def places_of(stages):
    return {it: Place(stage, beside, kind, place) for stage, passes in enumerate(stages)
            for beside, (kind, attributes) in enumerate(passes) for place, it in enumerate(attributes)}


def child_number(grammar, rule):
    return -1 if rule.child == "self" else list(grammar.classes[rule.owner]["children"]).index(rule.child)


def key(grammar, places, rule):
    return places[attribute_of(grammar, rule)].place, child_number(grammar, rule)


def block(grammar, rule):
    """The block of a rule in an inorder visit: locals, child by child, the others."""
    if rule.child != "self":
        return child_number(grammar, rule)
    return -1 if rule.name in grammar.classes[rule.owner]["local"] else len(grammar.classes[rule.owner]["children"])


def is_ordered(grammar, places, reader, read, where, writer):
    """Whether the writer of what is read runs before the reader, line by line as the table has it."""
    before, after = places[attribute_of(grammar, writer)], places[attribute_of(grammar, reader)]
    if (before.stage, before.beside) != (after.stage, after.beside):
        return before.stage < after.stage
    smaller = key(grammar, places, writer) < key(grammar, places, reader)
    if after.kind != "inorder":
        if where == "same":
            return smaller or (writer == reader and read.word == "prev")
        return where == ("parent" if after.kind == "topdown" else "child")
    if where == "parent":
        return True
    if where == "child":
        if reader.child == "self":
            return reader.name not in grammar.classes[reader.owner]["local"]
        return read.word == "prev" or child_number(grammar, Rule(reader.owner, read.child, "")) < child_number(grammar, reader)
    if block(grammar, writer) != block(grammar, reader):
        return block(grammar, writer) < block(grammar, reader)
    return read.word == "prev" or smaller


def first_pair(grammar, stages):
    """The first pair that is not ordered, as a reader, its read and a writer; or none."""
    places = places_of(stages)
    for reader in rules_of(grammar):
        for read in reads_of(grammar, reader):
            where, writers = writers_of(grammar, reader, read)
            for writer in writers:
                if not is_ordered(grammar, places, reader, read, where, writer):
                    return reader, read, writer
    return None


# ---- trees


class Trees:
    """All trees of a grammar by their size, each as a class with a list of trees for each child."""

    def __init__(self, grammar):
        self.grammar, self.known, self.is_whole = grammar, {}, True

    def of(self, interface, size):
        key = interface, size
        if key not in self.known:
            found = []
            for name, it in self.grammar.classes.items():
                if it["of"] == interface:
                    found += [(name, kids) for kids in self.children(list(it["children"].values()), size - 1)]
            self.is_whole = self.is_whole and len(found) <= ENOUGH
            self.known[key] = found[:ENOUGH]
        return self.known[key]

    def children(self, children, size):
        """The trees of so many nodes in all for these children."""
        if not children:
            return [()] if size == 0 else []
        (is_list, interface), rest = children[0], children[1:]
        found = []
        for here in range(0 if is_list else 1, size + 1):
            ones = self.lists(interface, here) if is_list else [(it,) for it in self.of(interface, here)]
            if ones:
                found += [(one, *others) for others in self.children(rest, size - here) for one in ones]
            if len(found) > ENOUGH:
                self.is_whole = False
                return found
        return found

    def lists(self, interface, size):
        if size == 0:
            return [()]
        found = []
        for first in range(1, size + 1):
            found += [(one, *rest) for rest in self.lists(interface, size - first) for one in self.of(interface, first)]
        return found


def as_node(grammar, tree, place=(None, None, None)):
    """The node of a tree, with every input 0."""
    name, lists = tree
    node, it = Node(name, place), grammar.classes[name]
    node.inputs = {given: 0 for given in [*grammar.interfaces[it["of"]]["input"], *it["input"]]}
    for child, kids in zip(it["children"], lists):
        node.children[child] = made = []
        for kid in kids:
            made.append(as_node(grammar, kid, (node, child, made[-1] if made else None)))
    return node


def is_of(grammar, node, interface):
    """Whether a node that was read is a tree of an interface, its inputs 0."""
    it = grammar.classes.get(node.name)
    if it is None or it["of"] != interface:
        return False
    given = [*grammar.interfaces[it["of"]]["input"], *it["input"]]
    if node.inputs != {name: 0 for name in given} or list(node.children) != list(it["children"]):
        return False
    return all((is_list or len(node.children[child]) == 1) and all(is_of(grammar, kid, of) for kid in node.children[child])
               for child, (is_list, of) in it["children"].items())


def text_of(grammar, node):
    fields = [f" {name} = {value}" for name, value in node.inputs.items()]
    for child, (is_list, _) in grammar.classes[node.name]["children"].items():
        kids = "".join(" " + text_of(grammar, kid) for kid in node.children[child])
        fields.append(f" {child} = [{kids} ]" if is_list else f" {child} ={kids}")
    return f"{node.name} {{{''.join(fields)} }}"


# ---- what a tree shows


def instances_of(rule, node):
    """What a rule computes at a node, as nodes with names, each with the kid that it is for."""
    if rule.child == "self":
        return [((node, rule.name), None)]
    return [((kid, rule.name), kid) for kid in node.children[rule.child]]


def at_hand(read, node, kid):
    """The kids that come to hand in the part that reads."""
    if read.part == "first":
        return [kid] if kid.before is None else []
    if read.part == "then":
        return [kid] if kid.before is not None else []
    return node.children[read.over] if read.part == "with" else [kid]


def seen(read, node, kid):
    """What is read at a node while a kid is at hand."""
    if read.word in ("single", "last"):
        kids = node.children[read.child]
        return (kids[-1], read.name) if kids else None
    return {"self": node, "this": kid, "prev": kid and kid.before}[read.word], read.name


def rule_of(grammar, instance):
    node, name = instance
    it = grammar.classes[node.name]
    if name in it["local"] or name in grammar.interfaces[it["of"]]["syn"]:
        return Rule(node.name, "self", name)
    return Rule(node.parent.name, node.field, name)


def shown_by(grammar, nodes, pair):
    """The instances of a tree that show a pair, as reader and writer."""
    reader, read, writer = pair
    for node in nodes:
        if node.name == reader.owner:
            for instance, kid in instances_of(reader, node):
                for hand in at_hand(read, node, kid):
                    other = seen(read, node, hand)
                    if other and rule_of(grammar, other) == writer:
                        yield instance, other


def least_size(grammar, root, pair):
    """The size of a least tree that shows the pair, of up to six nodes, or none; and whether all trees were looked at."""
    trees = Trees(grammar)
    for size in range(1, MOST + 1):
        for tree in trees.of(root, size):
            if any(shown_by(grammar, preorder(as_node(grammar, tree), grammar, []), pair)):
                return size, trees.is_whole
    return None, trees.is_whole


# ---- orders


def is_above(one, other):
    while other.parent:
        other = other.parent
        if other is one:
            return True
    return False


class Orders:
    """Which instance of a tree must precede which."""

    def __init__(self, grammar, stages, nodes):
        self.grammar, self.places = grammar, places_of(stages)
        self.sequences = {}
        for stage, passes in enumerate(stages):
            for beside, (kind, attributes) in enumerate(passes):
                if kind == "inorder":
                    sequence = self.sequence(nodes[0], attributes)
                    self.sequences[stage, beside] = {(id(it), name): at for at, (it, name) in enumerate(sequence)}

    def sequence(self, node, attributes):
        it = self.grammar.classes[node.name]
        of = self.grammar.interfaces[it["of"]]
        found = [(node, name) for owner, name in attributes if owner == node.name and name in it["local"]]
        for child, (_, interface) in it["children"].items():
            for kid in node.children[child]:
                inherited = self.grammar.interfaces[interface]["inh"]
                found += [(kid, name) for owner, name in attributes if owner == interface and name in inherited]
                found += self.sequence(kid, attributes)
        return found + [(node, name) for owner, name in attributes if owner == it["of"] and name in of["syn"]]

    def step(self, instance):
        """The rule of an instance, the node of its visit, its place, and its number among kids."""
        rule, (node, _) = rule_of(self.grammar, instance), instance
        visit = node if rule.child == "self" else node.parent
        kid = 0 if rule.child == "self" else visit.children[rule.child].index(node)
        return rule, visit, self.places[attribute_of(self.grammar, rule)], kid

    def precedes(self, one, other):
        (rule, visit, place, kid), (rule2, visit2, place2, kid2) = self.step(one), self.step(other)
        if (place.stage, place.beside) != (place2.stage, place2.beside):
            return place.stage < place2.stage
        if place.kind == "inorder":
            at = self.sequences[place.stage, place.beside]
            return at[id(one[0]), one[1]] < at[id(other[0]), other[1]]
        if visit is visit2:
            return kid < kid2 if rule == rule2 else key(self.grammar, self.places, rule) < key(self.grammar, self.places, rule2)
        return is_above(visit, visit2) if place.kind == "topdown" else is_above(visit2, visit)


def is_legal(grammar, stages, nodes, order):
    wanted = [(node, name) for node in nodes for name in computed_at(grammar, node)]
    if sorted((id(node), name) for node, name in order) != sorted((id(node), name) for node, name in wanted):
        return False
    orders = Orders(grammar, stages, nodes)
    return not any(orders.precedes(later, earlier) for earlier, later in itertools.combinations(order, 2))


def computed_at(grammar, node):
    it = grammar.classes[node.name]
    of = grammar.interfaces[it["of"]]
    return [*of["inh"], *of["syn"], *it["local"]]


# ---- what is printed


def is_example(grammar, root, stages, pair, size, told):
    """Why what is printed is no example of the pair, or none."""
    lines = told.splitlines()
    if len(lines) < 3 or not lines[0].startswith("reader ") or not lines[1].startswith("writer "):
        return "no example is printed"
    tree = document(Tokens(lines[2]))
    if not is_of(grammar, tree, root) or text_of(grammar, tree) != lines[2]:
        return "the tree is none of the grammar"
    nodes = preorder(tree, grammar, [])
    if len(nodes) != size if size else len(nodes) <= MOST:
        return f"the tree has {len(nodes)} nodes"
    order = [instance_at(nodes, line) for line in lines[3:]]
    reader, writer = (instance_at(nodes, line[7:]) for line in lines[:2])
    if (reader, writer) not in list(shown_by(grammar, nodes, pair)):
        return "the instances don't show the pair"
    if not is_legal(grammar, stages, nodes, order):
        return "the order is not allowed"
    return None if order.index(reader) <= order.index(writer) else "the reader stands after the writer"


def instance_at(nodes, line):
    number, name = line.split(" ")
    return nodes[int(number)], name


def why_wrong(grammar, root, stages, status, told):
    """Why what is printed is wrong, or none, and what kind of page it is."""
    pair = first_pair(grammar, stages)
    if pair is None:
        return (None if (status, told) == (0, "accepted\n") else "the schedule is accepted"), "accepted"
    size, is_whole = least_size(grammar, root, pair)
    if status != 0:
        return "a pair is not ordered", "a pair"
    if told in ("no tree shows the pair\n", "each tree that shows the pair has more than 512 nodes\n"):
        return (f"a tree of {size} nodes shows the pair" if size else None), "no small tree"
    if not is_whole:
        return None, "too many trees"
    return is_example(grammar, root, stages, pair, size, told), f"least tree of {size or 'more than six'} nodes"


def drawn_grammar(draw):
    """The text of a grammar, in which some interfaces may have no class without children, or no class at all."""
    drawn = Drawn(draw)
    for name in [it for it in drawn.classes if it.endswith("leaf")]:
        if draw.random() < 0.25:
            del drawn.classes[name], drawn.rules[name]
    return drawn.text()


def compare(count, seed, program):
    kinds, differ = collections.Counter(), 0
    for number in range(count):
        draw = random.Random(f"{seed}/{number}")
        text = drawn_grammar(draw)
        grammar = Grammar(text)
        stages = drawn_schedule(draw, grammar)
        page = f"%page 1\n%grammar\n{text}%schedule\n{schedule_text(stages)}"
        run = subprocess.run([program, "explain"], input=page.encode(), stdout=subprocess.PIPE)
        told = run.stdout.decode()
        why, kind = why_wrong(grammar, "R", stages, run.returncode, told)
        kinds[kind] += 1
        if why:
            differ += 1
            print(f"page {number} of seed {seed}, {why}:\n{page}printed, with status {run.returncode}:\n{told}")
    print(", ".join(f"{kinds[it]} with {it}" for it in sorted(kinds)), f"of {count} pages; {differ} differ")
    sys.exit(differ > 0)


def main():
    words = sys.argv[1:]
    if words[:1] != ["random"]:
        sys.exit(__doc__)
    compare(int((words[1:2] or ["1000"])[0]), (words[2:3] or ["0"])[0], program_at(4))


if __name__ == "__main__":
    main()
