#!/usr/bin/env python3
"""Holds the command `edit` against a plain program that lays out a page before and after its edits and compares what
each rule reads, and measures how long laying out anew takes.

usage: bench/relayout.py random [COUNT [SEED [PROGRAM]]]   tells where they differ on so many random pages with random
                                                           edits, 500 if left out; a third are samples of the shipped
                                                           grammars
       bench/relayout.py times [PROGRAM]                   for 200 changes of one input each, at the front, in the middle
                                                           and at the end of samples of 20,000 and 200,000 pieces, and
                                                           for one change that touches all kids of a list: how many
                                                           instances are touched, microseconds of processor time for each
                                                           change and for each touched instance, and how many times as
                                                           long as all these changes laying out from nothing takes
       bench/relayout.py share [RUNS [PROGRAM]]            for 200 changes at the front of each sample and one that touches
                                                           a chain: how many times as long as laying out from nothing the
                                                           call takes, by the least and by the middle times of so many
                                                           runs, 15 if left out

All changes of a page are one call, so a change's time is a mean, and no call of one change is measured but the last two
rows. The time is that of a run with the changes, from the tables of the grammar to the boxes, less that of one without:
where few are touched on a large page it drowns in what other work moves, and may come out below 0.
PROGRAM is the proved one, which ./prove builds, if left out.
"""
import collections
import random
import re
import statistics
import subprocess
import sys
import tempfile
import threading

from demand import CHAIN, Drawn
from parts import PARTS, SIZES
from plain_layout import GRAMMARS, OVERFLOW, sample, shown, solved
from program import program_at
from stops import addresses, timed_calls

GREATEST = (1 << 31) - 1
RUNS = 9
CHANGES = 200
PLACES = ["front", "middle", "end"]
TIMED = {
    "tables": r"^ftl_step_value::limits::reads::tables::ReadTables::new",
    "shown": r"^ftl_run::calls::shown::change_shown",
    "plan": PARTS["plan"],
    "solve": PARTS["solve"],
}


# ---- what edits touch


def parts_of(solver, node, name):
    """The expressions of the rule of an attribute, each with the node and the kid that it is evaluated at."""
    it = solver.grammar.classes[node.name]
    if name in it["local"] or name in solver.grammar.interfaces[it["of"]]["syn"]:
        rule, owner, kid = it["rules"]["self", name], node, None
    else:
        owner, kid = node.parent, node
        rule = solver.grammar.classes[owner.name]["rules"][node.field, name]
    if rule[0] == "plain":
        return [(rule[1], owner, kid)]
    if rule[0] == "first":
        return [(rule[1 if kid.before is None else 2], owner, kid)]
    return [(rule[2], owner, None), *((rule[3], owner, each) for each in owner.children[rule[1]])]


def reads_of(e, node, kid):
    """What an expression reads, as nodes with attributes, whatever a choice comes to."""
    if e[0] in ("number", "acc"):
        return []
    if e[0] == "read":
        where = {"self": node, "this": kid, "prev": kid and kid.before}.get(e[1])
        return [(where or node.children[e[1]][0], e[2])]
    if e[0] == "last":
        kids = node.children[e[1]]
        return [*([(kids[-1], e[2])] if kids else []), *reads_of(e[3], node, kid)]
    return [it for part in e[1:] for it in reads_of(part, node, kid)]


def computed(grammar, node):
    it = grammar.classes[node.name]
    return [name for name in [*it["local"], *grammar.interfaces[it["of"]]["attributes"]] if name not in node.inputs]


def touched(before, after):
    """How many computed instances have a read with another value than before."""
    (_, olds, old), (grammar, news, new) = before, after
    twin = {id(node): olds[number] for number, node in enumerate(news)}

    def has_changed(read):
        return old.value(twin[id(read[0])], read[1]) != new.value(*read)

    def is_touched(node, name):
        return any(has_changed(read) for part in parts_of(new, node, name) for read in reads_of(*part))

    return sum(is_touched(node, name) for node in news for name in computed(grammar, node))


def wanted_of(page, edits):
    """What `edit` is to print, and its status."""
    before, after = solved(page), solved(page)
    for number, name, value in edits:
        after[1][number].inputs[name] = value
    lines, status = [], 0
    for number, node in enumerate(after[1]):
        values = [(it, after[2].value(node, it)) for it in shown(after[0], node)]
        status = 8 if any(value is OVERFLOW for _, value in values) else status
        told = [f"{it}={'overflow' if value is OVERFLOW else value}" for it, value in values]
        lines.append(" ".join([str(number), node.name, *told]) + "\n")
    return status, "".join(lines) + f"touched={touched(before, after)}\n"


# ---- random pages


def drawn_page(draw, number):
    if number % 3 == 0:
        return sample(draw.choice(GRAMMARS), draw.randint(1, 40))
    drawn = Drawn(draw)
    return f"%page 1\n%grammar\n{drawn.text()}%schedule auto\n%document\n{drawn.document('Top', 4)}\n"


def drawn_edits(draw, page):
    """Edits of some inputs, also of one twice, to what stands there, and to the ends of the range."""
    inputs = [(number, name, value) for number, node in enumerate(solved(page)[1]) for name, value in node.inputs.items()]
    edits = []
    for _ in range(draw.randint(0, 4) if inputs else 0):
        number, name, value = draw.choice(inputs)
        edits.append((number, name, draw.choice([value, value + 1, draw.randint(-5, 60), GREATEST, -GREATEST])))
    return edits


def compare(count, seed, program):
    kinds, differ = collections.Counter(), 0
    for number in range(count):
        draw = random.Random(f"{seed}/{number}")
        page = drawn_page(draw, number)
        if subprocess.run([program, "run"], input=page.encode(), stdout=subprocess.PIPE).returncode in (5, 6):
            kinds["without a schedule"] += 1
            continue
        edits = drawn_edits(draw, page)
        written = page + "%edits\n" + "".join(f"{node}.{name} = {value};\n" for node, name, value in edits)
        words = [program, "edit", "--workers", draw.choice(["1", "2", "4"]), "--grain", draw.choice(["1", "64"])]
        run = subprocess.run(words, input=written.encode(), stdout=subprocess.PIPE)
        wanted = wanted_of(page, edits)
        kinds["with nothing touched" if wanted[1].endswith("touched=0\n") else "with something touched"] += 1
        if (run.returncode, run.stdout.decode()) != wanted:
            differ += 1
            print(f"page {number} of seed {seed}:\n{written}printed, with status {run.returncode}:\n{run.stdout.decode()}wanted: {wanted}")
    print(", ".join(f"{kinds[it]} {it}" for it in kinds), f"of {count} pages; {differ} differ")
    sys.exit(differ > 0)


# ---- times


def first_inputs(page):
    """For each node with an input, in preorder, its number, the input's name and value."""
    text = page[page.index("%document") :]
    nodes = re.finditer(r"\w+ \{(?: (\w+) = (-?\d+))?", text)
    return [(number, it[1], int(it[2])) for number, it in enumerate(nodes) if it[1]]


def with_edits(page, edits):
    return page + "%edits\n" + "".join(f"{node}.{name} = {value + 1};\n" for node, name, value in edits)


def spent_by_run(program, page, functions, runs):
    """For each run the milliseconds from the tables of the grammar to the boxes, and of laying out from nothing."""
    with tempfile.NamedTemporaryFile("w") as file:
        file.write(page)
        file.flush()
        for _ in range(runs):
            calls = timed_calls(program, ["edit"], file.name, functions)
            ended = [until for name, _, until in calls if name == "tables"][-1]
            anew = next(began for name, began, _ in calls if name == "shown") - ended
            yield anew, sum(until - began for name, began, until in calls if name in ("plan", "solve"))


def spent(program, page, functions):
    """The least milliseconds of both."""
    anew, nothing = zip(*spent_by_run(program, page, functions, RUNS))
    return min(anew), min(nothing)


def row(program, functions, name, place, page, edits):
    written = with_edits(page, edits)
    told = subprocess.run([program, "edit"], input=written.encode(), stdout=subprocess.PIPE).stdout.decode()
    count = int(told.rsplit("=", 1)[1])
    (without, nothing), (changed, _) = spent(program, with_edits(page, []), functions), spent(program, written, functions)
    each = (changed - without) * 1000 / len(edits)
    of_one = each * len(edits) / count if count else 0
    print(f"{name:16} {place:7} {len(edits):8} {count:8} {each:10.2f} {of_one:10.2f} {nothing * 1000 / (each * len(edits)) if each else 0:10.2f}", flush=True)


def times(program):
    functions = addresses(program, TIMED)
    print(f"{'page':16} {'change':7} {'changes':>8} {'touched':>8} {'a change':>10} {'a touched':>10} {'less':>10}")
    for grammar in GRAMMARS:
        for size in SIZES:
            page = sample(grammar, size)
            found = [it for it in first_inputs(page) if it[1] in ("iw", "ih")]
            for place, at in zip(PLACES, [0, len(found) // 2, len(found) - CHANGES]):
                row(program, functions, f"{grammar} {size}", place, page, found[at : at + CHANGES])
    for kids in [1_000, 100_000]:
        row(program, functions, f"chain of {kids}", "front", chain(kids), [(1, "w", 1)])


def chain(kids):
    return f"%page 1\n%grammar\n{CHAIN}%schedule auto\n%document\nCol {{ kids = [\n" + "W { w = 1 }\n" * kids + "] }\n"


# ---- a change of all beside laying out from nothing


def share_row(program, functions, name, page, edits, runs):
    written = with_edits(page, edits)
    told = subprocess.run([program, "edit"], input=written.encode(), stdout=subprocess.PIPE).stdout.decode()
    # The runs of both pages go in turns.
    both = zip(
        spent_by_run(program, with_edits(page, []), functions, runs), spent_by_run(program, written, functions, runs)
    )
    without, changed, nothing = zip(*((before[0], after[0], min(before[1], after[1])) for before, after in both))
    least = (min(changed) - min(without)) / min(nothing)
    middle = (statistics.median(changed) - statistics.median(without)) / statistics.median(nothing)
    print(f"{name:16} {told.rsplit('=', 1)[1].strip():>8} {least:10.2f} {middle:10.2f}", flush=True)


def share(runs, program):
    functions = addresses(program, TIMED)
    print(f"{'page':16} {'touched':>8} {'least':>10} {'middle':>10}")
    for grammar in GRAMMARS:
        for size in SIZES:
            page = sample(grammar, size)
            found = [it for it in first_inputs(page) if it[1] in ("iw", "ih")]
            share_row(program, functions, f"{grammar} {size}", page, found[:CHANGES], runs)
    share_row(program, functions, "chain of 100000", chain(100_000), [(1, "w", 1)], runs)


def main():
    words = sys.argv[1:]
    if words[:1] == ["random"]:
        count, seed = int(words[1]) if len(words) > 1 else 500, words[2] if len(words) > 2 else "1"
        compare(count, seed, program_at(4))
    elif words[:1] == ["times"]:
        times(program_at(2))
    elif words[:1] == ["share"]:
        share(int(words[1]) if len(words) > 1 else 15, program_at(3))
    else:
        sys.exit(__doc__)


if __name__ == "__main__":
    # An attribute is evaluated below those that read it, as deep as the page has kids.
    sys.setrecursionlimit(1 << 30)
    threading.stack_size(1 << 30)
    thread = threading.Thread(target=main)
    thread.start()
    thread.join()
