#!/usr/bin/env python3
"""Tells what pages cost that were made to cost much: the processor time and the peak memory of runs on pages of 64, 128
and 256 KiB, half of them a rule and half of them nodes at which it runs. A page may cost no more than its size says:
the script fails where a page four times as long takes much more than four times as much of either. The least of several
runs counts. Then looks at the memory of an answer that is much longer than its page, and runs pages as deep as they may
be with as much stack as the README says, and fails where one of these ends otherwise.

usage: bench/hostile.py [RUNS [PROGRAM]]     3 runs, and the proved program, which ./prove builds, if left out
"""
import os
import resource
import subprocess
import sys
import tempfile

import large_pages  # noqa: F401, for what it sets
from program import program_at

SIZES = [64, 128, 256]  # KiB
MOST_TIMES = 1.6 * SIZES[-1] / SIZES[0]  # a cost that grows with the square is 16 times as much
LEAST_SECONDS = 0.02  # less than this is the start of the program
STATUSES = [0, 8]  # solved, and solved with Overflow in what is shown
STACK = 320  # KiB, as the README says
MOST_BYTES = 1.3  # of memory for each byte of a long answer
COMMANDS = ["run", "check", "schedule", "explain", "demand", "edit"]

HEAD = "%page 1\n%grammar\nroot Box;\n"
BOXES = "interface Box { syn s; show s; }\n"


def repeated(first, again, length):
    """A text of about this length: the first, and then the other again and again."""
    return first + again * max(0, (length - len(first)) // len(again))


def nodes(length):
    """Kids without kids, of about this length."""
    return "N{} " * (length // 4)


def page_of(classes, document):
    return f"{HEAD}{classes}%schedule auto\n%document\n{document}\n"


def boxes(rule, kids):
    """A page whose nodes but the first each have this rule."""
    top = "class Top : Box { kids : [Box]; self.s := 0; }\n"
    return page_of(f"{BOXES}{top}class N : Box {{ {rule} }}\n", f"Top {{ kids = [ {kids}] }}")


def in_a_rule(half):
    return boxes(f"self.s := {repeated('1', '+1', half)};", nodes(half))


def before_a_sign(half):
    return boxes(f"self.s := -({repeated('1', '-1', half)});", nodes(half))


def out_of_range(half):
    return boxes(f"self.s := {repeated('2147483647+1', '+1', half)};", nodes(half))


def in_a_condition(half):
    return boxes(f"self.s := if {repeated('1', '+1', half)} > 2 then 1 else 0;", nodes(half))


def in_conditions(half):
    return boxes(f"self.s := if {repeated('1>2', '||1>2', half)} then 1 else 0;", nodes(half))


def in_a_step(half):
    """Constants in the step of a fold, which runs at each kid."""
    classes = f"{BOXES}class N : Box {{ self.s := 1; }}\n"
    step = f"acc + ({repeated('1', '+1', half)})"
    top = f"class Top : Box {{ kids : [Box]; self.s := fold kids from 0 with {step}; }}\n"
    return page_of(classes + top, f"Top {{ kids = [ {nodes(half)}] }}")


def empty_passes(half):
    """Passes whose lists are empty but that of the first, each of 64 bytes: at most as many as a schedule may have."""
    page = boxes("self.s := 1;", nodes(half))
    lists = ["bottomup { Box.s }"] + [f"topdown {{{' ' * 51}}}"] * (half // 64 - 1)
    return page.replace("%schedule auto", "%schedule\n" + " ; ".join(lists))


def at_one_node(half, kind):
    """Passes of a kind, each with an attribute that one node alone has, as many as attributes allow."""
    names = [f"a{number}" for number in range(min(2000, half // 50))]
    groups = [names[first : first + 60] for first in range(0, len(names), 60)]
    classes = ""
    for number, group in enumerate(groups):
        rules = "".join(f"self.{name} := 1; " for name in group)
        classes += f"class K{number} : Box {{ local {', '.join(group)}; {rules}self.s := 1; }}\n"
    kids = "".join(f"K{number}{{}} " for number in range(len(groups)))
    lists = [f"{kind} {{ K{number}.{name} }}" for number, group in enumerate(groups) for name in group]
    page = boxes("self.s := 1;", kids + nodes(half)).replace("class N :", f"{classes}class N :")
    return page.replace("%schedule auto", "%schedule\n" + " ; ".join(lists + ["bottomup { Box.s }"]))


def topdown_at_one_node(half):
    return at_one_node(half, "topdown")


def bottomup_at_one_node(half):
    return at_one_node(half, "bottomup")


def inorder_at_one_node(half):
    return at_one_node(half, "inorder")


def behind_empty_lasts(half):
    """Reads behind those of the last kid where there is none, as many as a rule may have."""
    reads = "self.d" + "+(last kids.s or 1)+self.d" * 127
    top = "class Top : Page { kids : [Box]; kids.d := 0; }\n"
    interfaces = f"interface Page {{ }}\ninterface Box {{ inh d; syn s; show s; }}\n{top}"
    rules = f"class N : Box {{ kids : [Box]; kids.d := 0; self.s := {reads}; }}\n"
    page = page_of(interfaces + rules, f"Top {{ kids = [ {'N{kids=[]} ' * (2 * half // 11)}] }}")
    return page.replace("root Box;", "root Page;")


SHAPES = {
    "constants in a rule": in_a_rule,
    "constants before a sign": before_a_sign,
    "constants out of range": out_of_range,
    "constants in a condition": in_a_condition,
    "conditions of constants": in_conditions,
    "constants in a fold's step": in_a_step,
    "reads behind empty lasts": behind_empty_lasts,
    "empty passes": empty_passes,
    "topdown passes at one node": topdown_at_one_node,
    "bottomup passes at one node": bottomup_at_one_node,
    "inorder passes at one node": inorder_at_one_node,
}

# These are run by several workers, too.
OF_PASSES = [name for name in SHAPES if "passes" in name]
SEVERAL = ["--workers", "4"]


def deep_document():
    rule = "self.s := last kids.s or 1;"
    return page_of(f"{BOXES}class N : Box {{ kids : [Box]; {rule} }}\n", "N { kids = [ " * 512 + "] }" * 512)


def deep_out_of_order():
    """The same with the fields of each node in another order than in its class."""
    rules = "input a; kids : [Box]; self.s := last kids.s or self.a;"
    return page_of(f"{BOXES}class N : Box {{ {rules} }}\n", "N { kids = [ " * 512 + "] a = 1 }" * 512)


def deep_grammar():
    """As many brackets as may be open, with all that may stand between two of them."""
    value = "last kids.s or (if " * 64 + "1" + " < 2 then 1 else 2)" * 64
    return page_of(f"{BOXES}class N : Box {{ kids : [Box]; self.s := {value}; }}\n", "N { kids = [ ] }")


def long_name():
    """Many nodes that show an attribute of a long name, so that the boxes are much longer than the page."""
    name = "s" * 32_000
    top = f"class Top : Box {{ kids : [Box]; self.{name} := 0; }}\n"
    classes = f"interface Box {{ syn {name}; show {name}; }}\n{top}class N : Box {{ self.{name} := 1; }}\n"
    return page_of(classes, f"Top {{ kids = [ {nodes(32_000)}] }}")


def text_is_kept_once(program):
    """Whether a run takes no more memory than it may for each byte that it writes."""
    with tempfile.TemporaryFile() as source, tempfile.TemporaryFile() as sink:
        source.write(long_name().encode())
        source.seek(0)
        with subprocess.Popen([program, "run"], stdin=source, stdout=sink) as started:
            _, _, used = os.wait4(started.pid, 0)
            started.returncode = 0
        written = sink.seek(0, os.SEEK_END)
    print(f"{'long name':28}{written / 1e6:8.0f} MB written {used.ru_maxrss * 1024 / 1e6:6.0f} MB", flush=True)
    return used.ru_maxrss * 1024 <= MOST_BYTES * written


def with_little_stack():
    resource.setrlimit(resource.RLIMIT_STACK, (STACK * 1024, STACK * 1024))


def stacks_suffice(program):
    """Whether each command ends as it should on the deepest pages with so much stack."""
    for page in [deep_document(), deep_out_of_order(), deep_grammar()]:
        for command in COMMANDS:
            given = {"input": f"{page}%edits\n".encode(), "stdout": subprocess.DEVNULL, "env": {}}
            ended = subprocess.run([program, command], preexec_fn=with_little_stack, check=False, **given)
            if ended.returncode != 0:
                print(f"{command} ended with {ended.returncode} with {STACK} KiB of stack")
                return False
    return True


def cost(program, options, page):
    """The processor seconds and the megabytes of a run."""
    with tempfile.TemporaryFile() as source:
        source.write(page.encode())
        source.seek(0)
        child = subprocess.Popen([program, "run", *options], stdin=source, stdout=subprocess.DEVNULL)
        _, status, usage = os.wait4(child.pid, 0)
    if os.waitstatus_to_exitcode(status) not in STATUSES:
        sys.exit(f"{program} ended with status {os.waitstatus_to_exitcode(status)}")
    return usage.ru_utime + usage.ru_stime, usage.ru_maxrss / 1024


def least_costs(program, options, shape, runs):
    """The least costs of a shape at each size."""
    told = []
    for size in SIZES:
        page = shape(size * 512)
        each = [cost(program, options, page) for _ in range(runs)]
        told.append((min(seconds for seconds, _ in each), min(memory for _, memory in each)))
    return told


def grows_too_fast(costs):
    """Whether the last page takes too many times as much as the first, of time or of memory."""
    (seconds, memory), (most_seconds, most_memory) = costs[0], costs[-1]
    return most_seconds > MOST_TIMES * max(seconds, LEAST_SECONDS) or most_memory > MOST_TIMES * memory


def main():
    runs = int(sys.argv[1]) if len(sys.argv) > 1 else 3
    program = program_at(2)
    print(f"{'':39}" + "".join(f"{size:8} KiB{'':9}" for size in SIZES))
    failed = []
    kinds = [(name, SHAPES[name], []) for name in SHAPES]
    kinds += [(f"{name}, 4 workers", SHAPES[name], SEVERAL) for name in OF_PASSES]
    for name, shape, options in kinds:
        costs = least_costs(program, options, shape, runs)
        if grows_too_fast(costs):
            failed.append(name)
        print(f"{name:39}" + "".join(f"{s:8.3f} s {m:6.0f} MB  " for s, m in costs), flush=True)
    if not text_is_kept_once(program):
        failed.append("memory of a long answer")
    if not stacks_suffice(program):
        failed.append("stack")
    if failed:
        sys.exit(f"more than it may be: {', '.join(failed)}")


if __name__ == "__main__":
    main()
