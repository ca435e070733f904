#!/usr/bin/env python3
"""Finds the automatic schedule of grammars of 256 to 2048 computed attributes: of one pass, of one pass with many reads,
and of as many passes as attributes. Prints the milliseconds of processor time that `check` takes for it (the table of
reads counted, reading and checking the grammar left out), and the growth from size to size.

usage: bench/schedules.py [PROGRAM]     PROGRAM is the proved one, which ./prove builds, if left out
"""
from program import program_at
from timing import processor_seconds

RUNS = 5
HELD = 64  # attributes of an interface


def one_pass(count, reads):
    """Synthesized attributes alone, each of which reads so many of those before it, and one of a child."""
    text = ["root I0;"]
    for n in range(count // HELD):
        text.append(f"interface I{n} {{ syn {','.join(f'a{k}' for k in range(HELD))}; }}")
    for n in range(count // HELD):
        last = n + 1 == count // HELD
        rules = []
        for k in range(HELD):
            own = [f"self.a{j}" for j in range(max(0, k - reads), k)]
            below = [] if last else [f"d.a{HELD - 1 - k}"]
            rules.append(f"self.a{k} := {' + '.join(own + below + ['c.a%d' % k])};")
        text.append(f"class C{n} : I{n} {{ c : I{n}; {'' if last else f'd : I{n + 1};'} {' '.join(rules)} }}")
    return "\n".join(text) + "\n"


def one_each(count):
    """A chain of attributes, in turn of those that read themselves at the parent, so that only a topdown pass may have
    them, and of those that read themselves at a child, so that only a bottomup pass may."""
    text = ["root R;", "interface R { }"]
    inherited = [f"a{k}" for k in range(0, HELD, 2)]
    synthesized = [f"a{k}" for k in range(1, HELD, 2)]
    for n in range(count // HELD):
        text.append(f"interface I{n} {{ inh {','.join(inherited)}; syn {','.join(synthesized)}; }}")
    text.append("class C : R { d : I0; " + " ".join(f"d.{a} := 0;" for a in inherited) + " }")
    for n in range(count // HELD):
        rules = ["c.a0 := self.a0;"]
        rules += [f"c.a{k} := self.a{k} + self.a{k - 1};" for k in range(2, HELD, 2)]
        rules += [f"self.a{k} := c.a{k} + self.a{k - 1};" for k in range(1, HELD, 2)]
        below = ""
        if n + 1 < count // HELD:
            below = f"d : I{n + 1};"
            rules += [f"d.a0 := self.a{HELD - 1};"] + [f"d.{a} := 0;" for a in inherited[1:]]
        text.append(f"class C{n} : I{n} {{ c : I{n}; {below} {' '.join(rules)} }}")
    return "\n".join(text) + "\n"


def run(program, text):
    """The seconds of finding the schedule: of a whole `check`, less one whose schedule is refused at its first byte."""
    grammar = processor_seconds([program, "check"], f"%page 1\n%grammar\n{text}%schedule\n}}\n", (6,), RUNS)
    return processor_seconds([program, "check"], f"%page 1\n%grammar\n{text}%schedule auto\n", (0,), RUNS) - grammar


def main():
    program = program_at(1)
    print(f"{'grammar':32} {'attributes':>10} {'ms':>9} {'growth':>7}")
    grammars = [("one pass, 1 read beside", lambda n: one_pass(n, 1)), ("one pass, 63 reads beside", lambda n: one_pass(n, 63)),
                ("as many passes as attributes", one_each)]
    for name, make in grammars:
        before = None
        for count in (256, 512, 1024, 2048):
            time = run(program, make(count))
            growth = f"{time / before:7.2f}" if before else ""
            print(f"{name:32} {count:10} {time * 1e3:9.2f} {growth:>7}")
            before = time


if __name__ == "__main__":
    main()
