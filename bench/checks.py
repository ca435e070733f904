#!/usr/bin/env python3
"""Checks grammars at their limits and verifies a schedule of each: 128 classes of one interface, each with 79 rules of
256 reads, and grammars whose rules have more reads in all, up to a text of about 60 MiB. Prints the rules and reads, the
bytes of the text, the milliseconds of processor time of a `check` that ends with the schedule's first byte (reading and
checking the grammar), of the rest of a whole `check` (the table of reads, reading the schedule and verifying it), and the
nanoseconds of the rest for each read.

usage: bench/checks.py [PROGRAM]     PROGRAM is the proved one, which ./prove builds, if left out
"""
from program import program_at
from timing import processor_seconds

RUNS = 3
CLASSES = 128
OWN = 15


def sum_of(reads):
    return "+".join(reads) if reads else "0"


def earlier(names, place, reads, prefix):
    """So many reads of what stands before this place, over and over."""
    if place == 0:
        return []
    return [prefix + names[k % place] for k in range(reads)]


def wide(reads):
    """128 classes with 64 shared and 15 own attributes each, each of which reads those before it, and a child; and an
    interface of 64 inputs, so that there are 2048 attributes in all."""
    shared = [f"s{k}" for k in range(64)]
    own = [f"l{k}" for k in range(OWN)]
    names = own + shared
    rules = []
    for place, name in enumerate(names):
        below = [f"c.s{k % 64}" for k in range(reads // 2)]
        before = earlier(names, place, reads - reads // 2, "self.")
        rules.append(f"self.{name}:={sum_of(below + before)};")
    body = "\n".join(rules)
    classes = "".join(f"class C{n}:R{{local {','.join(own)}; c:R;\n{body}}}\n" for n in range(CLASSES))
    inputs = ",".join(f"i{k}" for k in range(64))
    text = f"root R; interface R {{ syn {','.join(shared)}; }} interface I {{ input {inputs}; }}\n{classes}"
    entries = " ".join([f"R.{name}" for name in shared])
    locals_ = " ".join(f"C{n}.{name}" for name in own for n in range(CLASSES))
    return text, f"bottomup {{ {locals_} {entries} }}", CLASSES * len(names)


def deep(children, rules_read):
    """128 classes with children, each of which gets 60 attributes from a sum of reads of the node's own."""
    names = [f"a{k}" for k in range(60)]
    one = "".join(f"class D{n}:K{{"
                  + "".join(f"c{m}:K;" for m in range(children))
                  + "".join(f"c{m}.{name}:={sum_of(['self.' + name] * rules_read)};"
                            for m in range(children) for name in names)
                  + "}\n" for n in range(CLASSES - 1))
    top = "class C:R{k:K;" + "".join(f"k.{name}:=1;" for name in names) + "}\n"
    text = f"root R; interface R {{ }} interface K {{ inh {','.join(names)}; }}\n{top}{one}"
    entries = " ".join(f"K.{name}" for name in names)
    return text, f"topdown {{ {entries} }}", (CLASSES - 1) * children * len(names)


def main():
    program = program_at(1)
    print(f"{'grammar':24} {'rules':>7} {'reads':>9} {'bytes':>9} {'grammar':>8} {'rest':>8} {'ns/read':>8}")
    grammars = [("wide, 32 reads a rule", wide(32), 32), ("wide, 256 reads a rule", wide(256), 256),
                ("16 children, 1 read", deep(16, 1), 1), ("16 children, 50 reads", deep(16, 50), 50)]
    for name, (text, schedule, rules), reads in grammars:
        grammar = processor_seconds([program, "check"], f"%page 1\n%grammar\n{text}%schedule\n}}\n", (6,), RUNS)
        rest = processor_seconds([program, "check"], f"%page 1\n%grammar\n{text}%schedule\n{schedule}\n", (0,), RUNS) - grammar
        each = rest * 1e9 / (rules * reads)
        print(f"{name:24} {rules:7} {rules * reads:9} {len(text):9} {grammar * 1e3:8.1f} {rest * 1e3:8.1f} {each:8.1f}")


if __name__ == "__main__":
    main()
