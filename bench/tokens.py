#!/usr/bin/env python3
"""Scans the tokens of documents of 0.6 and 6 MB, with an earlier build and with that of this checkout in turn, and prints
nanoseconds per byte of both and their ratio.

usage: bench/tokens.py EARLIER     EARLIER is a revision of git, which is built in a temporary folder, or the path of an
                                   earlier build of crates/ftl_tokens_bench/out/ftl_tokens_bench
"""
import os
import shutil
import subprocess
import sys
import tempfile

TOP = os.path.dirname(os.path.dirname(os.path.abspath(__file__)))
CRATE = "crates/ftl_tokens_bench"
PROGRAM = CRATE + "/out/ftl_tokens_bench"
SIZES = [600_000, 6_000_000]
TURNS = 5


def document(size):
    """A column of words."""
    front, back = "Sheet { body = Column { kids = [\n", "] } }\n"
    lines, length, count = [front], len(front), 0
    while length < size - len(back):
        lines.append(f"  Word {{ iw = {20 + count % 37} ih = {10 + count % 11} }}\n")
        length, count = length + len(lines[-1]), count + 1
    return ("".join(lines) + back).encode()


def built(revision, folder):
    """The program of this checkout over the crates of an earlier revision."""
    subprocess.run(["git", "worktree", "add", "--quiet", "--detach", folder, revision], cwd=TOP, check=True)
    if not os.path.isdir(os.path.join(folder, CRATE)):
        shutil.copytree(os.path.join(TOP, CRATE, "src"), os.path.join(folder, CRATE, "src"))
        with open(os.path.join(folder, "crates.txt"), "a") as crates:
            crates.write("ftl_tokens_bench: ftl_edge ftl_tokens\n")
    run = ["rt", "run"]
    subprocess.run(run, cwd=os.path.join(folder, CRATE), stdin=subprocess.DEVNULL, stdout=subprocess.DEVNULL, check=True)
    return os.path.join(folder, PROGRAM)


def nanoseconds(program, text):
    """The least of ten scans in one run."""
    words = subprocess.run([program, "time"], input=text, stdout=subprocess.PIPE, check=True).stdout.split()
    if words[2:] != [b"tokens"]:
        sys.exit(f"the program told {words}")
    return int(words[0])


def compare(earlier, now):
    print(f"{'bytes':>9} {'earlier ns/byte':>16} {'now ns/byte':>12} {'ratio':>6}")
    for size in SIZES:
        text = document(size)
        turns = [(nanoseconds(earlier, text), nanoseconds(now, text)) for _ in range(TURNS)]
        before, after = (min(times) / len(text) for times in zip(*turns))
        print(f"{len(text):9} {before:16.2f} {after:12.2f} {after / before:6.2f}")


def main():
    if len(sys.argv) != 2:
        sys.exit(__doc__)
    now = os.path.join(TOP, PROGRAM)
    if not os.path.exists(now):
        sys.exit(f"{now} is not built: run 'rt run' in {CRATE} once")
    if os.path.isfile(sys.argv[1]):
        return compare(sys.argv[1], now)
    with tempfile.TemporaryDirectory() as folder:
        checkout = os.path.join(folder, "earlier")
        try:
            compare(built(sys.argv[1], checkout), now)
        finally:
            subprocess.run(["git", "worktree", "remove", "--force", checkout], cwd=TOP, check=False)


if __name__ == "__main__":
    main()
