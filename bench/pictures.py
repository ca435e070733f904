#!/usr/bin/env python3
"""Draws the pages of `pages/` that lay out, each into the file of its name in `docs/pictures/`, with a label in each box.

usage: bench/pictures.py [--check] [SHOW]
       --check draws nothing, and fails where a picture is missing, is of no page, or differs from what would be drawn;
       SHOW is the proved program, crates/ftl_show/out/ftl_show, if left out
"""
import glob
import os
import subprocess
import sys

TOP = os.path.dirname(os.path.dirname(os.path.abspath(__file__)))
PICTURES = f"{TOP}/docs/pictures"
# Where a page is laid out, as docs/SHOW.md has the statuses.
LAID_OUT = (0, 8)


def drawn(show):
    """The pictures by their files, in the order of the pages' names."""
    pictures = {}
    for page in sorted(glob.glob("*.page", root_dir=f"{TOP}/pages") + glob.glob("guide/*.page", root_dir=f"{TOP}/pages")):
        run = subprocess.run([show, "--svg", "--names", f"{TOP}/pages/{page}"], capture_output=True)
        if run.returncode in LAID_OUT:
            pictures[f"{PICTURES}/{page.removesuffix('.page')}.svg"] = run.stdout
    return pictures


def wrong_ones(pictures):
    """What is wrong with the pictures that are there, a line each."""
    for file in sorted(glob.glob(f"{PICTURES}/**/*.svg", recursive=True)):
        if file not in pictures:
            yield f"{file}: no page has this picture"
    for file, text in pictures.items():
        try:
            with open(file, "rb") as it:
                if it.read() != text:
                    yield f"{file}: differs from what is drawn"
        except FileNotFoundError:
            yield f"{file}: is missing"


def draw(pictures):
    for file, text in pictures.items():
        os.makedirs(os.path.dirname(file), exist_ok=True)
        with open(file, "wb") as it:
            it.write(text)


def main():
    words = sys.argv[1:]
    checks = "--check" in words
    named = [it for it in words if it != "--check"]
    pictures = drawn(named[0] if named else f"{TOP}/crates/ftl_show/out/ftl_show")
    if not checks:
        draw(pictures)
        print(f"{len(pictures)} pictures drawn")
        return 0
    wrong = list(wrong_ones(pictures))
    print("\n".join([*wrong, f"{len(pictures)} pictures, {len(wrong)} wrong"]))
    return 1 if wrong else 0


if __name__ == "__main__":
    sys.exit(main())
