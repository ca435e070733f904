#!/usr/bin/env python3
"""Tries must-fail edits that stand beside the gate, in bench/edits/CRATE, as `rt ci` tries those that stand in
crates/CRATE/must-fail: in a clone of what is committed, where the crate has them in place of its own. Whoever changes a
crate runs it for that crate. Prints what `rt must-fail` says of each edit, and ends with status 0 only if each was
refused.

usage: bench/edits.py CRATE [NAME..]   all edits of the crate that stand beside the gate, or these, wherever they stand
       bench/edits.py                 how many edits of each crate stand in the gate and beside it
       bench/edits.py --check         whether each edit can be applied, without any proof

A clone has what was proved here of the crates that the crate stands on; where nothing is kept of them, they are proved
first. An edit is a file NAME.edit; how it is written is in the kit's first page, which `rt doc` names.
"""
import os
import re
import shutil
import subprocess
import sys
import tempfile

TOP = os.path.dirname(os.path.dirname(os.path.abspath(__file__)))
MOST = 120  # how many edits may stand in the gate


def crates():
    """The crates in the order of crates.txt, each with those that its line names."""
    with open(os.path.join(TOP, "crates.txt")) as listed:
        lines = [line.split("#")[0] for line in listed]
    heads = [line.partition(":") for line in lines if ":" in line]
    return {head.split()[0]: below.split() for head, _, below in heads}


def stands_on(crate, lines):
    """The crates of the repository that a crate stands on, those far below too."""
    found, waiting = [], [crate]
    while waiting:
        for below in lines[waiting.pop()]:
            if below in lines and below not in found:
                found.append(below)
                waiting.append(below)
    return found


def in_gate(crate):
    """The folder of the edits that the gate tries."""
    return os.path.join(TOP, "crates", crate, "must-fail")


def beside(crate):
    """The folder of those that it doesn't."""
    return os.path.join(TOP, "bench", "edits", crate)


def edits_in(folder):
    """The edits of a folder by name."""
    names = sorted(os.listdir(folder)) if os.path.isdir(folder) else []
    return {name[:-5]: os.path.join(folder, name) for name in names if name.endswith(".edit")}


def changed(edit, crate):
    """The texts of the crate's files that an edit changes, by their paths; or why it can't be applied, as a string."""
    path, old, texts = None, None, {}
    with open(edit, encoding="utf-8") as lines:
        for line in lines.read().split("\n"):
            word, _, rest = line.partition(":")
            if word == "file":
                path = rest.strip()
                if os.path.normpath(path) != path or not path.startswith(("src/", "specs/", "proofs/")):
                    return f"{path} is no file of src, specs or proofs"
            elif word == "old":
                old = rest.removeprefix(" ")
            elif word == "new":
                if not path or not old:
                    return "a line 'new:' has no file or no text before it"
                why = replaced(texts, os.path.join(TOP, "crates", crate), path, old, rest.removeprefix(" "))
                if why:
                    return why
                old = None
    return texts or "it changes nothing"


def replaced(texts, folder, path, old, new):
    """Puts a text in place of another that stands once in a file. Says why it can't, where it can't."""
    if path not in texts:
        file = os.path.join(folder, path)
        if not os.path.isfile(file):
            return f"there is no file {path}"
        with open(file, encoding="utf-8") as it:
            texts[path] = it.read()
    count = texts[path].count(old)
    if count != 1:
        return f"a text stands {count} times in {path}: {old}"
    texts[path] = texts[path].replace(old, new)
    return None


def check(lines):
    """Prints what stands against any edit, and how many there are. Whether there is nothing against any."""
    told, counts = [], [0, 0]
    for crate in lines:
        both = edits_in(in_gate(crate)), edits_in(beside(crate))
        told += [f"{crate} {name}: it stands in the gate and beside it" for name in both[0] if name in both[1]]
        for place, edits in enumerate(both):
            counts[place] += len(edits)
            reasons = [(name, changed(edit, crate)) for name, edit in edits.items()]
            told += [f"{crate} {name}: {why}" for name, why in reasons if isinstance(why, str)]
    folder = os.path.join(TOP, "bench", "edits")
    strange = [crate for crate in sorted(os.listdir(folder)) if crate not in lines] if os.path.isdir(folder) else []
    told += [f"{crate}: no such crate" for crate in strange]
    if counts[0] > MOST:
        told.append(f"{counts[0]} edits stand in the gate, where {MOST} may")
    for line in told:
        print(line)
    print(f"{counts[0]} edits in the gate, {counts[1]} beside it, {len(told)} faults")
    return not told


def show(lines):
    """Prints how many edits each crate has."""
    for crate in lines:
        counts = len(edits_in(in_gate(crate))), len(edits_in(beside(crate)))
        if any(counts):
            print(f"{crate:22} {counts[0]:3} in the gate, {counts[1]:3} beside it")


def cloned(folder, kept):
    """A clone of what is committed, in a folder, with what is kept of these crates."""
    subprocess.run(["git", "clone", "--quiet", "--shared", TOP, folder], check=True)
    for crate in kept:
        copy_kept(crate, folder)
    return folder


def copy_kept(crate, clone):
    """Copies what is kept of a crate into a clone, where anything is."""
    out = os.path.join(TOP, "crates", crate, "out")
    if os.path.isdir(out):
        subprocess.run(["cp", "-a", "--reflink=auto", out, os.path.join(clone, "crates", crate)], check=True)


def tried(clone, crate, edits):
    """Tries edits of a crate in a clone, in place of those that stand there. The lines that `rt` prints of them, and
    whether each was refused."""
    folder = os.path.join(clone, "crates", crate, "must-fail")
    shutil.rmtree(folder, ignore_errors=True)
    os.makedirs(folder)
    for edit in edits:
        shutil.copy(edit, folder)
    words = ["rt", "must-fail", crate]
    ran = subprocess.run(words, cwd=clone, stdout=subprocess.PIPE, stderr=subprocess.STDOUT, text=True)
    refused = len(re.findall(r"^rt: must-fail \S+: refused, as it must be", ran.stdout, re.M))
    return ran.stdout, ran.returncode == 0 and refused == len(edits)


def chosen(crate, names):
    """The files of these edits of a crate, or of all that stand beside the gate."""
    if not names:
        return list(edits_in(beside(crate)).values())
    found = {**edits_in(in_gate(crate)), **edits_in(beside(crate))}
    unknown = [name for name in names if name not in found]
    if unknown:
        sys.exit(f"{crate} has no edit {' '.join(unknown)}")
    return [found[name] for name in names]


def main():
    lines, words = crates(), sys.argv[1:]
    if not words:
        return show(lines)
    if words == ["--check"]:
        sys.exit(0 if check(lines) else 1)
    crate, names = words[0], [name.removesuffix(".edit") for name in words[1:]]
    if crate not in lines:
        sys.exit(f"{crate} is no crate of crates.txt")
    edits = chosen(crate, names)
    if not edits:
        sys.exit(f"{crate} has no edits beside the gate")
    with tempfile.TemporaryDirectory() as folder:
        told, refused = tried(cloned(os.path.join(folder, "clone"), stands_on(crate, lines)), crate, edits)
    print("\n".join(line for line in told.splitlines() if line.startswith("rt: must-fail ") or not refused))
    sys.exit(0 if refused else 1)


if __name__ == "__main__":
    main()
