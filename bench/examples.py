#!/usr/bin/env python3
"""Builds and runs the programs of examples/ over the static library for C, and holds the header against its exports.

usage: bench/examples.py [PROGRAM]      prints a line for each check, and ends with status 1 at the first that fails.
                                        Wants crates/maugzeris_c/out/libmaugzeris_c.a, which `rt lib` in that folder
                                        builds, and cc, c++, valgrind and cargo. Pages are held against PROGRAM, which
                                        is the proved one if that was built, and else ./layout
"""
import os
import re
import resource
import shutil
import subprocess
import sys
import tempfile

from plain_layout import shipped

TOP = os.path.dirname(os.path.dirname(os.path.abspath(__file__)))
CRATE = os.path.join(TOP, "crates/maugzeris_c")
LIBRARY = os.path.join(CRATE, "out/libmaugzeris_c.a")
HEADER = os.path.join(CRATE, "include/maugzeris.h")
KIT = os.path.join(os.path.dirname(os.path.dirname(os.path.realpath(shutil.which("rattle") or "/opt/rattle/bin/rt"))), "c")
HEAP = os.path.join(KIT, "liblibc_c.a")
STRICT = ["-Wall", "-Wextra", "-Werror"]
PROVED = os.path.join(TOP, "crates/ftl_layout/out/ftl_layout")
TOOLBAR = "0 Bar w=60 h=18\n1 Button x=0 y=0 w=38 h=14\n2 Button x=40 y=0 w=20 h=18\n"
WIDER = "0 Bar w=70 h=18\n1 Button x=0 y=0 w=48 h=14\n2 Button x=50 y=0 w=20 h=18\n"
RELAYOUTS = 10000
# frees a context that has rules, which stay and then can't be reached
LOSES = ["statuses"]
# what a parameter is in C, without names
IN_C = {
    "&mut Held": ["struct maugzeris_context *"],
    "u32": ["uint32_t"],
    "i64": ["int64_t"],
    "bool": ["bool"],
    "&[u8]": ["const uint8_t *", "size_t"],
    "&mut [u8]": ["uint8_t *", "size_t"],
    "&mut [u32]": ["uint32_t *", "size_t"],
    "&mut u32": ["uint32_t *"],
    "&mut i64": ["int64_t *"],
    "&mut usize": ["size_t *"],
}


def run(*words, **how):
    done = subprocess.run(words, capture_output=True, text=True, **how)
    if done.returncode != 0:
        sys.exit(f"{' '.join(words)} ended with status {done.returncode}\n{done.stdout}{done.stderr}")
    return done.stdout


def expect(what, holds):
    print(f"{'ok' if holds else 'FAILED'}: {what}", flush=True)
    if not holds:
        sys.exit(1)


# ---- the header


def declared():
    """The calls that the header declares, each with the types of its parameters."""
    with open(HEADER) as file:
        calls = re.findall(r"^uint32_t (maugzeris_\w+)\(([^)]*)\);", file.read(), re.M)
    return {name: [re.sub(r"\w+$", "", " ".join(it.split())).strip() for it in parameters.split(",")] for name, parameters in calls}


def written():
    """The calls of the source, each with what its parameters are in C."""
    found = {}
    for name in os.listdir(os.path.join(CRATE, "src/calls")):
        with open(os.path.join(CRATE, "src/calls", name)) as file:
            calls = re.findall(r'extern "C" fn (maugzeris_\w+)\(([^)]*)\) -> u32', file.read())
        for call, parameters in calls:
            types = [it.split(":")[1].strip() for it in parameters.split(",") if it.strip()]
            found[call] = [it for of in types if of != "Global" for it in IN_C[of]]
    return found


def exported():
    return {line.split()[2] for line in run("nm", "-g", "--defined-only", LIBRARY).splitlines() if " T maugzeris_" in line}


def header(folder):
    expect("the library exports just the calls that the header declares", set(declared()) == exported())
    expect("their parameters are those of the source", declared() == written())
    for name, words in {"C": ["cc", "-std=c11", "-x", "c"], "C++": ["c++", "-std=c++11", "-x", "c++"]}.items():
        run(*words, *STRICT, "-pedantic", "-fsyntax-only", HEADER)
        expect(f"the header compiles as {name}", True)


# ---- C


def compiled(folder, name, *words):
    """A program of examples/c, compiled and linked."""
    path = os.path.join(folder, name + "".join(words).replace("/", "").replace(",", ""))
    source = os.path.join(TOP, "examples/c", name + ".c")
    run("cc", "-std=c11", *STRICT, "-O1", "-g", "-pthread", *words, source, LIBRARY, HEAP, "-o", path)
    return path


def c_programs(folder):
    """Each program alone, under valgrind, and with the address sanitizer."""
    wrapped = ["-Wl,--wrap=malloc", "-Wl,--wrap=realloc"]
    for name, more in {"toolbar": [], "statuses": [], "refused_memory": wrapped, "threads": []}.items():
        plain = compiled(folder, name, *more)
        text = run(plain)
        expect(f"{name}.c: {text.splitlines()[-1]}" if name != "toolbar" else "toolbar.c runs", True)
        if name == "toolbar":
            expect("toolbar.c prints the boxes of README.md, and a wider bar after the change",
                   text.startswith(TOOLBAR) and text.endswith(WIDER) and text.count("touched") == 1)
        leaks, detected = ("no", "0") if name in LOSES else ("full", "1")
        run("valgrind", "-q", f"--leak-check={leaks}", "--error-exitcode=9", plain)
        expect(f"{name}.c: valgrind reports nothing", True)
        checked = compiled(folder, name, "-fsanitize=address", *more)
        how = {**os.environ, "ASAN_OPTIONS": f"detect_leaks={detected}"}
        expect(f"{name}.c: the address sanitizer reports nothing", run(checked, env=how) == text)
    run(compiled(folder, "threads", "-fsanitize=thread"))
    expect("threads.c: the thread sanitizer reports nothing", True)


# ---- Python


def texts_of(path):
    """The grammar, the schedule or None for the automatic one, the document, and whether values are wide, of a page that
    has all of them."""
    with open(path, encoding="utf-8", errors="replace", newline="") as file:
        parts = re.split(r"^%(\w+)(.*)\n", file.read(), flags=re.M)
    found = {parts[k]: (parts[k + 1].strip(), parts[k + 2]) for k in range(1, len(parts), 3)}
    if any(name not in found for name in ("page", "grammar", "schedule", "document")):
        return None
    named, grammar = found["grammar"]
    automatic, schedule = found["schedule"]
    return (shipped(named) if named else grammar, None if automatic == "auto" else schedule, found["document"][1],
            found["page"][0] == "2")


def page_of(maugzeris, context, path):
    grammar, schedule, document, wide = texts_of(path)
    return context.page(context.rules(context.grammar(grammar, wide), schedule), document)


def told_of(maugzeris, context, path):
    """The boxes of a page, or the line that refuses it."""
    try:
        page = page_of(maugzeris, context, path)
    except maugzeris.Refused as refused:
        return refused.line
    page.lay_out()
    boxes = page.boxes()
    page.free()
    return boxes


def python(folder, program):
    shared = os.path.join(folder, "libmaugzeris.so")
    run("cc", "-shared", "-o", shared, "-Wl,--whole-archive", LIBRARY, "-Wl,--no-whole-archive", HEAP)
    sys.path.insert(0, os.path.join(TOP, "examples/python"))
    import maugzeris
    with maugzeris.Context(shared) as context:
        pages(maugzeris, context, program)
        without_growth(maugzeris, context)


def pages(maugzeris, context, program):
    """What Python has of each page of pages/ is what the program prints."""
    boxes, refusals = 0, 0
    for folder, _, names in os.walk(os.path.join(TOP, "pages")):
        for path in sorted(os.path.join(folder, name) for name in names if name.endswith(".page")):
            done = subprocess.run([program, "run"], stdin=open(path, "rb"), capture_output=True, text=True)
            if done.returncode == 4 or texts_of(path) is None:
                continue
            if told_of(maugzeris, context, path) != done.stdout + done.stderr:
                expect(f"{os.path.relpath(path, TOP)} by Python is what the program prints", False)
            boxes, refusals = boxes + (done.returncode in (0, 8)), refusals + (done.returncode not in (0, 8))
    expect(f"{boxes} pages and {refusals} refusals by Python are what the program prints", boxes > 20 and refusals > 20)


def without_growth(maugzeris, context):
    page = page_of(maugzeris, context, os.path.join(TOP, "pages/toolbar.page"))
    page.lay_out()
    for k in range(RELAYOUTS):
        page.set(1, "tw", 30 + k % 7)
        page.relayout()
        if k == RELAYOUTS // 10:
            before = resource.getrusage(resource.RUSAGE_SELF).ru_maxrss
    after = resource.getrusage(resource.RUSAGE_SELF).ru_maxrss
    expect(f"{RELAYOUTS} relayouts by Python take no more memory ({before} KiB, then {after})", after <= before + 64)
    expect("the last has the value of its rule", page.value(1, "w") == 30 + (RELAYOUTS - 1) % 7 + 8)


# ---- Rust


def rust(folder, program):
    where = {"CARGO_TARGET_DIR": os.path.join(folder, "target"), "MAUGZERIS_LIBRARY": os.path.dirname(LIBRARY),
             "MAUGZERIS_KIT": KIT, "MAUGZERIS_PROGRAM": program}
    told = run("cargo", "test", "--offline", "--quiet", "--", "--nocapture", cwd=os.path.join(TOP, "examples/rust"),
               env={**os.environ, **where})
    counts = re.findall(r"^\d+ pages .*", told, re.M)
    expect(f"cargo test in examples/rust passes: {''.join(counts)}", len(counts) == 1)


def main():
    if not os.path.exists(LIBRARY):
        sys.exit(f"{LIBRARY} is not built: run rt lib in crates/maugzeris_c first")
    program = sys.argv[1] if len(sys.argv) > 1 else PROVED if os.path.exists(PROVED) else os.path.join(TOP, "layout")
    with tempfile.TemporaryDirectory() as folder:
        header(folder)
        c_programs(folder)
        python(folder, program)
        rust(folder, program)


if __name__ == "__main__":
    main()
