"""Compiles a program without a proof, once for each state of its sources and of the kit.

`rt try` makes the program's module and compiles it with all checks, so that a small page takes a tenth of a second and
a large one minutes. Here the module is compiled at -O2 in place of that: it keeps the checks of indices, overflow,
failed unwraps and unreachable code, where a signal ends the program, and has none of memory.
"""
import contextlib
import fcntl
import glob
import os
import shutil
import subprocess
import sys
import tempfile
import time

from sources import TOP, kit_folder

KEPT = f"{TOP}/.unproved"
TARGET = "x86_64-unknown-linux-gnu"
# As the kit has clang compile a module: some of its optimisations have known faults.
FLAGS = f"""-O2 --target={TARGET} -march=x86-64 -ffunction-sections -fdata-sections -fPIE --no-default-config
-no-canonical-prefixes -fno-crash-diagnostics -mllvm -no-trap-after-noreturn -mllvm -trap-unreachable
-mllvm -no-x86-call-frame-opt -mllvm -disable-machine-licm -mllvm -disable-postra-machine-licm
-mllvm -sink-common-insts=false""".split()


def fail(program, why):
    print(f"{why.rstrip()}\n{program.starter}: the program was not built", file=sys.stderr, flush=True)
    sys.exit(70)


def without_own_lines(told):
    """What `rt try` told, without the lines that it adds on how it ran."""
    own = ("checked:", "races:", "interpreter:", "run=")
    return "".join(it for it in told.splitlines(True) if not it.startswith(own))


def has_module(room):
    """Links the module out of the folder where `rt try` compiles it, once clang reads it, and tells whether it did."""
    for begun in glob.glob(f"{room}/*/*/module-*.o.tmp"):
        module = f"{os.path.dirname(begun)}/module.bc"
        with contextlib.suppress(OSError):
            # A few bytes are a module by which the kit tries its clang.
            if os.path.getsize(module) > 100_000:
                os.link(module, f"{room}/module.bc")
                return True
    return False


def make_module(program, room):
    """Has `rt try` make the module, and ends it there, since it keeps nothing. Gives what it told if it ended before."""
    # Neither the words nor standard input go to it.
    words = ["rt", "try", "--steps", "1", "--", "check"]
    with open(f"{room}/told", "w+b") as told:
        how = {"stdin": subprocess.DEVNULL, "stdout": told, "stderr": told, "env": {**os.environ, "TMPDIR": room}}
        tried = subprocess.Popen(words, cwd=program.crate, **how)
        try:
            while not has_module(room):
                if tried.poll() is not None:
                    told.seek(0)
                    return told.read().decode(errors="replace")
                time.sleep(0.05)
        finally:
            tried.terminate()
            tried.wait()
    return None


def compile_module(program, kit, room):
    tools, more = f"{kit}/toolchain", [f"{kit}/c/libos_c.a", f"{kit}/c/liblibc_c.a"]
    clang = [f"{tools}/bin/clang", f"--sysroot={tools}", *FLAGS, "-c", "-x", "ir", "module.bc", "-o", "program.o"]
    link = [f"{kit}/bin/rattle-link", "--target", TARGET, "--toolchain", tools, "-o", "program", "program.o", *more]
    how = {"stdin": subprocess.DEVNULL, "stdout": subprocess.PIPE, "stderr": subprocess.STDOUT}
    for words in (clang, link):
        made = subprocess.run(words, cwd=room, **how)
        if made.returncode:
            fail(program, made.stdout.decode(errors="replace"))


def run_as_tried(program, words):
    """Has `rt try` run the program, with a kit whose module is not found while it compiles. It runs in the crate's
    folder, so that words which are files of this one are given by their whole paths."""
    words = [os.path.abspath(it) if os.path.isfile(it) else it for it in words]
    how = {"cwd": program.crate, "stderr": subprocess.PIPE, "text": True, "errors": "replace"}
    tried = subprocess.run(["rt", "try", "--", *words], **how)
    print(without_own_lines(tried.stderr), end="", file=sys.stderr, flush=True)
    sys.exit(tried.returncode)


def keep(built, kept, program):
    """Keeps what was built, and three older ones. Where the folder can't be written, nothing is kept."""
    with contextlib.suppress(OSError):
        shutil.copy(built, f"{kept}.{os.getpid()}")
        os.replace(f"{kept}.{os.getpid()}", kept)
        for old in sorted(glob.glob(f"{KEPT}/{program.name}-*"), key=os.path.getmtime)[:-4]:
            os.remove(old)


def unproved_program(program, words):
    """The path of the kept program or, where it can't be kept, the program as an open file."""
    kit = kit_folder() or fail(program, f"{program.starter}: there is no rt on the path")
    kept = f"{KEPT}/{program.name}-{program.digest(kit)}"
    first = "" if os.path.exists(kept) else "; compiling first, which takes about a minute"
    told = f"{program.starter}: nothing is proved yet: {program.proved_by}{first}"
    print(told, file=sys.stderr, flush=True)
    with contextlib.suppress(OSError):
        # Of several calls one compiles, and the others wait for it.
        os.makedirs(KEPT, exist_ok=True)
        fcntl.flock(os.open(KEPT, os.O_RDONLY), fcntl.LOCK_EX)
    if os.path.exists(kept):
        return kept
    with tempfile.TemporaryDirectory(prefix=f"{program.starter}-") as room:
        told = make_module(program, room)
        if told is None:
            compile_module(program, kit, room)
            keep(f"{room}/program", kept, program)
            return kept if os.path.exists(kept) else os.open(f"{room}/program", os.O_RDONLY)
    if "\nrun=ended " not in told:
        fail(program, without_own_lines(told) or f"{program.starter}: rt try ended and told nothing")
    return run_as_tried(program, words)
