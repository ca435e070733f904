"""Starts a program with the given words, and ends with its status.

Where the proved program is there, as ./prove, `rt run` or `rt ci` leave it, and none of its files is newer, that runs.
Otherwise the same sources run without a proof, and a line on standard error says so. They are compiled first where they
changed, which takes about a minute, and kept in .unproved/ (unproved.py says what is checked as they run). A build that
fails is told on standard error, with status 70, which the programs themselves never end with.
"""
import os
import signal
import sys

from memory import tunables


def run(program, file):
    """Becomes the program, which is a path or an open file."""
    asked = tunables(os.environ.get("GLIBC_TUNABLES"))
    # Python ignores these signals, and the program would too.
    for it in (signal.SIGPIPE, signal.SIGXFSZ):
        signal.signal(it, signal.SIG_DFL)
    os.execve(file, [program.path, *sys.argv[1:]], {**os.environ, "GLIBC_TUNABLES": asked})


def start(program):
    if program.is_proved():
        run(program, program.path)
    for it in (signal.SIGINT, signal.SIGTERM, signal.SIGHUP):
        signal.signal(it, lambda number, _: sys.exit(128 + number))
    from unproved import unproved_program

    run(program, unproved_program(program, sys.argv[1:]))
