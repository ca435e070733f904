"""Runs a program that stops where calls of some of its functions begin and where they return, and tells how much
processor time the program, with all its threads, has spent there. For 64 bit processors of the x86 family on Linux, by
ptrace. The functions must be called by the program's first thread, and none of them by itself."""
import ctypes
import os
import re
import signal
import subprocess
import sys
import time

import large_pages  # noqa: F401, for what it sets

TRACE_ME, PEEK, POKE, GET_REGISTERS, SET_REGISTERS, CONTINUE = 0, 1, 4, 12, 13, 7
BREAKPOINT = 0xCC
REGISTERS, INSTRUCTION, STACK = 27, 16, 19  # how many registers there are, and two of them by their place
libc = ctypes.CDLL(None, use_errno=True)
libc.ptrace.restype = ctypes.c_long
libc.ptrace.argtypes = [ctypes.c_long, ctypes.c_long, ctypes.c_void_p, ctypes.c_void_p]


def addresses(program, wanted):
    """The address of each wanted function in the program's file; wanted are patterns of their names by a short one."""
    listed = subprocess.run(["nm", program], stdout=subprocess.PIPE, text=True, check=True).stdout
    found = {}
    for line in listed.splitlines():
        parts = line.split(" ", 2)
        for short, pattern in wanted.items():
            if parts[0] and re.search(pattern, parts[2]):
                found[short] = int(parts[0], 16)
    if len(found) < len(wanted):
        sys.exit(f"{program} has no function of its own for {sorted(set(wanted) - set(found))}")
    return found


class Stopped:
    """A process that stops at breakpoints, on these processors of the machine, or on all."""

    def __init__(self, program, words, page, processors=None):
        self.pid = os.fork()
        if self.pid == 0:
            os.sched_setaffinity(0, processors or os.sched_getaffinity(0))
            os.dup2(os.open(page, os.O_RDONLY), 0)
            os.dup2(os.open(os.devnull, os.O_WRONLY), 1)
            libc.ptrace(TRACE_ME, 0, None, None)
            os.execv(program, [program, *words])
        os.waitpid(self.pid, 0)
        with open(f"/proc/{self.pid}/maps") as maps:
            self.base = int(maps.readline().split("-")[0], 16)
        self.covered = {}

    def spent(self):
        """Milliseconds of processor time so far."""
        return time.clock_gettime_ns((~self.pid << 3) | 2) / 1e6

    def passed(self):
        """Milliseconds that have passed, whatever the program did."""
        return time.monotonic_ns() / 1e6

    def peek(self, place):
        return libc.ptrace(PEEK, self.pid, place, None) & 0xFFFFFFFFFFFFFFFF

    def set(self, place):
        self.covered[place] = self.peek(place)
        libc.ptrace(POKE, self.pid, place, self.covered[place] & ~0xFF | BREAKPOINT)

    def go_on(self):
        """Goes on to the next breakpoint, and takes it away. Gives its place and the place to which a call that begins
        there returns; none where the process has ended."""
        libc.ptrace(CONTINUE, self.pid, None, None)
        status = os.waitpid(self.pid, 0)[1]
        if os.WIFEXITED(status):
            return None
        if os.WIFSIGNALED(status) or os.WSTOPSIG(status) != signal.SIGTRAP:
            sys.exit(f"the program was stopped otherwise: wait status {status}")
        registers = (ctypes.c_ulonglong * REGISTERS)()
        libc.ptrace(GET_REGISTERS, self.pid, None, registers)
        registers[INSTRUCTION] -= 1
        libc.ptrace(SET_REGISTERS, self.pid, None, registers)
        libc.ptrace(POKE, self.pid, registers[INSTRUCTION], self.covered.pop(registers[INSTRUCTION]))
        return registers[INSTRUCTION], self.peek(registers[STACK])


def timed_calls(program, words, page, functions, processors=None, clock=Stopped.spent):
    """The calls of these functions as they return: the name, and at which milliseconds the call began and returned. By
    the first clock this is processor time from the start of the process on."""
    process = Stopped(program, words, page, processors)
    starts = {process.base + place: name for name, place in functions.items()}
    for place in starts:
        process.set(place)
    running, calls = {}, []
    while stop := process.go_on():
        now = clock(process)
        if stop[0] in running:
            start, began = running.pop(stop[0])
            calls.append((starts[start], began, now))
            process.set(start)
        else:
            running[stop[1]] = (stop[0], now)
            process.set(stop[1])
    return calls
