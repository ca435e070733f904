"""Has the C library take memory as ./layout has it, in large pages: to import this sets it for all programs that are
started afterwards."""
import os
import sys

sys.path.insert(0, os.path.join(os.path.dirname(os.path.dirname(os.path.abspath(__file__))), "commands"))
from memory import tunables

os.environ["GLIBC_TUNABLES"] = tunables(os.environ.get("GLIBC_TUNABLES"))
