"""Which program the scripts beside this one run: by its default the proved one, as ./prove builds it. The one that
./layout keeps in .unproved/ has run-time checks, so its times are others."""
import os
import sys

TOP = os.path.dirname(os.path.dirname(os.path.abspath(__file__)))


def program_at(place):
    """The program that this word of the command line names, or the proved one."""
    named = sys.argv[place] if len(sys.argv) > place else os.path.join(TOP, "crates/ftl_layout/out/ftl_layout")
    if not os.path.exists(named):
        sys.exit(f"{named} is not built: run ./prove first")
    return named
