"""What the scripts beside this one measure a run of the program by."""
import os
import subprocess
import sys
import tempfile

import large_pages  # noqa: F401, for what it sets


def processor_seconds(words, page, statuses, runs):
    """The least processor time of so many runs on a page, which must end with one of these statuses."""
    return min(one_run(words, page, statuses) for _ in range(runs))


def one_run(words, page, statuses):
    with tempfile.TemporaryFile() as source:
        source.write(page.encode())
        source.seek(0)
        child = subprocess.Popen(words, stdin=source, stdout=subprocess.DEVNULL)
        _, status, usage = os.wait4(child.pid, 0)
    if os.waitstatus_to_exitcode(status) not in statuses:
        sys.exit(f"{' '.join(words)} ended with status {os.waitstatus_to_exitcode(status)}")
    return usage.ru_utime + usage.ru_stime
