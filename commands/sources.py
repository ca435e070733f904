"""The programs, and what each stands on: the kit, its crates and their files; and whether it is proved, and newer than
these."""
import hashlib
import os
import re
import shutil
import subprocess

TOP = os.path.dirname(os.path.dirname(os.path.realpath(__file__)))


def kit_folder():
    """The kit's folder: above rt or, where rt on the path is another file, that of the page which `rt doc` prints."""
    rt = shutil.which("rt")
    kit = rt and os.path.dirname(os.path.dirname(os.path.realpath(rt)))
    if rt and not os.path.isfile(f"{kit}/KIT-ID"):
        kit = os.path.dirname(subprocess.run([rt, "doc"], stdout=subprocess.PIPE, text=True).stdout.strip())
    return kit


class Program:
    """A program: its starter at the top, its crate, the file that the crate is built to, and how it is proved."""

    def __init__(self, starter, name, proved_by):
        self.starter, self.name, self.proved_by = starter, name, proved_by
        self.crate = f"{TOP}/crates/{name}"
        self.path = f"{self.crate}/out/{name}"

    def crates_below(self):
        """The folders of the crates of crates.txt that it stands on, and its own."""
        with open(f"{TOP}/crates.txt", encoding="utf-8") as it:
            rows = re.findall(r"(?m)^(\w+)[^#:\n]*:(.*)$", it.read())
        needs = {name: words.split() for name, words in rows}
        found, left = set(), [self.name]
        while left:
            name = left.pop()
            if name in needs and name not in found:
                found.add(name)
                left += needs[name]
        return [f"{TOP}/crates/{name}" for name in sorted(found)]

    def files_in(self, *parts):
        """crates.txt and every file in these folders of the crates below."""
        found = [f"{TOP}/crates.txt"]
        for crate in self.crates_below():
            for part in parts:
                for folder, folders, names in os.walk(f"{crate}/{part}"):
                    folders.sort()
                    found += [f"{folder}/{name}" for name in sorted(names)]
        return found

    def digest(self, kit):
        """A digest of all that it is compiled from. KIT-ID has what `rt version` prints."""
        digest = hashlib.sha256()
        for file in [f"{kit}/KIT-ID", *self.files_in("src")]:
            with open(file, "rb") as it:
                digest.update(repr((file.replace(TOP, ""), it.read())).encode())
        return digest.hexdigest()[:32]

    def is_proved(self):
        """Whether it is newer than each of its files. `rt run` and `rt ci` build it only where all is proved."""
        try:
            built = os.stat(self.path).st_mtime_ns
        except OSError:
            return False
        return all(os.stat(it).st_mtime_ns < built for it in self.files_in("src", "specs", "proofs"))


LAYOUT = Program("layout", "ftl_layout", "./prove proves and builds")
SHOW = Program("show", "ftl_show", "`rt run` in crates/ftl_show proves and builds")
