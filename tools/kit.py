# SPDX-License-Identifier: MIT OR Apache-2.0
"""The Rattle kit of the `rt` on the PATH, the crates of crates.txt, and what a command of the kit is told of one."""
import os
import re
import shutil
import subprocess

ROOT = os.path.dirname(os.path.dirname(os.path.abspath(__file__)))
PROVED = os.path.join("target", "proved")  # what the gate's rt ci proved last: the kit, and the hash of the sources


def text_of(path):
    try:
        with open(path, encoding="utf-8", errors="replace") as text:
            return text.read()
    except OSError:
        return ""


def has_rt():
    return shutil.which("rt") is not None


def home():
    """The kit's folder, found as `rt` finds it."""
    return os.path.dirname(os.path.dirname(os.path.realpath(shutil.which("rt"))))


def said():
    """The kit's line, as manifests have it; '' where there is no kit."""
    if not has_rt():
        return ""
    return "kit " + subprocess.run(["rt", "version"], stdout=subprocess.PIPE, universal_newlines=True, check=False).stdout.strip()


def logic():
    return ["--antt-project", home() + "/rattle/logic/antt-project.json", "--logic-built", home() + "/logic_built"]


class Crate:
    """A line of crates.txt: a program, a static library or a library, and what it names."""

    def __init__(self, root, name, words, needs):
        self.name, self.needs, self.folder = name, needs, os.path.join(root, "crates", name)
        self.is_static = "staticlib" in words
        self.is_program = os.path.isfile(os.path.join(self.folder, "src", "main.rt"))
        self.rlib = os.path.join(self.folder, "out", "rlib", name + ".rlib")


class Crates(dict):
    """The crates of a repository, in the order of crates.txt."""

    def __init__(self, root=ROOT):
        super().__init__()
        self.root = root
        for line in text_of(os.path.join(root, "crates.txt")).splitlines():
            head, colon, rest = line.split("#")[0].partition(":")
            if colon and head.split():
                self[head.split()[0]] = Crate(root, head.split()[0], head.split()[1:], rest.split())

    def below(self, crate):
        """The repository's libraries that a crate needs."""
        found, new = set(), {name for name in crate.needs if name in self}
        while new:
            found |= new
            new = {other for one in new for other in self[one].needs if other in self} - found
        return [self[name] for name in self if name in found]

    def words(self, crate):
        """What `rattle check` and `rattle build` are told of a crate, in its folder or in that of a copy, over libraries that stand in crates/*/out."""
        found = ["--crate-name", crate.name, "src/main.rt" if crate.is_program else "src/lib.rt"]
        for name in ["std"] + [name for name in crate.needs if name not in self]:
            found += ["--extern", "%s=%s/rlibs/%s.rlib" % (name, home(), name)]
        found += ["-L", "dependency=%s/rlibs" % home()]
        for name in crate.needs:
            if name in self:
                found += ["--extern", "%s=%s" % (name, self[name].rlib)]
        for one in self.below(crate):
            found += ["-L", "dependency=" + os.path.dirname(one.rlib)]
        found += logic() + ["--jobs", "1"]
        for one in [crate] + (self.below(crate) if crate.is_program or crate.is_static else []):
            found += ["--links", one.name + "="]
        return found

    def proved_by_ci(self, crate):
        """Whether the libraries below are those that the gate's rt ci proved of these sources. One that another command built has a stamp beside it."""
        proved = text_of(os.path.join(self.root, PROVED)).splitlines()
        if len(proved) != 2 or proved[0] != said() or proved[1] != "sources " + tree_hash(self.root):
            return False
        return all(os.path.isdir(one.rlib) and not os.path.exists(os.path.join(os.path.dirname(one.rlib), "stamp")) for one in self.below(crate))


def tree_hash(root=ROOT):
    command = [os.path.join(root, "tools", "tree-hash")]
    return subprocess.run(command, stdout=subprocess.PIPE, universal_newlines=True, check=False).stdout.strip()


def at_once(memory):
    """How many runs that take so many bytes each: as many as there are processors, and memory for; or what RT_JOBS says, as with rt."""
    given = os.environ.get("RT_JOBS", "")
    if given.isdigit() and int(given):
        return int(given)
    free = re.search(r"^MemAvailable: *(\d+) kB", text_of("/proc/meminfo"), re.M)
    return max(1, min(len(os.sched_getaffinity(0)), int(free.group(1)) * 1024 // memory if free else 1))
