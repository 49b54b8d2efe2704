# SPDX-License-Identifier: MIT OR Apache-2.0
"""The engine: the shared library by ctypes, or the command. Either gives for a word and the bytes of a problem file the text that the program prints."""
import ctypes
import ctypes.util
import os
import shutil
import subprocess
from typing import Dict, List, Optional, Union

WORDS = ("sheet", "betti", "minimal", "bidegrees", "hilbert", "member", "complete", "replay")
# tagetessash_complete is a name of the header for something else
CALLS = {"complete": "tagetessash_completed"}


class NotInstalled(RuntimeError):
    """Neither the shared library nor the command is found, or neither has what is asked."""


class Library:
    """The calls of the shared library that print. Each call lends buffers of its own, so that threads may ask at a time."""

    VERSION = 3
    # words and bytes; longer ones than needed may be lent
    STATE, WORK, OUT = 125471, 3072, 2000000
    SHORT_BUFFER = 16

    def __init__(self, name: str):
        self.name, self.library = name, ctypes.CDLL(name)
        self.library.tagetessash_version.restype = ctypes.c_uint16
        version = self.library.tagetessash_version()
        if version != self.VERSION:
            raise NotInstalled("%s has version %d, and this module fits version %d" % (name, version, self.VERSION))

    def has(self, word: str) -> bool:
        """Whether it has the call behind this word: a library may be older than this module."""
        return word in WORDS and hasattr(self.library, CALLS.get(word, "tagetessash_" + word))

    def __call__(self, word: str, data: bytes) -> str:
        if not self.has(word):
            raise NotInstalled("%s has no %s" % (self.name, word))
        words, size = ctypes.POINTER(ctypes.c_uint16), ctypes.c_size_t
        call = getattr(self.library, CALLS.get(word, "tagetessash_" + word))
        call.restype = ctypes.c_uint16
        call.argtypes = [ctypes.c_char_p, size, words, size, words, size, ctypes.POINTER(ctypes.c_uint8), size, ctypes.POINTER(size)]
        state, work, out = (ctypes.c_uint16 * self.STATE)(), (ctypes.c_uint16 * self.WORK)(), (ctypes.c_uint8 * self.OUT)()
        length = size(0)
        number = call(data, len(data), state, self.STATE, work, self.WORK, out, self.OUT, ctypes.byref(length))
        if number != 0:
            raise RuntimeError("the library answers %d%s" % (number, ": a buffer is too short" if number == self.SHORT_BUFFER else ""))
        return ctypes.string_at(out, length.value).decode("ascii")


class Command:
    """The command tagetessash."""

    USED_WRONGLY = 2
    LAST_STATUS = 7

    def __init__(self, name: str):
        self.name = name

    def has(self, word: str) -> bool:
        """Whether its help tells of this word."""
        run = subprocess.run([self.name, "help"], stdout=subprocess.PIPE, stderr=subprocess.DEVNULL, check=False)
        return word in WORDS and any(line.startswith(b"tagetessash %s " % word.encode("ascii")) for line in run.stdout.splitlines())

    def __call__(self, word: str, data: bytes) -> str:
        run = subprocess.run([self.name, word, "-"], input=data, stdout=subprocess.PIPE, stderr=subprocess.PIPE, check=False)
        if run.returncode == self.USED_WRONGLY or not 0 <= run.returncode <= self.LAST_STATUS:
            raise RuntimeError(run.stderr.decode("utf-8", "replace").strip() or "the command failed with status %d" % run.returncode)
        return run.stdout.decode("ascii")


Engine = Union[Library, Command]
_found: Dict[Optional[str], List[Engine]] = {}


def engines(kind: Optional[str] = None) -> List[Engine]:
    """All that are found, the library before the command; of one kind, "library" or "command", alone."""
    if kind not in _found:
        found: List[Engine] = []
        tried = None
        if kind in (None, "library"):
            own = os.path.join(os.path.dirname(os.path.abspath(__file__)), "libtagetessash.so.3")
            own = own if os.path.exists(own) else ""
            for name in (os.environ.get("TAGETESSASH_LIB"), own, ctypes.util.find_library("tagetessash"), "libtagetessash.so.3"):
                if name and not found:
                    try:
                        found.append(Library(name))
                    except OSError as error:
                        tried = tried or error
        if kind in (None, "command"):
            command = os.environ.get("TAGETESSASH") or shutil.which("tagetessash")
            if command:
                found.append(Command(command))
        if not found:
            what = {None: "neither libtagetessash.so.3 nor the command tagetessash is", "library": "libtagetessash.so.3 is not",
                    "command": "the command tagetessash is not"}[kind]
            raise NotInstalled("%s found; TAGETESSASH_LIB or TAGETESSASH names it%s" % (what, " (%s)" % tried if tried else ""))
        _found[kind] = found
    return _found[kind]


def engine(kind: Optional[str] = None, word: str = "sheet") -> Engine:
    """The first engine of those that are found which has this word."""
    for found in engines(kind):
        if found.has(word):
            return found
    raise NotInstalled("%s: no %s; a newer installation has it" % (" and ".join(found.name for found in engines(kind)), word))
