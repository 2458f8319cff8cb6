"""What the tests of tools/ share: its scripts as modules, and folders of small runs."""

import importlib.machinery
import importlib.util
import os
import re
import subprocess
import sys
import tempfile
import unittest
from pathlib import Path

TOP = Path(__file__).resolve().parents[2]
TOOLS = TOP / "tools"
sys.path[:0] = [str(TOOLS), str(TOP / "bench"), str(TOP)]
sys.dont_write_bytecode = True

from companions.story import Story  # noqa: E402
from companions.runs import Judge  # noqa: E402

# The place N in the program is line N of /a.py.
SITES = "".join(f"{line}\t/a.py:{line}\n" for line in range(1, 30)).encode()

# Runs of two ranks. Both send first; they hang behind such an exchange; and each asks by a test whether its message
# was received, before it receives the other's.
BOTH = ("send 0 1 0 4 @7 / recv 0 1 0 @8 / finalize", "send 0 0 0 4 @7 / recv 0 0 0 @8 / finalize")
MASKED = [f"send 0 {1 - rank} 0 4 @4 / recv 0 {1 - rank} 0 @5 / recv 0 {1 - rank} 9 @7" for rank in (0, 1)]
TESTED = [f"isend 1 0 {1 - rank} 0 4 @4 / test 1 @5 / recv 0 {1 - rank} 0 @6 / finalize" for rank in (0, 1)]
# Calls that make two communicators of both.
MADE = "comm_dup 0 @3 / =comm 2 0 1 / comm_dup 0 @4 / =comm 3 0 1"


def script(name, folder=TOOLS):
    """A script as a module."""
    loader = importlib.machinery.SourceFileLoader(f"script_{name}".replace("-", "_"), str(folder / name))
    module = importlib.util.module_from_spec(importlib.util.spec_from_loader(loader.name, loader))
    sys.modules[loader.name] = module
    loader.exec_module(module)
    return module


class Stored(Judge):
    """Answers by what is stored; but questions with one of some words by a fault."""

    def __init__(self, *faults):
        super().__init__()
        self.faults = faults

    def run(self, command, folder):
        if set(self.faults) & set(command):
            return subprocess.CompletedProcess(command, 4, "", "out of memory")
        status, said = script("judge", TOP / "tests/tools").answer(command[1:], folder)
        return subprocess.CompletedProcess(command, status, said, "")


def lines(text):
    """The text of lines that are written with ` / ' between them."""
    return "".join(line + "\n" for line in text.split(" / ")) if text else ""


def closings():
    """The rows of crates/cli_rows that have what `close' makes: the name, the words, and the text of each file."""
    rows = (TOP / "crates/cli_rows/stdin").read_text(encoding="utf-8").split("\n\n")
    for row in (row.split("\n") for row in rows if "\nmade " in row):
        lines = [line.partition(" ")[::2] for line in row]
        texts = {}
        for kind, rest in lines:
            if kind in ("file", "made"):
                texts[path := rest] = ""
            elif kind in ("|", "."):
                texts[path] += rest + ("\n" if kind == "|" else "")
        said = dict(lines)
        yield said["row"], said["words"].split(" "), texts


def journal(rank, ranks, calls, state="i", library="a library"):
    return f"journal 2 {rank} {ranks} a-run {state} {library}\n" + lines(calls)


class Folders(unittest.TestCase):
    """Tests that have a folder of their own."""

    def setUp(self):
        folder = tempfile.TemporaryDirectory()
        self.addCleanup(folder.cleanup)
        self.folder = Path(folder.name)

    def run_of(self, *ranks, state="i", after=()):
        """Writes the journals of a run; None for a rank without one. `state' has a letter for all or for each;
        `after' has the words that some ranks have after the library."""
        states = state if len(state) > 1 else state * len(ranks)
        (self.folder / "journal").mkdir()
        for rank, calls in enumerate(ranks):
            if calls is not None:
                library = "a library" + dict(after).get(rank, "")
                self.write(f"journal/journal{rank}", journal(rank, len(ranks), calls, states[rank], library))

    def write(self, name, text):
        (self.folder / name).write_bytes(text if isinstance(text, bytes) else text.encode())

    def read(self, name):
        return (self.folder / name).read_text(encoding="utf-8")

    def judged(self, *ranks, program_status=0, sites=SITES, faults=(), **words):
        """A run with these calls, judged."""
        if not (self.folder / "journal").exists():
            self.run_of(*ranks, **words)
        for rank in range(len(ranks)):
            if not (self.folder / f"journal/sites{rank}").exists():
                self.write(f"journal/sites{rank}", sites)
        return Story(self.folder / "journal", Stored(*faults), program_status=program_status)

    def sections(self, *ranks, **words):
        return dict(self.judged(*ranks, **words).sections)

    def again(self):
        """Another folder."""
        self.doCleanups()
        self.setUp()

    def command(self, name, *words, **environment):
        """Runs a script of tools/, or of another folder, to its end."""
        words = [sys.executable, str(TOOLS / name), *map(str, words)]
        return subprocess.run(
            words, capture_output=True, text=True, check=False, cwd=self.folder, **environment
        )
