"""Finds lines of code: addr2line reads them from the debug information of the program."""

import os
import re
import subprocess
from collections import namedtuple
from contextlib import suppress
from functools import lru_cache
from pathlib import Path

IN_MODULE = re.compile(r"(.*)\+0x([0-9a-f]+)", re.DOTALL)  # a place in Python code ends with a line
# What calls `main', or a program of Fortran: a function and a path, of which nobody wants to know.
BEGINNING = re.compile(r"(_*(libc_start_\w+|start)|generic_start_main) .*|main .*[.][fF]\d*", re.DOTALL)


class Frame(namedtuple("Frame", "path line function other", defaults=("", 0, "", ""))):
    """A place in the program: a file and a line, 0 if it isn't known, or what else is known of it."""
    def text(self, with_function=False):
        name = printable(self.function)
        name = name if len(name) <= 60 else name[:58] + ".."
        if not self.line:
            return f"{name} ({self.other})" if name else self.other
        here = os.path.join(os.getcwd(), "")  # a path below the folder in which we are is named from there
        place = f"{printable(self.path.removeprefix(here))}:{self.line}"
        return f"{name} at {place}" if with_function and name else place


class Places:
    """The frames of sites. All that are wanted are looked up at once, by one process for each module."""
    def __init__(self, journals):
        sites = lru_cache(None)(lambda rank: journals[rank].sites())
        self.raw, self._found = lambda rank, site: sites(rank).get(site, []), {}
        self.where = lru_cache(None)(self._where)

    def look_up(self, wanted):
        """Looks up pairs of a rank and a site."""
        modules = {}
        for frame in {frame for rank, site in wanted for frame in self.raw(rank, site)} - set(self._found):
            found = IN_MODULE.fullmatch(frame)
            if found:  # the offset is that of the return, which may be in the line after that of the call
                modules.setdefault(found[1], {})[int(found[2], 16) - 1] = frame
            else:
                path, _, line = frame.rpartition(":")
                self._found[frame] = [Frame(path, int(line)) if line.isdecimal() else Frame(other=frame)]
        for module, offsets in modules.items():
            self._found |= {offsets[offset]: found for offset, found in lines_of(module, offsets).items()}

    def frames(self, rank, site):
        """The frames of a site, the innermost first, with those that were compiled into others."""
        self.look_up([(rank, site)])
        frames = [one for frame in self.raw(rank, site) for one in self._found[frame]]
        others = [one for one in frames[1:] if not BEGINNING.fullmatch(f"{one.function} {one.path}")]
        return frames[:1] + others or [Frame()]

    def _where(self, rank, site):
        """One line for a site."""
        first, *others = self.frames(rank, site)
        is_named = len(self.raw(rank, site)) > 1
        return first.text() + "".join(f", called from {one.text(is_named)}" for one in others if one.line)

    def own(self, rank, site):
        """The frame that is the program's own: the first that is in no folder of the system; or None."""
        frames = [frame for frame in self.frames(rank, site) if frame.line]
        return min(frames, key=lambda frame: frame.path.startswith("/usr/"), default=None)


def lines_of(module, offsets):
    """The frames at some offsets of a module."""
    names = {offset: printable(f"{Path(module).name}+0x{offset + 1:x}") for offset in offsets}
    words = ["addr2line", "-a", "-i", "-f", "-C", "-e", module]
    asked, said, found, offset = "".join(f"{offset:#x}\n" for offset in offsets), b"", {}, 0
    with suppress(OSError):
        said = subprocess.run(words, input=asked.encode(), capture_output=True, check=False).stdout
    lines = iter(os.fsdecode(said).split("\n")[:-1])
    for line in lines:
        if re.fullmatch(r"0x[0-9a-f]+", line):
            offset = int(line, 16)
            continue
        path, _, number = re.sub(r" \(discriminator \d+\)$", "", next(lines, "")).rpartition(":")
        known = int(number) if number.isdecimal() and not path.startswith("??") else 0
        frame = Frame(path, known, "" if line == "??" else line, names.get(offset, ""))
        found.setdefault(offset, []).append(frame)
    unknown = [offset for offset in offsets if not any(frame.line for frame in found.get(offset, []))]
    functions = functions_at(module, unknown) if unknown else {}
    found |= {offset: [Frame(function=functions.get(offset, ""), other=names[offset])] for offset in unknown}
    return {offset: found.get(offset) or [Frame(other=name)] for offset, name in names.items()}


def functions_at(module: str, offsets: list[int]) -> dict[int, str]:
    """The functions that contain these offsets, by the sizes of symbols. Without lines addr2line names the
    nearest symbol before them, which in a stripped module is that of another function."""
    found = {}
    for more in ([], ["-D"]):
        words = ["nm", "-C", "-S", "--defined-only", *more, module]
        with suppress(OSError):
            said = subprocess.run(words, capture_output=True, check=False).stdout
            for symbol in re.finditer(rb"^([0-9a-f]+) ([0-9a-f]+) [TtWwi] (.+)$", said, re.MULTILINE):
                start, size = int(symbol[1], 16), int(symbol[2], 16)
                inside = [offset for offset in offsets if start <= offset < start + size]
                found |= dict.fromkeys(inside, os.fsdecode(symbol[3]))
    return found


def printable(text):
    """A name as one line: what can't be shown is written as `\\xHH`."""
    shown = (one if one.isprintable() else one.encode("unicode_escape").decode() for one in text)
    return re.sub(r"\\udc([89a-f][0-9a-f])", r"\\x\1", "".join(shown))
