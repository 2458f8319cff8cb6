"""What the recorder wrote of a run, read only where it is asked for; and its calls in the words of MPI.

tools/record/journal.h has the forms of these texts. A line is looked up by its number, which a report names.
"""

from __future__ import annotations

import mmap
import os
import re
import resource
from collections import namedtuple
from collections.abc import Iterable, Iterator
from contextlib import suppress
from pathlib import Path

BLOCK, TAIL = 1 << 20, 1 << 16  # bytes that are read at once: of lines by number, and of the last calls
MOST_READ = 1 << 20  # bytes of a journal of which each call is looked at
HEADER = re.compile(
    rb"journal 2 \d{1,4} (\d{1,4}) \S+ ([io]) .+?( strict)?( multiple)?(?: on (\S+))?"
    rb"(?: polls ([0-9a-f]{8}) ([0-9a-f]{2}) ([0-9a-f]{16}))?", re.DOTALL
)  # fmt: skip
POLLS = (None, "MPI_Test", "MPI_Testall", "MPI_Testany", "MPI_Testsome", "MPI_Iprobe", "MPI_Improbe",
         "MPI_Request_get_status")  # fmt: skip
STARTS = re.compile(r"i(?!probe|mprobe|mrecv|nit)\w+|comm_idup")
ROOTED = {"bcast", "gather", "scatter", "reduce"}
COLLECTIVES = ROOTED | {"barrier", "allgather", "alltoall", "allreduce", "scan", "exscan"}
STARTED_COLLECTIVES = {"i" + word for word in COLLECTIVES}
MAKERS = {"comm_dup", "comm_split", "comm_make"}
ALL_COLLECTIVES = COLLECTIVES | STARTED_COLLECTIVES | MAKERS | {"comm_idup"}
STARTED_SENDS = {"isend", "issend", "ibsend", "irsend"}
SENDS = STARTED_SENDS | {"send", "ssend", "bsend", "rsend", "sendrecv", "isendrecv"}
RECEIVES = {"recv", "irecv", "sendrecv", "isendrecv", "probe", "iprobe", "mprobe", "improbe"}
STANDARD = {"send", "isend", "rsend", "irsend", "sendrecv", "isendrecv"}
WAITS = {"wait", "test", "waitany", "waitsome", "mrecv"}
NUMBER = re.compile("[0-9]{1,10}")
# The collective calls on one of a rank's communicators, whose number stands where `%d' is.
WHOLE = "|".join(sorted(COLLECTIVES | MAKERS)).encode()
STARTED = "|".join(sorted(STARTED_COLLECTIVES | {"comm_idup"})).encode()
# How many requests or messages come before the communicator of a call that is on one.
BEFORE = dict.fromkeys(COLLECTIVES | MAKERS | SENDS | RECEIVES, 0) | {"isendrecv": 2}
BEFORE |= dict.fromkeys(STARTED_COLLECTIVES | STARTED_SENDS, 1)
BEFORE |= dict.fromkeys(["irecv", "mprobe", "improbe", "comm_idup"], 1)
# The bytes of a standard send are its last field; three come before them, after those that differ.
STANDARD_SEND = rb"\n(?:r?send|ir?send \d+|sendrecv \d+ \S+|isendrecv \d+ \d+ \d+ \S+)"
SIZE = re.compile(STANDARD_SEND + rb"(?: \S+){3} (\d+)(?= @|\n)")
# Nonblocking receives with wildcards, by their requests; what they received; and all sends.
WILD = re.compile(rb"\n(?:irecv (\d+)|isendrecv \d+ (\d+)) [^\n@]*\bany\b")
DONE = re.compile(rb"\n=done (\d+) (\S+) (\S+)")
SENT = re.compile(rb"\n(?:i?[srb]?send|i?sendrecv) [^\n]*")
COUNTED = re.compile(r"(?:([PWNw]) (\d{12}) )?(.*)", re.ASCII)  # of leftR; of other lines the text alone
NAMES = {"exit": "the end of the process", "cut": "the end of the window",
         "comm_make": "a call that makes communicators", "full": "a call"}


def mapped(path):
    """The text of a file in memory, and where it ends: before the first zero byte, after a whole line."""
    try:
        with open(path, "rb") as file:
            data = mmap.mmap(file.fileno(), 0, access=mmap.ACCESS_READ)
    except (FileNotFoundError, ValueError):  # there is none, or it is empty
        return b"", 0
    end = data.find(b"\0")
    data.madvise(mmap.MADV_DONTNEED)  # what was read for that needn't stay in memory
    return data, data.rfind(b"\n", 0, end if end >= 0 else len(data)) + 1


def written(path):
    """The lines of a small text."""
    data, end = mapped(path)
    return [os.fsdecode(line) for line in data[:end].split(b"\n")[:-1]]


def unescaped(name):
    """A name with its bytes as they were: the recorder writes blanks, control bytes and `\\` as `\\xHH`."""
    text = re.sub(rb"\\x([0-9a-fA-F]{2})", lambda found: bytes.fromhex(found[1].decode()), os.fsencode(name))
    return os.fsdecode(text)


class Header:
    def __init__(self, found):
        self.ranks, self.is_inside, self.host = int(found[1]), found[2] == b"i", found[5]
        self.is_strict, self.is_multiple = bool(found[3]), bool(found[4])
        site, call, count = (int(digits or b"0", 16) for digits in found.groups()[5:])
        self.polls = (POLLS[call], site, count) if 0 < call < len(POLLS) and count else None


def windows_in(folder):
    """The numbers of the windows that are there; they have folders of their own in that of the run."""
    with suppress(FileNotFoundError, NotADirectoryError), os.scandir(folder) as found:
        return sorted(int(one.name) for one in found if one.name.isdecimal() and one.is_dir())
    return []


def top_of(folder):
    """The folder of the run, also of a window."""
    return folder.parent if folder.name.isdecimal() else folder


def is_closed(folder):
    """Whether all ranks came to the end of a window."""
    with suppress(FileNotFoundError):
        journals = journals_in(folder)
        return bool(journals) and all(one.last and one.last.word == "cut" for one in journals)
    return False


class Journal:
    def __init__(self, folder, rank, run=None):
        self.folder, self.rank, self.run, self.names = top_of(Path(folder)), rank, run, {}
        self.data, self.end = mapped(Path(folder) / f"journal{rank}")
        found = HEADER.fullmatch(self.data[: max(self.data.find(b"\n", 0, self.end), 0)])
        self.header = Header(found) if found else None
        self.last = self._call_at(self.end - 1)
        self.has_ended = self.last is not None and self.last.word in ("finalize", "exit")
        # The last of the tests and probes that found nothing, if the last calls were such.
        self.polls = self.header.polls if self.header and not self.has_ended else None

    def calls(self, numbers):
        """The calls in the lines with these numbers, block by block."""
        found, first, start, lines = {}, 1, 0, 0
        for number in sorted(set(numbers)):
            while number >= first + lines and start < self.end:
                first, stop = first + lines, self.data.find(b"\n", min(start + BLOCK, self.end) - 1) + 1
                block, start = self.data[start:stop], stop
                lines = block.count(b"\n")
                texts = block.split(b"\n") if number < first + lines else []
            if first <= number < first + lines:
                found[number] = Call(self.run, self.rank, texts[number - first].decode("latin-1"), number)
        return found

    def count(self):
        """How many calls it has."""
        text = self.data[: self.end]
        return max(0, text.count(b"\n") - text.count(b"\n=") - 2) if text else 0

    def sizes(self):
        """The bytes of its standard sends."""
        return {int(found[1]) for found in SIZE.finditer(self.data, 0, self.end)}

    def collectives_on(self, comm: int) -> Iterator[int]:
        """The lines of its collective calls on one of its communicators, in their order."""
        text, line, before = self.data[: self.end], 1, 0
        form = rb"\n(?:(?:%b)|(?:%b) \d+) %d(?=[ \n])" % (WHOLE, STARTED, comm)
        for found in re.finditer(form, text or b""):
            line += text.count(b"\n", before, found.start() + 1)
            before = found.start() + 1
            yield line

    def _start_of(self, line: int) -> int:
        """Where a line begins, but for the line feed before it."""
        place = -1
        for _ in range(line - 1):
            place = self.data.find(b"\n", place + 1, self.end)
        return max(place, 0)

    def open_wildcards(self, line: int) -> Iterator[tuple[int, tuple[str, str]]]:
        """The lines of nonblocking receives with wildcards that began before a line and completed after it,
        with the source and the tag that they received."""
        if not line or not WILD.search(self.data, 0, self.end):
            return
        text, start, number, before = self.data[: self.end], self._start_of(line), 1, 0
        done = {found[1]: found.groups()[1:] for found in DONE.finditer(text, start)}
        for found in WILD.finditer(text, 0, start):
            number += text.count(b"\n", before, found.start() + 1)
            before = found.start() + 1
            if (found[1] or found[2]) in done:
                yield number, tuple(one.decode() for one in done[found[1] or found[2]])

    def sends_after(self, line: int, tag: str) -> Iterator[Call]:
        """The sends with a tag after a line; some may be of other tags."""
        wanted = b" %b" % tag.encode()
        for found in SENT.finditer(self.data[: self.end], self._start_of(line + 1)):
            if wanted in found[0]:
                yield Call(self.run, self.rank, found[0][1:].decode("latin-1"))

    def all_calls(self) -> list[Call]:
        """All of its calls with their reports, if there aren't very many."""
        return self.tail(MOST_READ) if self.end <= MOST_READ else []

    def tail(self, size=TAIL):
        """The last calls, as far as they are read at once."""
        start, calls = max(self.end - size, 0), []
        for line in self.data[start : self.end].decode("latin-1").split("\n")[1:-1]:
            if not line.startswith("="):
                calls.append(Call(self.run, self.rank, line))
            elif calls:
                calls[-1].reports.append(line.split(" "))
        return calls

    def open_requests(self):
        """The calls among the last ones that started requests which nothing completed."""
        started = {}
        for entry in self.tail():
            if STARTS.fullmatch(entry.word):
                started[entry.fields[0]] = entry
            ended = list(entry.fields) if entry.word in ("wait", "test", "request_free") else []
            for word, *fields in entry.reports:
                ended += fields if word == "=chose" else fields[:1] if word == "=done" else []
            for request in ended:
                started.pop(request, None)
        return list(started.values())

    def _call_at(self, place):
        """The call in the line at a place, or in the first one before it that is no report."""
        while place > 0 and (start := self.data.rfind(b"\n", 0, place) + 1):  # the header is no call
            if self.data[start : start + 1] != b"=":
                line = self.data[start : self.data.find(b"\n", place, self.end)]
                return Call(self.run, self.rank, line.decode("latin-1"))
            place = start - 1
        return None

    def made(self, number):
        """How a communicator came: its members, the call that made it, and how many that line made before.
        There may be no call."""
        found = re.compile(rb"\n=(comm|idup|apart) %d ([\d ]+)" % number).search(self.data, 0, self.end)
        if not found:
            return (), None, 0
        fields, place = found[2].split(), found.start() if found[1] == b"comm" else -1
        if found[1] == b"idup":
            place = self.data.find(b"\ncomm_idup %s " % fields.pop(0), 0, self.end) + 1
        entry = self._call_at(place)
        before = b" @%d\n=comm " % entry.site if entry and entry.site else None
        return tuple(map(int, fields)), entry, self.data[: found.start()].count(before) if before else 0

    def numbers_of(self, members: Iterable[int]) -> list[int]:
        """The rank's numbers of all communicators with these members, in the order in which they came."""
        group = " ".join(map(str, members)).encode()
        form = rb"\n=(?:(?:comm|apart) (\d+)|idup (\d+) \d+) %b(?=\n)" % group
        return [int(found[1] or found[2]) for found in re.finditer(form, self.data[: self.end] or b"")]

    def sites(self):
        """The places in the program: lists of frames, by number."""
        lines = (line.split("\t") for line in written(self.folder / f"sites{self.rank}"))
        return {int(number): [unescaped(frame) for frame in frames] for number, *frames in lines}

    def name(self, comm):
        """The name that the program gave to a communicator, or None."""
        if not self.names:
            lines = (line.partition(" ") for line in written(self.folder / f"names{self.rank}"))
            self.names = {0: None} | {int(number): unescaped(name) for number, _, name in lines}
        return self.names.get(comm)


def begin_first(folder: Path) -> None:
    """If the run ended before rank 0 had a journal, it gets one without calls: `judge' asks for one."""
    others = (mapped(path) for path in sorted(folder.glob("journal[0-9]*")))
    headers = [data[: data.find(b"\n", 0, end)] for data, end in others if end]
    if headers and not (folder / "journal0").exists():
        fields = headers[0].split(b" ")
        with suppress(OSError):
            (folder / "journal0").write_bytes(b" ".join([*fields[:2], b"0", *fields[3:5], b"o", b"none\n"]))


def journals_in(folder, run=None):
    """The journals of all ranks, by rank: as many as the first one that is there says."""
    most = resource.getrlimit(resource.RLIMIT_NOFILE)[1]
    resource.setrlimit(resource.RLIMIT_NOFILE, (most, most))  # each has a file open
    ranks = [int(name[7:]) for name in os.listdir(folder) if re.fullmatch(r"journal\d{1,4}", name)]
    journals = {rank: Journal(folder, rank, run) for rank in sorted(ranks)}
    count = next((one.header.ranks for one in journals.values() if one.header), 0)
    all_ranks = range(max([count - 1, *ranks]) + 1)
    journals = [journals.get(rank) or Journal(folder, rank, run) for rank in all_ranks]
    if all(one.last and one.last.word == "cut" for one in journals):
        for one in journals:
            one.has_ended = True
    return journals


def name_of(word, fields=()):
    """The MPI name of a call. One word is that of several calls if they wait for the same."""
    several = "all" if word in ("wait", "test") and len(fields) != 1 else ""
    return NAMES.get(word) or f"MPI_{word.capitalize()}{several}"


class Half(namedtuple("Half", "is_send peer rank tag comm")):
    """What a call sends or receives. Its rank is that in the world, None for nobody and anybody."""
    def text(self):
        valid = f"rank {self.rank}" if self.rank is not None else f"the invalid rank {self.peer}"
        peer = {"null": "nobody", "any": "anybody"}.get(self.peer, valid)
        tag = "any tag" if self.tag == "any" else f"tag {self.tag}"
        return f"{'to' if self.is_send else 'from'} {peer} with {tag}"


class Call:
    """A call line of a rank: its word, its fields, its site, and what was reported after it."""
    def __init__(self, run, rank, text, number=None):
        text, _, site = (text, "", "") if text.startswith("stopped") else text.partition(" @")
        self.word, *self.fields = text.split(" ")
        self.site, self.number, self.reports = int(site) if NUMBER.fullmatch(site) else 0, number, []
        self.run, self.rank, self.name = run, rank, name_of(self.word, self.fields)
        before = BEFORE.get(self.word)
        self.arguments = self.fields[before + 1 :] if before is not None else []
        comm = self.fields[before] if before is not None and self.fields[before:] else ""
        self.comm = int(comm) if NUMBER.fullmatch(comm) else None
        self.requests = self.fields if self.word in WAITS else self.fields[: before or self.word == "imrecv"]
        self.root = self.arguments[0] if self.arguments and self.word.removeprefix("i") in ROOTED else None

    @property
    def where(self):
        return self.run.places.where(self.rank, self.site) if self.site else ""

    @property
    def is_collective(self) -> bool:
        return self.word in ALL_COLLECTIVES

    def matches(self, other: Call) -> bool:
        """Whether two collective calls of one wave are the same, as MPI wants it."""
        if "comm_make" in (self.word, other.word):  # several functions have this word
            return {self.word, other.word} <= MAKERS
        return (self.word, self.root) == (other.word, other.root)

    @property
    def halves(self):
        kinds = [kind for kind, words in ((True, SENDS), (False, RECEIVES)) if self.word in words]
        for is_send, peer, tag in zip(kinds, self.arguments[::2], self.arguments[1::2]):
            yield Half(is_send, peer, self.run.world_rank(self.rank, self.comm, peer), tag, self.comm)

    def placed(self):
        line = f" (line {self.number} of journal{self.rank})" if self.number else ""
        return self.name + (f" at {self.where}" if self.where else line)

    def message(self):
        """Its messages, its root and its communicator in words."""
        parts = [", ".join(half.text() for half in self.halves)]
        parts += [f"with root {self.root}"] if self.root is not None else []
        parts += [f"on {self.run.label(self.rank, self.comm)}"] if self.comm else []
        return " ".join(filter(None, parts))

    def text(self):
        return f"{self.placed()} {self.message()}".rstrip()
