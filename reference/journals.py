"""Journals: what a rank's program called, as it called it.

An entry is a call line with the lines after it that begin with `=', which report something of it or of an earlier
request. journal_faults.py has the form of journals.
"""

from dataclasses import dataclass, field

from .disk import Disk
from .journal_faults import Fault, check, header_of, lines_of
from .texts import PIECE, Named

ALWAYS_BACK = {"test", "iprobe", "improbe"}
OF_OTHER_CALLS = {"=done", "=gone", "=kept", "=moved", "=apart"}
STARTED_SENDS = {"isend", "irsend", "issend", "ibsend", "isendrecv"}

Header = tuple[int, int, bytes, bytes]  # the rank, the number of ranks, the run, and the state


@dataclass
class Entry:
    """A call line by its number in the journal, without its site, and the reports after it."""

    line: int
    word: str
    fields: list[str]
    reports: list[tuple[str, ...]] = field(default_factory=list)
    came_back: bool = False

    def reported(self, word: str) -> list[str] | None:
        """The fields of its first report with this word."""
        return next((list(fields) for found, *fields in self.reports if found == word), None)


@dataclass
class Journal:
    """The entries of a rank; the first one stands for what is reported before any call."""

    rank: int
    is_there: bool
    entries: list[Entry]

    def __post_init__(self) -> None:
        reports = [report for entry in self.entries for report in entry.reports]
        # By requests: the message that a receive took; which were cancelled, which weren't, and which go on elsewhere.
        self.done = {fields[0]: fields[1:] for word, *fields in reports if word == "=done"}
        self.gone = {fields[0] for word, *fields in reports if word == "=gone"}
        self.kept = {fields[0] for word, *fields in reports if word == "=kept"}
        self.moved = {fields[0] for word, *fields in reports if word == "=moved"}
        self.ends_with_cut = self.entries[-1].word == "cut"
        self.freed = {entry.fields[0] for entry in self.entries if entry.word == "request_free"}
        self.sends = {entry.fields[0] for entry in self.entries if entry.word in STARTED_SENDS}


def bytes_of(disk: Disk, path: str, is_needed: bool) -> tuple[bytes | None, bool]:
    """What can be read of a file up to its first zero byte, and whether that is all; None of one that isn't there and
    needn't be."""
    if not is_needed and not disk.is_named(path):
        return None, True
    stream = disk.open(path)
    if stream is None:
        raise Named(f"fault open {path}", 4)
    data = bytearray()
    try:
        while more := stream.read(16 * PIECE):
            data += more
            if b"\0" in more:
                break
    except OSError:
        return bytes(data), False
    return bytes(data), True


def journal_of(disk: Disk, folder: str, rank: int, first: Header | None) -> tuple[Header | None, Journal]:
    """The header and the journal of a rank; `first` is the header of that of rank 0."""
    data, is_whole = bytes_of(disk, f"{folder}/journal{rank}", rank == 0)
    if data is None:
        return None, Journal(rank, False, [Entry(1, "init", [])])
    lines = lines_of(data)
    try:
        header = header_of(lines) if lines or is_whole else None
        if header and (header[0] != rank or first and header[1:3] != first[1:3]):
            raise Fault(1, "J1")
        check(lines, rank, header[1] if header else 1)
    except Fault as fault:
        raise Named(f"refused rank {rank} {fault}", 2) from None
    if not is_whole:
        raise Named(f"fault rank {rank} line {len(lines) + 1} E2 read failed", 4)
    assert header is not None
    return header, Journal(rank, True, entries_of(lines, header[3] == b"o"))


def entries_of(lines: list[bytes], is_outside: bool) -> list[Entry]:
    """The entries of a journal's lines. `is_outside`: the last call came back."""
    entries = [Entry(1, "init", [])]
    for number, line in enumerate(lines[1:], 2):
        word, *fields = line.decode("latin-1").split(" ")
        if word.startswith("="):
            entries[-1].reports.append((word, *fields))
        else:
            has_site = word != "stopped" and fields and fields[-1].startswith("@")
            entries.append(Entry(number, word, fields[:-1] if has_site else fields))
    for entry in entries:
        own = [word for word, *_ in entry.reports if word not in OF_OTHER_CALLS]
        entry.came_back = entry.word in ALWAYS_BACK or bool(own)
    for entry in entries[:-1]:
        entry.came_back = True
    entries[-1].came_back |= is_outside
    return entries


def journals_in(disk: Disk, folder: str) -> list[Journal]:
    """Those of all ranks. Raises the first fault, by ranks."""
    first, journal = journal_of(disk, folder, 0, None)
    assert first is not None
    return [journal, *(journal_of(disk, folder, rank, first)[1] for rank in range(1, first[1]))]
