"""Files in memory, and the rows of crates/cli_rows over them."""

import sys
import threading
from collections.abc import Iterator
from dataclasses import dataclass, field
from pathlib import Path

TOP = Path(__file__).resolve().parents[2]
sys.path[:0] = [str(TOP)]
sys.dont_write_bytecode = True

from reference.disk import Disk  # noqa: E402
from reference.texts import Named  # noqa: E402


class Reads:
    """A file that gives at most so many bytes a read, and of which one read may fail."""

    def __init__(self, text: bytes, pieces: int, fails: int | None, meeting: threading.Barrier | None) -> None:
        self.text, self.pieces, self.fails, self.meeting, self.count = text, pieces, fails, meeting, 0

    def read(self, most: int, /) -> bytes:
        if self.meeting and self.count == 0:
            try:
                self.meeting.wait(0.2)
            except threading.BrokenBarrierError:
                raise OSError from None
        self.count += 1
        if self.count - 1 == self.fails:
            raise OSError
        piece, self.text = self.text[: min(most, self.pieces)], self.text[min(most, self.pieces) :]
        return piece


@dataclass
class Memory(Disk):
    """The files of a row. A folder is there if a file is in it."""

    files: dict[str, bytes]
    fails: dict[str, int] = field(default_factory=dict)
    pieces: int = 1 << 30
    are_pipes: bool = False
    meets: tuple[str, ...] = ()
    can_make: bool = True
    made: dict[str, bytes] = field(default_factory=dict)

    def __post_init__(self) -> None:
        self.meeting = threading.Barrier(2)

    def open(self, path: str) -> Reads | None:
        if path not in self.files:
            return None
        meeting = self.meeting if path in self.meets else None
        return Reads(self.files[path], self.pieces, self.fails.get(path), meeting)

    def is_folder(self, path: str) -> bool:
        return any(name.startswith(f"{path}/") for name in self.files)

    def is_there(self, path: str) -> bool:
        return path in self.files

    def is_named(self, path: str) -> bool:
        return path in self.files

    def waits(self, path: str) -> bool:
        return self.are_pipes

    def write_folder(self, folder: str, texts: dict[str, str]) -> None:
        if not self.can_make:
            raise Named(f"fault make {folder}", 4)
        self.made = {f"{folder}/{name}": text.encode() for name, text in texts.items()}


@dataclass
class Row:
    name: str
    words: list[str] | None = None
    files: dict[str, bytes] = field(default_factory=dict)
    made: dict[str, bytes] = field(default_factory=dict)
    out: bytes = b""
    err: bytes = b""
    status: int = 0
    fails: dict[str, int] = field(default_factory=dict)
    pieces: int = 1 << 30
    marks: dict[str, list[str]] = field(default_factory=dict)  # all other lines, by their words

    def disk(self) -> Memory:
        meets = tuple(self.marks["meet"][0].split(" ")) if "meet" in self.marks else ()
        are_pipes = "threads" in self.marks
        return Memory(self.files, self.fails, self.pieces, are_pipes, meets, can_make=bool(self.made))


def text_of(kind: str, rest: str) -> bytes | None:
    """What a line adds to a text; None of another line."""
    count, _, text = rest.partition(" ")
    if kind in ("|", "."):
        return rest.encode() + b"\n" * (kind == "|")
    if kind == "zero":
        return b"\0" + rest.encode()
    if kind == "many":
        return (text + "\n").encode() * int(count)
    if kind == "repeat":
        return text.encode() * int(count)
    if kind == "counts":
        return "".join(f"{text} {number}\n" for number in range(1, int(count) + 1)).encode()
    return None


class Reader:
    """Takes the lines of rows one after the other."""

    def __init__(self) -> None:
        self.row = Row("")
        self.place: tuple[dict[str, bytes], str] | None = None  # where the text is that goes on; None: an output
        self.output = "out"

    def take(self, line: str) -> Row | None:
        """Answers a row that ends with this line."""
        kind, _, rest = line.partition(" ")
        if (more := text_of(kind, rest)) is not None:
            if self.place:
                texts, path = self.place
                texts[path] += more
            else:
                setattr(self.row, self.output, getattr(self.row, self.output) + more)
        elif kind == "row":
            self.row = Row(rest)
        elif kind == "same":
            before = self.row
            self.row = Row(rest, before.words, before.files)
        elif kind == "end":
            return self.row
        elif line and not line.startswith("# "):
            self.note(kind, rest)
        return None

    def note(self, kind: str, rest: str) -> None:
        row = self.row
        if kind in ("file", "made"):
            texts = row.files if kind == "file" else row.made
            texts[rest] = b""
            self.place = texts, rest
        elif kind in ("out", "err"):
            self.place, self.output = None, kind
        elif kind == "words":
            row.words = rest.split(" ") if rest else []
        elif kind in ("word", "bytes") and row.words is not None:
            row.words.append(rest if kind == "word" else bytes.fromhex(rest).decode("utf-8", "surrogateescape"))
        elif kind == "fails":
            path, number = rest.split(" ")
            row.fails[path] = int(number)
        elif kind in ("status", "pieces"):
            setattr(row, kind, int(rest))
        else:
            row.marks.setdefault(kind, []).append(rest)


def rows() -> Iterator[Row]:
    """Those of crates/cli_rows."""
    reader = Reader()
    for line in (TOP / "crates/cli_rows/stdin").read_text(encoding="utf-8").split("\n"):
        if row := reader.take(line):
            yield row
