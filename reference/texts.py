"""What heads, traces and journals have in common: fields, numbers, and answers that are no report."""

import re
from collections.abc import Iterable
from typing import Protocol

MOST = 2**31 - 1  # the greatest tag, request and number of bytes
NUMBER = re.compile(rb"0|[1-9][0-9]*")
PIECE = 1 << 16  # bytes that are read at once


class Named(Exception):
    """A refusal or a fault in place of a report: what is said of it, and the status."""

    def __init__(self, text: str, status: int) -> None:
        super().__init__(text, status)
        self.text, self.status = text, status


class Stream(Protocol):
    """A file that is read from its beginning to its end. A read that fails raises OSError."""

    def read(self, most: int, /) -> bytes: ...


def spelled(fields: Iterable[object]) -> str:
    """The fields of a line, or the numbers of a report, with a space between them."""
    return " ".join(map(str, fields))


def is_canonical(field: bytes) -> bool:
    """Whether it is a number without a sign and without zeros before it."""
    return NUMBER.fullmatch(field) is not None


class Lines:
    """The lines of a file, one after the other. It is read only as far as they ask for it."""

    def __init__(self, stream: Stream) -> None:
        self.stream, self.held, self.at = stream, b"", 0

    def next(self, most: int) -> bytes:
        """A line with its line feed. The last one may lack it: at the end, or where it has more than `most` bytes
        already. After the end no bytes."""
        while (end := self.held.find(b"\n", self.at)) < 0 and len(self.held) - self.at <= most:
            more = self.stream.read(PIECE)
            self.held, self.at = self.held[self.at :] + more, 0
            if not more:
                break
        begin, self.at = self.at, len(self.held) if end < 0 else end + 1
        return self.held[begin : self.at]

    def are_over(self) -> bool:
        return self.at == len(self.held) and not self.stream.read(PIECE)
