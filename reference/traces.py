"""Traces: the calls of one rank, a line each, and the faults of lines and of their end."""

from collections.abc import Iterable, Iterator
from dataclasses import dataclass
from functools import lru_cache

from .heads import MOST_COMMUNICATORS, MOST_RANKS
from .texts import MOST, Lines, Stream, is_canonical

MOST_BYTES = 1024  # of a line, its line feed counted
MOST_REQUESTS = 64  # of a wait

WORDS = {
    "L1": "empty field", "L2": "unknown word", "L3": "number of fields", "L4": "field out of form or range",
    "L5": "wildcard", "L6": "line too long", "L7": "no line feed", "L8": "text after finalize",
    "E1": "no finalize", "E2": "read failed",
}  # fmt: skip

SENDS = {"send", "ssend", "bsend"}
STARTED_SENDS = {"i" + word for word in SENDS}
ROOTED = {"bcast", "gather", "scatter", "reduce"}
COLLECTIVES = ROOTED | {"barrier", "allgather", "alltoall", "allreduce", "scan", "exscan"}
STARTED_COLLECTIVES = {"i" + word for word in COLLECTIVES}
MAKERS = {"dup", "split"}
WAITS = {"wait", "waitall", "waitany"}
ENDS = {"finalize", "open"}
SIZED = {"send", "isend", "sendrecv"}  # they may have one field more: how many bytes are sent

# The fields of each word, one letter each:
# C: a communicator; N: a new one, M: that or none; Q: a request that is started, q: one that is waited for; I: the
# index of the one that completed; P: a destination, T: its tag; S: a source, U: its tag; B: bytes; R: a root;
# L, K: colour and key
FORMS = {
    **dict.fromkeys(SENDS, "CPT"), "recv": "CSU", "probe": "CSU", "sendrecv": "CPTSU",
    **dict.fromkeys(ROOTED, "CR"), **dict.fromkeys(COLLECTIVES - ROOTED, "C"), "dup": "CN", "split": "CLKM",
    **dict.fromkeys(ENDS, ""),
}  # fmt: skip
FORMS |= {"i" + word: "Q" + FORMS[word] for word in SENDS | COLLECTIVES | {"recv"}}
RANGES = {
    **dict.fromkeys("CNM", MOST_COMMUNICATORS - 1), **dict.fromkeys("PSR", MOST_RANKS - 1),
    **dict.fromkeys("TUQqBLI", MOST),
}  # fmt: skip
NAMES = {"P": b"null", "S": b"null", "L": b"undefined", "M": b"none"}  # words that a field may be instead


class LineFault(Exception):
    """The code of a line's fault."""


class TraceFault(Exception):
    """The number of calls before a trace's first fault, and the code of the fault."""

    def __init__(self, call: int, code: str, words: dict[str, str] | None = None) -> None:
        super().__init__(call, code)
        self.call, self.code, self.words = call, code, (words or WORDS)[code]

    def __str__(self) -> str:
        return f"call {self.call} {self.code} {self.words}"


Envelope = tuple[int, int, int, int]  # the communicator, source, destination and tag of a message


@dataclass(slots=True)
class Call:
    """One line. Peers are None for `null`, a colour for `undefined`, a new communicator for `none`."""

    text: str
    word: str
    fields: list[str]
    comm: int | None = None
    request: int | None = None  # that it starts
    requests: tuple[int, ...] = ()  # that it waits for
    chosen: int = 0  # the index of the one that a `waitany' completed
    peer: int | None = None
    tag: int = 0
    source: int | None = None
    source_tag: int = 0
    size: int | None = None  # the bytes that it sends, if they are recorded
    root: int | None = None
    colour: int | None = None
    key: int = 0
    new: int | None = None
    sent: Envelope | None = None  # both are known once it is known whose call it is
    received: Envelope | None = None

    @property
    def completes(self) -> tuple[int, ...]:
        """The requests that it completes."""
        return self.requests[self.chosen :][:1] if self.word == "waitany" else self.requests

    @property
    def is_in_wave(self) -> bool:
        """Whether all members of its communicator have to make one: a collective, `dup' or `split'."""
        return self.word in COLLECTIVES or self.word in STARTED_COLLECTIVES or self.word in MAKERS

    @property
    def is_probe(self) -> bool:
        return self.word == "probe"

    def made_by(self, me: int) -> None:
        """It is the call of the member with this rank in its communicator."""
        assert self.comm is not None
        if self.peer is not None:
            self.sent = self.comm, me, self.peer, self.tag
        if self.source is not None:
            self.received = self.comm, self.source, me, self.source_tag


ATTRIBUTES = {
    "C": "comm", "Q": "request", "I": "chosen", "P": "peer", "T": "tag", "S": "source", "U": "source_tag",
    "B": "size", "R": "root", "L": "colour", "K": "key", "N": "new", "M": "new",
}  # fmt: skip


def form_of(word: str, count: int) -> str:
    """A letter for each of so many fields. Raises the code of the fault."""
    if word in WAITS:
        least = 2 if word == "waitany" else 1
        most = 1 if word == "wait" else MOST_REQUESTS + least - 1
        if not least <= count <= most:
            raise LineFault("L3")
        return "I" * (least - 1) + "q" * (count - least + 1)
    if word not in FORMS:
        raise LineFault("L2")
    form = FORMS[word]
    if word in SIZED and count == len(form) + 1:
        return form + "B"
    if count != len(form):
        raise LineFault("L3")
    return form


@lru_cache(maxsize=1 << 16)
def value_of(letter: str, field: bytes) -> int | None:
    """What a field says. Raises the code of its fault."""
    if field == NAMES.get(letter):
        return None
    is_negative = letter == "K" and field[:1] == b"-" and field != b"-0"
    if is_canonical(field[is_negative:]) and len(field) <= 11:
        number = int(field)
        if -MOST - 1 <= number <= RANGES.get(letter, MOST):
            return number
    raise LineFault("L4")


def call_of(line: bytes) -> Call:
    """The call of a line with its line feed. Raises the code of the line's fault."""
    if len(line) > MOST_BYTES:
        raise LineFault("L6")
    if line[-1:] != b"\n":
        raise LineFault("L7")
    first, *fields = line[:-1].split(b" ")
    if not first or b"" in fields:
        raise LineFault("L1")
    word = first.decode("latin-1")
    form = form_of(word, len(fields))
    if any(field == b"any" and letter in "SU" for letter, field in zip(form, fields)):
        raise LineFault("L5")
    values = list(map(value_of, form, fields))
    text = line[:-1].decode("ascii")
    call = Call(text, word, text.split(" ")[1:])
    if word in WAITS:
        call.requests = tuple(values[form.count("I") :])
        call.chosen = values[0] if word == "waitany" else 0
        if call.chosen >= len(call.requests):
            raise LineFault("L4")
        return call
    for letter, value in zip(form, values):
        setattr(call, ATTRIBUTES[letter], value)
    return call


def calls_of(lines: Iterable[str]) -> list[Call]:
    """The calls of lines that have no fault."""
    return [call_of(f"{line}\n".encode("ascii")) for line in lines]


def calls_in(stream: Stream) -> Iterator[Call]:
    """The calls of a trace, one after the other. Where a fault comes, it is raised."""
    lines, place = Lines(stream), 0
    try:
        while line := lines.next(MOST_BYTES):
            call = call_of(line)
            place += 1
            yield call
            if call.word in ENDS:
                if not lines.are_over():
                    raise TraceFault(place, "L8")
                return
    except LineFault as fault:
        raise TraceFault(place, str(fault)) from None
    except OSError:
        raise TraceFault(place, "E2") from None
    raise TraceFault(place, "E1")
