"""What the calls of a rank's journal stand for: the lines of its trace, rule by rule.

Each entry of the journal gives some lines, or ends the trace by `open' for a reason. Two things are known of a trace
besides its lines, where the question is what `judge` asks: the receives of which nobody knows what message they took,
which are undetermined, and the call that the rank was in when its journal ended, if it waits for some of several
things.
"""

import heapq
from collections.abc import Callable, Iterable, Sequence
from dataclasses import dataclass
from typing import NoReturn

from .communicators import MAKERS, SENDS, STARTED_SENDS, Communicators
from .journals import Entry, Journal
from .ranks import MOST_CALLS
from .texts import spelled
from .traces import COLLECTIVES, MOST_REQUESTS, STARTED_COLLECTIVES
from .waits import Item, Message, Pending

Request = str | int | tuple[int, str]  # as the journal has it; the line of a blocking call; one half of such a call
Moved = tuple[int, str, str]  # a communicator, a source and a tag, with wildcards


@dataclass(frozen=True)
class Choice:
    """What is asked of the journals."""

    tests: str = "wait"  # or pass: tests that completed a send wait for it at the end of the rank
    calls: str = "strict"  # or went: calls that came back stand for what they started
    has_undetermined: bool = False  # whether a list goes on after a receive whose message isn't known


class Left(Exception):
    """The list ends at this entry, by `open' in its place: why."""


class List:
    """The trace of one rank: its lines, and of which line of the journal each is."""

    def __init__(self, journal: Journal, communicators: Communicators, choice: Choice) -> None:
        self.journal, self.communicators = journal, communicators
        self.passes_tests = choice.tests == "pass" and choice.calls == "strict"
        self.as_it_went, self.has_undetermined = choice.calls == "went", choice.has_undetermined
        self.lines: list[str] = []
        self.places: list[int] = []
        self.end = None if journal.is_there else (0, "no journal")  # why it ends before its end, and at which line
        self.left = [self.end] if self.end else []  # what is left out: its line and why
        self.undetermined: dict[Request, Message] = {}
        self.messages: set[Message] = set()  # those that all undetermined receives may take
        self.pending: Pending | None = None
        self.starts: dict[int, Request] = {}  # the request that a place of the trace starts
        self.moved: dict[int, Moved] = {}  # what a receive that goes on in the next window may take, by its place
        self.same: dict[Request, str] = {}  # the message that a request of `imrecv' stands for
        self.active: dict[Request, int] = {}  # numbers by request
        self.free: list[int] = []
        self.most = 0
        self.late: list[Request] = []  # sends that are waited for at the end
        self.line = 0
        try:
            for text in communicators.preface(journal.rank):
                self.put(text)
            last = self.all_entries()
        except Left as why:
            self.end = (self.line, str(why))
            self.left.append(self.end)
            last = "open"
        self.lines.append(last)
        self.places.append(self.line)

    def all_entries(self) -> str:
        """Puts the lines of each entry. Answers the last line."""
        for entry in self.journal.entries:
            self.line = entry.line
            if entry.word in ENDS:
                raise Left(ENDS[entry.word])
            if entry.word in ("finalize", "exit") or entry.word == "cut" and self.communicators.are_cut:
                self.wait_for(self.late)
                return "finalize"
            if entry.reported("=failed") is not None:
                raise Left("failed")
            if entry.word == "cut":
                raise Left("cut")
            if entry.word in ENTRIES:
                ENTRIES[entry.word](self, entry)
        return "open"

    def put(self, *fields: object) -> None:
        if len(self.lines) == MOST_CALLS - 1:
            raise Left("too long")
        self.lines.append(spelled(fields))
        self.places.append(self.line)

    def leave(self, why: str) -> None:
        self.left.append((self.line, why))

    def stands_for_its_start(self, entry: Entry) -> bool:
        """With `--calls went`, a call that returned waits for nothing."""
        return self.as_it_went and entry.came_back

    # ---- Fields ----

    def key(self, field: str) -> int:
        return self.communicators.key(self.journal.rank, field)

    def can_be(self, comm: str, peer: str, tag: str = "0") -> None:
        """A peer or root is in the group, or null; a tag isn't below 0."""
        size = len(self.communicators.group(self.key(comm)))
        if peer not in ("null", "any") and not 0 <= int(peer) < size or tag != "any" and int(tag) < 0:
            raise Left("cannot be")

    def numbered(self, comm: str) -> int:
        number = self.communicators.number(self.key(comm))
        if number is None:
            raise Left("no number")
        return number

    def message(self, comm: str, source: str, tag: str, reported: list[str] | None) -> list[str]:
        """The source and the tag of a receive or probe, with what was reported in the place of wildcards."""
        self.can_be(comm, source, tag)
        if source == "null":
            return ["null", "0" if tag == "any" else tag]
        if "any" not in (source, tag) or reported is None:
            return [source, tag]
        message = [known if own == "any" else own for own, known in zip((source, tag), reported)]
        self.can_be(comm, *message)
        return message

    # ---- Requests ----

    def start(self, word: str, request: Request, *fields: object) -> None:
        """Its request gets the least free number. Nothing stands for one that was cancelled."""
        if request in self.journal.gone:
            return
        if not self.free:
            heapq.heappush(self.free, self.most)
            self.most += 1
        self.starts[len(self.lines)] = request
        self.put(word, self.free[0], *fields)
        self.active[request] = heapq.heappop(self.free)

    def standing(self, requests: Iterable[Request]) -> list[Request]:
        """Of some requests those that weren't cancelled or moved, each by what is in the trace for it."""
        left = self.journal.gone | self.journal.moved
        return [self.same.get(request, request) for request in requests if request not in left]

    def wait_for(self, requests: Sequence[Request]) -> None:
        for first in range(0, len(requests), MOST_REQUESTS):
            some = requests[first : first + MOST_REQUESTS]
            self.put("wait" if len(some) == 1 else "waitall", *(self.active[request] for request in some))
            self.complete(some)

    def complete(self, requests: Iterable[Request]) -> None:
        for request in requests:
            heapq.heappush(self.free, self.active.pop(request))

    # ---- Undetermined receives and pending calls ----

    def undetermined_by_place(self) -> dict[int, Message]:
        started = ((place, request) for place, request in self.starts.items() if request in self.undetermined)
        return {place: self.undetermined[request] for place, request in started}

    def start_undetermined(self, request: Request, number: int, message: list[str]) -> None:
        """It isn't known what it took, or it may have taken what an earlier one of these didn't."""
        self.start("irecv", request, number, "null", 0)
        self.undetermined[request] = message_of(number, message)
        self.messages.add(self.undetermined[request])

    def overlaps(self, number: int, message: list[str]) -> bool:
        """Whether it may take what an undetermined receive may."""
        if message[0] == "null":
            return False
        return any(message_of(number, message).overlaps(one) for one in self.messages)

    def is_undetermined(self, entry: Entry, number: int, message: list[str]) -> bool:
        """Of a blocking receive or a probe. It ends the list if its message isn't known, and also if that may have been
        taken by an undetermined receive; but with `--calls went`, if it returned, it is one more of these."""
        is_untold = "any" in message
        if not is_untold and not self.overlaps(number, message):
            return False
        if not is_untold and self.stands_for_its_start(entry):
            return True
        if not is_untold and entry.came_back:
            raise Left("not judged")
        self.end_pending(entry, "all", [message_of(number, message)])
        raise Left("never came back")

    def end_pending(self, entry: Entry, way: str, items: list[Item]) -> None:
        if self.has_undetermined and not entry.came_back and items:
            self.pending = Pending(way, items)

    def end_wait(self, entry: Entry, way: str) -> NoReturn:
        """Ends the list at a wait: with a pending call if it never came back."""
        if entry.came_back and way == "all":
            raise Left("not judged")
        items = [
            self.undetermined.get(one, self.active.get(one)) for one in (self.same.get(q, q) for q in entry.fields)
        ]
        known = [item for item in items if item is not None]
        self.end_pending(entry, way, known if way == "all" or len(known) == len(items) else [])
        raise Left("never came back")

    # ---- Messages ----

    def send(self, entry: Entry) -> None:
        comm, peer, tag, *size = entry.fields
        self.can_be(comm, peer, tag)
        self.start_or_put(entry, SENDS[entry.word], self.numbered(comm), peer, tag, *size)

    def start_or_put(self, entry: Entry, word: str, *fields: object) -> None:
        if self.stands_for_its_start(entry):
            self.start("i" + word, entry.line, *fields)
        else:
            self.put(word, *fields)

    def isend(self, entry: Entry) -> None:
        request, comm, peer, tag, *size = entry.fields
        self.can_be(comm, peer, tag)
        self.start(STARTED_SENDS[entry.word], request, self.numbered(comm), peer, tag, *size)

    def recv(self, entry: Entry) -> None:
        comm, source, tag = entry.fields
        message = self.message(comm, source, tag, entry.reported("=got"))
        number = self.numbered(comm)
        if self.is_undetermined(entry, number, message):
            self.start_undetermined(entry.line, number, message)
            self.leave("not judged")
        else:
            self.start_or_put(entry, "recv", number, *message)

    def irecv(self, entry: Entry) -> None:
        request, comm, source, tag = entry.fields
        message = self.message(comm, source, tag, self.journal.done.get(request))
        self.start_receive(request, self.numbered(comm), message, (source, tag))

    def start_receive(self, request: str, number: int, message: list[str], wanted: tuple[str, str]) -> None:
        """It goes on in the next window, or is `wanted' with the message in the place of wildcards."""
        if request in self.journal.moved:
            self.moved[len(self.lines)] = (number, *wanted)
            self.start("irecv", request, number, "null", 0)
            return
        is_untold = "any" in message and request not in self.journal.gone
        if is_untold and not self.has_undetermined:
            raise Left("never told")
        if is_untold or request not in self.journal.gone and self.overlaps(number, message):
            self.start_undetermined(request, number, message)
            self.leave("never told" if is_untold else "not judged")
        else:
            self.start("irecv", request, number, *message)

    def sendrecv(self, entry: Entry) -> None:
        comm, peer, tag, source, other, *size = entry.fields
        self.can_be(comm, peer, tag)
        message = self.message(comm, source, other, entry.reported("=got"))
        number = self.numbered(comm)
        sent, received = (entry.line, "send"), (entry.line, "receive")
        is_both = self.stands_for_its_start(entry)
        try:
            is_undetermined = self.is_undetermined(entry, number, message)
        except Left:
            if self.pending:
                pending, self.pending = self.pending, None
                self.start("isend", sent, number, peer, tag, *size)
                self.start_undetermined(received, number, message)
                self.pending = Pending("all", [self.active[sent], *pending.items])
            raise
        if is_both or is_undetermined:
            self.start("isend", sent, number, peer, tag, *size)
        if is_undetermined:
            self.start_undetermined(received, number, message)
            self.leave("not judged")
        elif is_both:
            self.start("irecv", received, number, *message)
        else:
            self.put("sendrecv", number, peer, tag, *message, *size)

    def isendrecv(self, entry: Entry) -> None:
        sent, received, comm, peer, tag, source, other, *size = entry.fields
        self.can_be(comm, peer, tag)
        message = self.message(comm, source, other, self.journal.done.get(received))
        number = self.numbered(comm)
        self.start("isend", sent, number, peer, tag, *size)
        self.start_receive(received, number, message, (source, other))

    def probe(self, entry: Entry) -> None:
        *request, comm, source, tag = entry.fields
        message = self.message(comm, source, tag, entry.reported("=got"))
        number = self.numbered(comm)
        is_undetermined = self.is_undetermined(entry, number, message)
        if not self.stands_for_its_start(entry):
            self.put("probe", number, *message)
        if request and is_undetermined:
            self.start_undetermined(*request, number, message)
            self.leave("not judged")
        elif request:
            self.start("irecv", *request, number, *message)

    def imrecv(self, entry: Entry) -> None:
        request, message = entry.fields
        self.same[request] = message

    # ---- Waits ----

    def wait(self, entry: Entry) -> None:
        if self.stands_for_its_start(entry):
            return
        if self.names_undetermined(entry.fields):
            self.end_wait(entry, "all")
        self.wait_for(self.standing(entry.fields))

    def names_undetermined(self, requests: Iterable[Request]) -> bool:
        return any(one in self.undetermined for one in self.standing(requests))

    def test(self, entry: Entry) -> None:
        if self.passes_tests and not self.names_undetermined(entry.fields):
            self.late += [one for one in self.standing(entry.fields) if one in self.journal.sends]
            self.wait_for([one for one in self.standing(entry.fields) if one not in self.journal.sends])
        else:
            self.wait(entry)

    def choose(self, entry: Entry) -> None:
        chosen = entry.reported("=chose")
        if chosen is None and len(entry.fields) > 1:
            self.end_wait(entry, "any")
        if self.stands_for_its_start(entry):
            return
        wanted = self.standing(chosen or entry.fields)
        if self.names_undetermined(chosen or entry.fields):
            self.end_wait(entry, "all")
        named = [one for one in self.standing(entry.fields) if one not in self.undetermined][:MOST_REQUESTS]
        if entry.word == "waitany" and len(entry.fields) > 1 and wanted and wanted[0] in named:
            self.put("waitany", named.index(wanted[0]), *(self.active[request] for request in named))
            self.complete(wanted)
        else:
            self.wait_for(wanted)

    def cancel(self, entry: Entry) -> None:
        request, journal = entry.fields[0], self.journal
        if request not in journal.gone and request not in journal.kept and request not in journal.done:
            raise Left("never told")

    # ---- Collectives ----

    def collective(self, entry: Entry) -> None:
        comm, *root = entry.fields
        for rank in root:
            self.can_be(comm, rank)
        self.start_or_put(entry, entry.word, self.numbered(comm), *root)

    def start_collective(self, entry: Entry) -> None:
        request, comm, *root = entry.fields
        for rank in root:
            self.can_be(comm, rank)
        word = "ibarrier" if entry.word == "comm_idup" else entry.word
        self.start(word, request, self.numbered(comm), *root)

    def make(self, entry: Entry) -> None:
        place, all_of = (self.journal.rank, entry.line), self.communicators
        parent = self.numbered(entry.fields[0])
        mine = all_of.brings.get(place)
        number = None if mine is None else all_of.number(mine)
        _, colour, rank = entry.fields if entry.word == "comm_split" else (None, None, "0")
        in_wave = all_of.in_wave.get(all_of.waves[place], [])
        if all(all_of.number(key) is None for _, key in in_wave):
            self.put("barrier", parent)
        elif number is None:
            self.put("split", parent, "undefined", rank, "none")
        elif entry.word == "comm_split":
            self.put("split", parent, int(colour) + 2**31 if int(colour) < 0 else colour, rank, number)
        elif all_of.group(mine) == all_of.group(self.key(entry.fields[0])) or entry.word == "comm_dup":
            self.put("dup", parent, number)
        else:
            group, of_parent = all_of.group(mine), all_of.group(self.key(entry.fields[0]))
            self.put("split", parent, of_parent.index(group[0]), group.index(self.journal.rank), number)

    def make_of_group(self, entry: Entry) -> None:
        number = self.communicators.number(self.communicators.brings[self.journal.rank, entry.line])
        if number is None:
            raise Left("no number")
        self.start_or_put(entry, "barrier", number)


def message_of(number: int, message: list[str]) -> Message:
    return Message(number, *(field if field == "any" else int(field) for field in message))


ENDS = {"stopped": "stopped", "abort": "aborted", "full": "full"}
ENTRIES: dict[str, Callable[[List, Entry], None]] = {
    **dict.fromkeys(SENDS, List.send), **dict.fromkeys(STARTED_SENDS, List.isend), "recv": List.recv,
    "irecv": List.irecv, "sendrecv": List.sendrecv, "isendrecv": List.isendrecv,
    **dict.fromkeys(("probe", "iprobe", "mprobe", "improbe"), List.probe), "imrecv": List.imrecv,
    "wait": List.wait, "mrecv": List.wait, "test": List.test, "waitany": List.choose, "waitsome": List.choose,
    "cancel": List.cancel,
    **dict.fromkeys(COLLECTIVES, List.collective),
    **dict.fromkeys(STARTED_COLLECTIVES | {"comm_idup"}, List.start_collective),
    **dict.fromkeys(MAKERS, List.make), "comm_create_group": List.make_of_group,
}  # fmt: skip
