"""Whether a run is cut where nothing is under way: by the lists of all ranks, of which each ends at its cut.

A list has the lines of its trace, and of each the line of the journal. A receive that goes on behind the cut stands
there as one from nobody; the list's `moved' says what it may take. One of which it was never reported what it took
has no partner.
"""

from collections import Counter
from collections.abc import Callable, Hashable, Iterable, Iterator

from .heads import Group
from .lists import List, Moved
from .traces import COLLECTIVES, MAKERS, SENDS, Envelope


class Calls:
    """What the calls of one rank send, receive, see and join: each by its line of the journal."""

    def __init__(self, rank: int, list_of_rank: List, groups: list[Group]) -> None:
        self.rank, self.groups = rank, groups
        self.sends: list[tuple[int, Envelope]] = []
        self.receives: list[tuple[int, Envelope]] = []
        self.probes: list[tuple[int, tuple[Envelope, int]]] = []  # with how many receives of it come before
        self.joins: list[tuple[int, int]] = []
        self.alone: list[int] = []  # receive an unknown message, or what a moved receive before them may take
        self.moved: list[Moved] = []
        undetermined = list_of_rank.undetermined_by_place()
        for at, (text, line) in enumerate(zip(list_of_rank.lines, list_of_rank.places)):
            if at in list_of_rank.moved:
                self.moved.append(list_of_rank.moved[at])
            elif at in undetermined:
                self.alone.append(line)
            else:
                self.take(line, *text.split(" "))

    def take(self, line: int, word: str, *fields: str) -> None:
        if word.startswith("i"):
            word, fields = word[1:], fields[1:]
        if word in SENDS:
            self.send(line, *fields[:3])
        elif word == "sendrecv":
            comm, peer, tag, *received = fields
            self.send(line, comm, peer, tag)
            self.receive(line, comm, *received[:2])
        elif word == "recv":
            self.receive(line, *fields)
        elif word == "probe" and fields[1] != "null":
            self.look(line, *fields)
            seen = sum(what == self.message(*fields) for _, what in self.receives)
            self.probes.append((line, (self.message(*fields), seen)))
        elif word in COLLECTIVES or word in MAKERS:
            self.joins.append((line, int(fields[0])))

    def message(self, comm: str, peer: str, tag: str, is_sent: bool = False) -> Envelope:
        """Its communicator, source, destination and tag; ranks are those of the world."""
        group = self.groups[int(comm)]
        source, to = (self.rank, group[int(peer)]) if is_sent else (group[int(peer)], self.rank)
        return int(comm), source, to, int(tag)

    def send(self, line: int, comm: str, peer: str, tag: str) -> None:
        if peer != "null":
            self.sends.append((line, self.message(comm, peer, tag, True)))

    def receive(self, line: int, comm: str, peer: str, tag: str) -> None:
        if peer != "null":
            self.look(line, comm, peer, tag)
            self.receives.append((line, self.message(comm, peer, tag)))

    def look(self, line: int, comm: str, peer: str, tag: str) -> None:
        for number, *wanted in self.moved:
            pairs = zip(wanted, (peer, tag))
            if int(comm) == number and all(one in ("any", other) for one, other in pairs):
                self.alone.append(line)


def beyond(items: Iterable[tuple[int, Hashable]], most: Callable[[Hashable], int]) -> Iterator[int]:
    """The lines of those that have no partner: of each kind those after so many."""
    seen: Counter[Hashable] = Counter()
    for line, what in items:
        seen[what] += 1
        if seen[what] > most(what):
            yield line


def first_unclean(lists: list[List], groups: list[Group]) -> tuple[int, int] | None:
    """The rank and the line of the first entry that lacks its partner or its wave; None if there is none."""
    ranks = [Calls(rank, one, groups) for rank, one in enumerate(lists)]
    sends = Counter(what for one in ranks for _, what in one.sends)
    receives = Counter(what for one in ranks for _, what in one.receives)
    joins = [Counter(comm for _, comm in one.joins) for one in ranks]

    def waves(comm: int) -> int:
        return min(joins[rank][comm] for rank in groups[comm])

    for one in ranks:
        lines = [
            *beyond(one.sends, lambda what: receives[what]),
            *beyond(one.receives, lambda what: sends[what]),
            *beyond(one.joins, waves),
            *(line for line, (what, seen) in one.probes if sends[what] <= seen),
            *one.alone,
        ]
        if lines:
            return one.rank, min(lines)
    return None
