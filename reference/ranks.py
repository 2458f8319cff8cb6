"""Which calls a rank can make after those before: the faults of calls, and the calls of each rank."""

from .heads import Group
from .texts import Stream
from .traces import Call, TraceFault, calls_in

MOST_CALLS = 1_000_000

WORDS = {
    "C1": "unknown communicator", "C2": "communicator not held", "C3": "peer or root out of group",
    "C4": "request in use", "C5": "request not active", "C6": "request repeated", "C7": "wrong new communicator",
    "C8": "too many calls",
}  # fmt: skip


class Rank:
    """What a rank has by the calls so far: communicators, and active requests."""

    def __init__(self, rank: int, groups: list[Group], places: list[dict[int, int]]) -> None:
        """`places` has of each communicator the rank in its group of each member."""
        self.rank, self.groups, self.places = rank, groups, places
        self.held, self.active, self.calls = {0}, set[int](), list[Call]()

    def fault_of(self, call: Call) -> str | None:
        """The code of the fault that a call has after those before."""
        if len(self.calls) == MOST_CALLS:
            return "C8"
        if call.comm is not None:
            if call.comm >= len(self.groups):
                return "C1"
            if call.comm not in self.held or self.rank not in self.places[call.comm]:
                return "C2"
            size = len(self.groups[call.comm])
            if any(peer is not None and peer >= size for peer in (call.peer, call.source, call.root)):
                return "C3"
        if call.request in self.active:
            return "C4"
        if len(set(call.requests)) < len(call.requests):
            return "C6"
        if not self.active.issuperset(call.requests):
            return "C5"
        return None if self.may_make(call) else "C7"

    def may_make(self, call: Call) -> bool:
        """Whether the new communicator that it names, if any, can be one."""
        if call.word == "split" and (call.colour is None) != (call.new is None):
            return False
        new = call.new
        return new is None or 0 < new < len(self.groups) and self.rank in self.places[new] and new not in self.held

    def take(self, call: Call) -> None:
        """Adds a call that has no fault."""
        self.calls.append(call)
        if call.request is not None:
            self.active.add(call.request)
        self.active.difference_update(call.completes)
        if call.new is not None:
            self.held.add(call.new)


def places_in(groups: list[Group]) -> list[dict[int, int]]:
    """Of each group the rank in it of each member."""
    return [{member: place for place, member in enumerate(group)} for group in groups]


def calls_of_rank(rank: int, groups: list[Group], places: list[dict[int, int]], stream: Stream) -> list[Call]:
    """The calls of a rank. Raises its first fault: of a line, of the end, or of a call."""
    known = Rank(rank, groups, places)
    for call in calls_in(stream):
        if code := known.fault_of(call):
            raise TraceFault(len(known.calls), code, WORDS)
        known.take(call)
    return known.calls
