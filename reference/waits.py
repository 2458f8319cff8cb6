"""Who waits for whom in a recording, and who is blocked forever, whatever comes after it.

A rank whose trace ends with `open' may be in a call, its pending one: it waits for all or any of some items, which are
messages and requests. A receive whose message isn't known is undetermined: its place and the message that it may take
are known, and nothing waits for it.
"""

from collections.abc import Iterable, Sequence, Set
from copy import copy
from dataclasses import dataclass
from functools import cached_property
from typing import NamedTuple

from .findings import Finding, findings_of
from .heads import Group
from .matches import Matches, Place
from .positions import Positions, sends_alone
from .texts import spelled
from .traces import ROOTED, Call, Envelope

LAST = 1 << 40  # as the call of a need, after all others: there is no such call

Cause = tuple[str, tuple[int, ...]]  # cycle, missing, starved; and ranks
Report = dict[str, object]


@dataclass(frozen=True)
class Message:
    """What a receive may take: source and tag are numbers, or `any'."""

    comm: int
    source: int | str
    tag: int | str

    def takes(self, comm: int, source: int, tag: int) -> bool:
        return self.comm == comm and self.source in ("any", source) and self.tag in ("any", tag)

    def overlaps(self, other: "Message") -> bool:
        """Whether both may take one message."""
        pairs = (self.source, other.source), (self.tag, other.tag)
        return self.comm == other.comm and all(mine == their or "any" in (mine, their) for mine, their in pairs)

    def __str__(self) -> str:
        return f"{self.comm}:{self.source}:{self.tag}"


Item = Message | int  # a message, or a request by its number


@dataclass
class Pending:
    """The call that a rank was in when its trace ended."""

    way: str  # all, any
    items: list[Item]

    @property
    def is_of_all(self) -> bool:
        return self.way == "all"

    def __str__(self) -> str:
        way = "any" if len(self.items) == 1 else self.way
        return spelled([way, *self.items])


class Need(NamedTuple):
    """A call of a rank, or none where its place is LAST; `sent' is the envelope if it is that of a send."""

    rank: int
    call: int
    sent: Envelope | None = None


def in_order(needs: Iterable[Need]) -> list[Need]:
    return sorted(needs, key=lambda need: need[:2])


class Waits(Matches):
    """`pending' by ranks, and `undetermined', of each rank the places of undetermined receives with their messages."""

    def __init__(
        self,
        groups: Sequence[Group],
        calls: list[list[Call]],
        pending: Sequence[Pending | None],
        undetermined: Sequence[dict[int, Message]],
        eager: int | None = None,
    ) -> None:
        super().__init__(groups, calls)
        self.pending, self.undetermined, self.eager = pending, undetermined, eager
        self.ends = [one[-1].word for one in self.calls]
        self._spare_for: dict[tuple[int, Message], list[Place]] = {}
        self._find_stands(frozenset())
        self._find_held(self.ranks)

    def _find_stands(self, barred: Set[Place]) -> None:
        """Where runs end in which no rank gets past a barred place."""
        self.barred = barred
        self.stands = Positions(self, self.eager, barred).stands
        self.stuck = [rank for rank in self.ranks if not self.is_at_end(rank)]
        self._unmet: dict[int, list[Need]] = {}

    def _find_held(self, asked: Iterable[int]) -> None:
        """The loose ranks are those that aren't asked, and the fewest others that let each other move on."""
        self.loose = set(self.ranks) - set(asked)
        while more := {rank for rank in self.ranks if rank not in self.loose and self._is_loose(rank)}:
            self.loose |= more
        waiting = {*self.stuck, *(rank for rank in self.ranks if self.is_at_pending(rank))}
        self.held = sorted(waiting - self.loose)

    # ---- Needs ----

    def halves(self, rank: int, at: int) -> list[list[Need]]:
        """The needs of a call, of each half or request by itself."""
        call = self.calls[rank][at]
        if call.requests:
            return [need for start in self.requests(rank, at) for need in self.halves_of_call(rank, start)]
        return [] if call.request is not None else self.halves_of_call(rank, at)

    def halves_of_call(self, rank: int, at: int) -> list[list[Need]]:
        """Those that it has as a blocking call."""
        call = self.calls[rank][at]
        if call.is_in_wave:
            return [self._needs_of_wave(rank, at)]
        halves = []
        if call.sent and not sends_alone(self, rank, at, self.eager):
            halves.append([self._need(call.sent, 2, self.partner_of_send.get((rank, at)), call.sent)])
        if call.received:
            halves.append([self._need(call.received, 1, self.partner_of_receive.get((rank, at)), None)])
        return halves

    def _need(self, envelope: Envelope, side: int, partner: Place | None, sent: Envelope | None) -> Need:
        if partner:
            return Need(*partner)
        return Need(self.groups[envelope[0]][envelope[side]], LAST, sent)

    def _needs_of_wave(self, rank: int, at: int) -> list[Need]:
        comm = self.calls[rank][at].comm
        assert comm is not None
        places = self.calls_of_wave(comm, self.wave_of[rank, at])
        return [Need(one, LAST if place is None else place) for one, place in zip(self.groups[comm], places)]

    def is_met(self, need: Need) -> bool:
        return need.call <= self.stands[need.rank]

    def unmet_of(self, halves: list[list[Need]]) -> list[Need]:
        """Also those that are alike, but for the half that they are of."""
        return in_order(need for half in halves for need in half if not self.is_met(need))

    def unmet(self, rank: int) -> list[Need]:
        """Those of the call at which a rank stands."""
        if rank not in self._unmet:
            self._unmet[rank] = self.unmet_of(self.halves(rank, self.stands[rank]))
        return self._unmet[rank]

    def is_at_end(self, rank: int) -> bool:
        return self.stands[rank] == len(self.calls[rank]) - 1

    def is_at_pending(self, rank: int) -> bool:
        return self.is_at_end(rank) and self.ends[rank] == "open" and self.pending[rank] is not None

    # ---- What may come ----

    def _is_loose(self, rank: int) -> bool:
        if (rank, self.stands[rank]) in self.barred:
            return False
        if not self.is_at_end(rank):
            return all(map(self.may_come, self.unmet(rank)))
        if self.ends[rank] != "open":
            return False
        pending = self.pending[rank]
        if pending is None:
            return True
        come = (self.item_may_come(rank, item) for item in pending.items)
        return all(come) if pending.is_of_all else any(come)

    def may_come(self, need: Need) -> bool:
        rank, is_loose = need.rank, need.rank in self.loose
        if need.sent and need.call == LAST:
            comm, source, _, tag = need.sent
            for place, message in self.undetermined[rank].items():
                if message.takes(comm, source, tag) and (place <= self.stands[rank] or is_loose):
                    return True
        return is_loose and not (need.call == LAST and self.ends[rank] == "finalize")

    def item_may_come(self, rank: int, item: Item) -> bool:
        if not isinstance(item, Message):
            return all(map(self.may_come, self.needs_of_request(rank, item)))
        if any(at <= self.stands[one] for one, at in self.spare_for(rank, item)):
            return True
        return any(one in self.loose for one in self.senders(rank, item))

    def needs_of_request(self, rank: int, number: int) -> list[Need]:
        """Those of a request that is active at the end of a list."""
        return self.unmet_of(self.halves_of_call(rank, self.active[rank][number]))

    @cached_property
    def spare(self) -> list[tuple[int, int, Envelope]]:
        """The sends that no call receives."""
        return [
            (rank, at, call.sent)
            for rank, one in enumerate(self.calls)
            for at, call in enumerate(one)
            if call.sent and (rank, at) not in self.partner_of_send
        ]

    def spare_for(self, rank: int, message: Message) -> list[Place]:
        """Those that a message of a rank may be."""
        if (rank, message) not in self._spare_for:
            self._spare_for[rank, message] = [
                (sender, at)
                for sender, at, (comm, source, to, tag) in self.spare
                if message.takes(comm, source, tag) and self.groups[comm][to] == rank
            ]
        return self._spare_for[rank, message]

    def senders(self, rank: int, message: Message) -> list[int]:
        """The other members that a message may come from, rising: those with a spare send or an open list."""
        group = self.groups[message.comm]
        members = group if isinstance(message.source, str) else [group[message.source]]
        spare = {sender for sender, _ in self.spare_for(rank, message)}
        may_send = {one for one in members if one in spare or self.ends[one] == "open"}
        return sorted(may_send - {rank})

    def held_senders(self, rank: int, message: Message) -> list[int]:
        held = set(self.held)
        return [one for one in self.senders(rank, message) if one in held]

    # ---- Causes ----

    def next_of(self, rank: int) -> int | Cause:
        """The rank that the walk goes on to, or the cause that ends it."""
        pending = self.pending[rank] if self.is_at_pending(rank) else None
        if pending is None:
            return self._next_by(rank, self.unmet(rank))
        item = next(one for one in pending.items if not self.item_may_come(rank, one))
        if not isinstance(item, Message):
            return self._next_by(rank, self.needs_of_request(rank, item))
        others = self.held_senders(rank, item)
        return others[0] if others else ("starved", (rank,))

    def _next_by(self, rank: int, needs: list[Need]) -> int | Cause:
        need = next(one for one in needs if not self.may_come(one))
        if need.call == LAST and self.ends[need.rank] == "finalize":
            return "missing", (rank, need.rank)
        return need.rank

    def causes(self) -> list[Cause]:
        """Each once: the cycles, the missing calls, and the ranks that no message can come to."""
        after = {rank: self.next_of(rank) for rank in self.held}
        found = {self._cause_from(rank, after) for rank in self.held}
        return sorted(found, key=lambda cause: (("cycle", "missing", "starved").index(cause[0]), cause[1]))

    def _cause_from(self, rank: int, after: dict[int, int | Cause]) -> Cause:
        walk: dict[int, None] = {}
        at: int | Cause = rank
        while isinstance(at, int) and at not in walk:
            walk[at] = None
            at = after[at]
        if not isinstance(at, int):
            return at
        ranks = list(walk)
        ranks = ranks[ranks.index(at) :]
        lowest = ranks.index(min(ranks))
        return "cycle", (*ranks[lowest:], *ranks[:lowest])

    # ---- The report ----

    def verdict(self) -> str:
        if self.held:
            return "hang"
        are_over = [self.is_at_end(rank) and self.ends[rank] == "finalize" for rank in self.ranks]
        return "free" if all(are_over) else "unfinished"

    def report(self) -> Report:
        waiting = sorted({*self.stuck, *self.held})
        causes = [{kind: ranks[0] if kind == "starved" else list(ranks)} for kind, ranks in self.causes()]
        ranks = [{"rank": rank, "at": self.stands[rank], **self._call_and_needs(rank)} for rank in waiting]
        findings = [finding.text for finding in self.findings]
        return {"verdict": self.verdict(), "causes": causes, "findings": findings, "ranks": ranks}

    def _call_and_needs(self, rank: int) -> Report:
        pending = self.pending[rank] if self.is_at_pending(rank) else None
        if pending is None:
            return {"call": self.calls[rank][self.stands[rank]].text, "needs": spelled_needs(self.unmet(rank))}
        needs = [need for item in pending.items for need in self._needs_of_item(rank, item)]
        return {"call": str(pending), "needs": needs}

    def _needs_of_item(self, rank: int, item: Item) -> list[list[int | None]]:
        if not isinstance(item, Message):
            return spelled_needs(self.needs_of_request(rank, item))
        if self.item_may_come(rank, item):
            return []
        return [[one] for one in self.held_senders(rank, item)] or [[]]

    # ---- Findings ----

    @cached_property
    def findings(self) -> list[Finding]:
        """Those of the recording, but for what undetermined receives may settle, and what an open list may."""
        return [one for one in findings_of(self) if not self._is_settled(one)]

    def _is_settled(self, finding: Finding) -> bool:
        if finding.kind not in ("unreceived", "request"):
            return False
        rank, at = finding.places[0]
        call = self.calls[rank][at]
        if finding.kind == "request":
            return self.ends[rank] == "open" or at in self.undetermined[rank]
        assert call.sent is not None
        comm, source, to, tag = call.sent
        receiver = self.groups[comm][to]
        taken = any(one.takes(comm, source, tag) for one in self.undetermined[receiver].values())
        return self.ends[receiver] == "open" or taken

    # ---- Waves that disagree ----

    def held_among(self, asked: Iterable[int]) -> list[int]:
        """The held ranks of those that are asked, where a wave that disagrees never completes."""
        among, barred = copy(self), self.awaiting_disagreeing()
        if barred:
            among._find_stands(barred)
        among._find_held(asked)
        return among.held

    def awaiting_disagreeing(self) -> set[Place]:
        """The places of the calls that wait for a wave that disagrees, and don't only start a call of it."""
        found = {(rank, at) for rank, at in self.disagreeing if self.calls[rank][at].request is None}
        for (rank, at), starts in self.started.items():
            if any((rank, start) in self.disagreeing for start in starts):
                found.add((rank, at))
        return found

    @cached_property
    def disagreeing(self) -> set[Place]:
        """The ranks and places of the calls of all waves that disagree."""
        found: set[Place] = set()
        for comm, group in enumerate(self.groups):
            for wave in range(self.count_of_waves(comm)):
                places = zip(group, self.calls_of_wave(comm, wave))
                members = [(rank, at) for rank, at in places if at is not None]
                if len({self._operation(*one) for one in members}) > 1 or self._mixes_forms(members):
                    found.update(members)
        return found

    def _operation(self, rank: int, at: int) -> tuple[str, int | None]:
        """What members have to agree on: the word without its form, and the root."""
        call = self.calls[rank][at]
        word = call.word.removeprefix("i") if call.request is not None else call.word
        return word, call.root if word in ROOTED else None

    def _mixes_forms(self, members: list[Place]) -> bool:
        """Whether some call is blocking, and another one nonblocking with a later call that completes it."""
        forms = {self.calls[rank][at].request is None for rank, at in members}
        return len(forms) > 1 and any(one in self.completed for one in members)

    @cached_property
    def completed(self) -> set[Place]:
        """The ranks and places of the starts that a later call completes."""
        return {(rank, start) for (rank, _), starts in self.started.items() for start in starts}


def spelled_needs(needs: list[Need]) -> list[list[int | None]]:
    pairs = sorted({need[:2] for need in needs})
    return [[rank, None if call == LAST else call] for rank, call in pairs]
