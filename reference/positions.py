"""Where every maximal run of a recording ends: the number of calls that each rank completes.

A rank moves on once all that its call needs is reached. The order in which ranks move makes no difference.
"""

from collections import deque
from collections.abc import Set

from .matches import Matches, Place

Wave = tuple[int, int, str]  # a communicator, the number of the wave, and a word that tells it from a place
NEVER: Place = (-1, -1)


def sends_alone(matches: Matches, rank: int, at: int, eager: int | None) -> bool:
    """Whether what a call sends is buffered."""
    call = matches.calls[rank][at]
    is_small = eager is not None and call.size is not None and call.size <= eager
    return call.word in ("bsend", "ibsend") or call.word in ("send", "isend", "sendrecv") and is_small


class Positions:
    """`stands` has of each rank how many calls it completes. It never completes one at a barred place."""

    def __init__(self, matches: Matches, eager: int | None, barred: Set[Place] = frozenset()) -> None:
        self.matches, self.eager, self.barred = matches, eager, barred
        self.stands = [0] * len(matches.calls)
        self.waiters: dict[Place | Wave, list[int]] = {}  # the ranks that wait for a call or a wave to be reached
        self.arrived: dict[Wave, int] = {}  # how many members have reached their call
        self.work = deque(matches.ranks)
        for rank in matches.ranks:
            self._reach(rank)
        while self.work:
            self._move(self.work.popleft())

    def _move(self, rank: int) -> None:
        """As far as it can."""
        last = len(self.matches.calls[rank]) - 1
        while self.stands[rank] < last and (rank, self.stands[rank]) not in self.barred:
            if blocker := self._blocker(rank):
                self.waiters.setdefault(blocker, []).append(rank)
                return
            self.stands[rank] += 1
            self._reach(rank)

    def _reach(self, rank: int) -> None:
        """It is at another call. Those that waited for that are looked at again."""
        at = self.stands[rank]
        self.work += self.waiters.pop((rank, at), [])
        if (rank, at) in self.matches.wave_of:
            wave = self._wave(rank, at)
            self.arrived[wave] = self.arrived.get(wave, 0) + 1
            if self._is_full(wave):
                self.work += self.waiters.pop(wave, [])

    def _wave(self, rank: int, at: int) -> Wave:
        comm = self.matches.calls[rank][at].comm
        assert comm is not None
        return comm, self.matches.wave_of[rank, at], "wave"

    def _is_full(self, wave: Wave) -> bool:
        return self.arrived.get(wave, 0) == len(self.matches.groups[wave[0]])

    def _blocker(self, rank: int) -> Place | Wave | None:
        """Something that its call needs, and that isn't reached."""
        at = self.stands[rank]
        call = self.matches.calls[rank][at]
        if call.requests:
            starts = self.matches.requests(rank, at)
            return next(filter(None, (self._blocker_of(rank, start) for start in starts)), None)
        return None if call.request is not None else self._blocker_of(rank, at)

    def _blocker_of(self, rank: int, at: int) -> Place | Wave | None:
        """The same of a call as a blocking one."""
        call = self.matches.calls[rank][at]
        if (rank, at) in self.matches.wave_of:
            wave = self._wave(rank, at)
            return None if self._is_full(wave) else wave
        if call.sent and not sends_alone(self.matches, rank, at, self.eager):
            partner = self.matches.partner_of_send.get((rank, at), NEVER)
            if not self._is_reached(partner):
                return partner
        if call.received:
            partner = self.matches.partner_of_receive.get((rank, at), NEVER)
            if not self._is_reached(partner):
                return partner
        return None

    def _is_reached(self, partner: Place) -> bool:
        return partner != NEVER and partner[1] <= self.stands[partner[0]]
