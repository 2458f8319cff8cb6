"""Which calls of a recording meet: sends and receives, the members' collectives, and waits and what they complete.

All is over the whole recording, reached or not. A place is the number of a rank's calls before one.
"""

from collections.abc import Sequence

from .heads import Group
from .ranks import places_in
from .traces import Call, Envelope

Place = tuple[int, int]  # a rank and the place of its call


class Matches:
    def __init__(self, groups: Sequence[Group], calls: list[list[Call]]) -> None:
        self.groups, self.calls = list(groups), calls
        self.ranks = range(len(calls))
        self.partner_of_send: dict[Place, Place] = {}
        self.partner_of_receive: dict[Place, Place] = {}  # of a probe that of the message that it sees
        self.waves: dict[tuple[int, int], list[int]] = {}  # by communicator and rank: its places on it
        self.wave_of: dict[Place, int] = {}  # how many of the rank's calls on the communicator came before
        self.started: dict[Place, list[int]] = {}  # of a wait the places of the starts that it completes
        self.active: list[dict[int, int]] = [{} for _ in calls]  # at the end: the places of starts by request
        self._place_calls()
        self._find_waves()
        self._find_starts()
        self._find_partners()

    def _place_calls(self) -> None:
        places = places_in(self.groups)
        for rank, one in enumerate(self.calls):
            for call in one:
                if call.comm is not None:
                    call.made_by(places[call.comm][rank])

    def _find_waves(self) -> None:
        for rank, one in enumerate(self.calls):
            for at, call in enumerate(one):
                if call.comm is not None and call.is_in_wave:
                    places = self.waves.setdefault((call.comm, rank), [])
                    self.wave_of[rank, at] = len(places)
                    places.append(at)

    def _find_starts(self) -> None:
        for rank, one in enumerate(self.calls):
            active = self.active[rank]
            for at, call in enumerate(one):
                if call.request is not None:
                    active[call.request] = at
                elif call.requests:
                    self.started[rank, at] = [active.pop(number) for number in call.completes]

    def _find_partners(self) -> None:
        """The n-th send of an envelope meets its n-th receive. A probe sees the message of the next receive."""
        sends: dict[Envelope, list[Place]] = {}
        receives: dict[Envelope, list[Place]] = {}
        probes: list[tuple[Place, Envelope, int]] = []
        for rank, one in enumerate(self.calls):
            for at, call in enumerate(one):
                if call.sent:
                    sends.setdefault(call.sent, []).append((rank, at))
                if call.received and call.is_probe:
                    probes.append(((rank, at), call.received, len(receives.get(call.received, []))))
                elif call.received:
                    receives.setdefault(call.received, []).append((rank, at))
        for envelope, places in sends.items():
            for mine, other in zip(places, receives.get(envelope, [])):
                self.partner_of_send[mine], self.partner_of_receive[other] = other, mine
        for place, seen, count in probes:
            for send in sends.get(seen, [])[count : count + 1]:
                self.partner_of_receive[place] = send

    def requests(self, rank: int, at: int) -> list[int]:
        """The places of the starts that a wait completes, in its order; none of another call."""
        return self.started.get((rank, at), [])

    def calls_of_wave(self, comm: int, wave: int) -> list[int | None]:
        """Of each member the place of its call, None where it has none."""
        lists = [self.waves.get((comm, rank), []) for rank in self.groups[comm]]
        return [one[wave] if wave < len(one) else None for one in lists]

    def count_of_waves(self, comm: int) -> int:
        """How many waves some member of a communicator has a call in."""
        return max(len(self.waves.get((comm, rank), [])) for rank in self.groups[comm])
