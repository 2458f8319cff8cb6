"""What else is wrong with a recording, over all its calls, reached or not."""

from collections.abc import Iterator
from dataclasses import dataclass, field

from .matches import Matches, Place
from .texts import spelled
from .traces import MAKERS, ROOTED, Call


@dataclass
class Finding:
    """What is said of it after the word `finding', and the calls that it is about."""

    kind: str
    fields: list[object]
    places: list[Place] = field(default_factory=list)

    @property
    def text(self) -> str:
        return spelled([self.kind, *self.fields])


def findings_of(matches: Matches) -> list[Finding]:
    """All of them, by kinds, and of one kind by their numbers."""
    kinds: list[Finding] = []
    roots: list[Finding] = []
    groups: list[Finding] = []
    for comm in range(len(matches.groups)):
        for wave in range(matches.count_of_waves(comm)):
            compare(matches, comm, wave, kinds, roots)
            groups += wrong_groups(matches, comm, wave)
    groups.sort(key=lambda finding: finding.places)
    return [*kinds, *roots, *unreceived(matches), *uncompleted(matches), *groups]


def compare(matches: Matches, comm: int, wave: int, kinds: list[Finding], roots: list[Finding]) -> None:
    """Each member's call of a wave with that of the first one, if both have one."""
    group, places = matches.groups[comm], matches.calls_of_wave(comm, wave)
    if places[0] is None:
        return
    first = matches.calls[group[0]][places[0]]
    for member, at in enumerate(places[1:], 1):
        if at is None:
            continue
        call = matches.calls[group[member]][at]
        both = [(group[0], places[0]), (group[member], at)]
        if first.word != call.word:
            kinds.append(Finding("kind", [comm, wave, member, first.word, call.word], both))
        elif first.word.removeprefix("i") in ROOTED and first.root != call.root:
            roots.append(Finding("root", [comm, wave, member, first.root, call.root], both))


def unreceived(matches: Matches) -> Iterator[Finding]:
    """The sends that no call receives."""
    for rank, one in enumerate(matches.calls):
        for at, call in enumerate(one):
            if call.sent and (rank, at) not in matches.partner_of_send:
                yield Finding("unreceived", [rank, at], [(rank, at)])


def uncompleted(matches: Matches) -> Iterator[Finding]:
    """The starts that no wait completes."""
    for rank, active in enumerate(matches.active):
        for request, at in sorted(active.items(), key=lambda pair: pair[1]):
            yield Finding("request", [rank, at, request], [(rank, at)])


def wrong_groups(matches: Matches, comm: int, wave: int) -> Iterator[Finding]:
    """The members' calls of a wave that make a communicator which has another group in the head than they give it."""
    group, places = matches.groups[comm], matches.calls_of_wave(comm, wave)
    calls = [matches.calls[rank][at] for rank, at in zip(group, places) if at is not None]
    if len(calls) < len(group) or len({call.word for call in calls}) > 1 or calls[0].word not in MAKERS:
        return
    given = groups_given(calls)
    for rank, at, call in zip(group, places, calls):
        if call.new is None or at is None:
            continue
        members = given[call.colour]
        is_right = matches.groups[call.new] == tuple(group[place] for place in members)
        if not is_right or calls[members[0]].new != call.new:
            yield Finding("group", [rank, at], [(rank, at)])


def groups_given(calls: list[Call]) -> dict[int | None, list[int]]:
    """The members' places of each new group, by its colour: by rising key, equal keys by place. That of a `dup' is
    all of them."""
    given: dict[int | None, list[int]] = {}
    for place in sorted(range(len(calls)), key=lambda place: calls[place].key):
        given.setdefault(calls[place].colour, []).append(place)
    return given
