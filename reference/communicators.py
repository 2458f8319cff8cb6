"""The communicators of a run's journals.

Each rank numbers its own. Here they are found, numbered for the head, and put into the prefaces of the traces.
"""

from collections.abc import Iterable
from dataclasses import dataclass

from .heads import Group
from .journals import Entry, Journal
from .texts import spelled
from .traces import COLLECTIVES, STARTED_COLLECTIVES

MOST_COMMUNICATORS = 4095  # of a head, the world not counted

SENDS = {"send": "send", "rsend": "send", "ssend": "ssend", "bsend": "bsend"}
STARTED_SENDS = {"isend": "isend", "irsend": "isend", "issend": "issend", "ibsend": "ibsend"}
MAKERS = {"comm_dup", "comm_split", "comm_make"}
IN_WAVES = COLLECTIVES | STARTED_COLLECTIVES | MAKERS | {"comm_idup"}
# The place of the communicator in the fields of the calls that are on one.
ON = {
    **dict.fromkeys({*SENDS, *COLLECTIVES, *MAKERS, "recv", "sendrecv", "probe", "iprobe"}, 0),
    **dict.fromkeys({*STARTED_SENDS, *STARTED_COLLECTIVES, "comm_idup", "irecv", "mprobe", "improbe"}, 1),
    "isendrecv": 2,
}


@dataclass(frozen=True)
class Key:
    """How a communicator came to be: two are the same exactly if their keys are equal. `parent` is the place
    of the parent's key among all keys, `count` how many like it came before."""

    way: str  # world, alone, made, idup, group, apart
    parent: int
    count: int
    group: Group


Wave = tuple[int, int]  # the parent of a call that all members make, and how many of the rank's came before
At = tuple[int, int]  # a rank, and a line of its journal


class Own:
    """What a rank has: places of keys, by its own numbers and in the order in which it got them."""

    def __init__(self, world: int, alone: int) -> None:
        self.local, self.has = {0: world, 1: alone}, [alone]
        self.idups: dict[str, Wave] = {}  # by request
        self._counts: dict[tuple[object, ...], int] = {}

    def count(self, *what: object) -> int:
        """How many like this came before."""
        self._counts[what] = self._counts.get(what, -1) + 1
        return self._counts[what]

    def got(self, key: int, local: str | None = None) -> None:
        self.has.append(key)
        if local is not None:
            self.local[int(local)] = key


class Communicators:
    def __init__(self, journals: list[Journal]) -> None:
        self.journals = journals
        self.are_cut = all(journal.ends_with_cut for journal in journals)
        self.keys: list[Key] = []  # all of them
        self.places: dict[Key, int] = {}  # in that list
        self.world = self._place("world", -1, 0, range(len(journals)))
        self.owns = [Own(self.world, self._place("alone", -1, 0, [journal.rank])) for journal in journals]
        self.named: set[int] = set()  # by a call other than that which makes it
        # By rank and line: of a call that all members make the parent and how many came before; of one that
        # makes a communicator its key.
        self.waves: dict[At, Wave] = {}
        self.brings: dict[At, int] = {}
        for journal, own in zip(journals, self.owns):
            for entry in journal.entries:
                self._call(entry, (journal.rank, entry.line), own)
                for word, *fields in entry.reports:
                    self._report(word, fields, (journal.rank, entry.line), own)
        self.in_wave: dict[Wave, list[tuple[int, int]]] = {}  # the ranks that report a communicator, and its key
        for (rank, line), key in self.brings.items():
            if self.keys[key].way == "made":
                self.in_wave.setdefault(self.waves[rank, line], []).append((rank, key))
        for journal in journals:
            self._find_untold(journal)
        self.numbered = [self.world, *self._with_numbers()]
        self.numbers = {key: number for number, key in enumerate(self.numbered)}
        self.layers = self._layers()

    def _place(self, way: str, parent: int, count: int, group: Iterable[int | str]) -> int:
        key = Key(way, parent, count, tuple(map(int, group)))
        if key not in self.places:
            self.places[key] = len(self.keys)
            self.keys.append(key)
        return self.places[key]

    def key(self, rank: int, local: str) -> int:
        return self.owns[rank].local[int(local)]

    def group(self, key: int) -> Group:
        return self.keys[key].group

    def number(self, key: int) -> int | None:
        return self.numbers.get(key)

    # ---- Which there are ----

    def _call(self, entry: Entry, place: At, own: Own) -> None:
        if entry.word in ON:
            parent = own.local[int(entry.fields[ON[entry.word]])]
            self.named.add(parent)
            if entry.word in IN_WAVES:
                self.waves[place] = parent, own.count(parent)
            if entry.word == "comm_idup":
                own.idups[entry.fields[0]] = self.waves[place]
        elif entry.word == "comm_create_group":
            group = entry.fields
            self.brings[place] = self._place("group", -1, own.count("group", *group), group)
            self.named.add(self.brings[place])
            own.got(self.brings[place])

    def _report(self, word: str, fields: list[str], place: At, own: Own) -> None:
        if word == "=comm" and place in self.brings:
            own.local[int(fields[0])] = self.brings[place]  # by comm_create_group
        elif word == "=comm":
            self.brings[place] = self._place("made", *self.waves[place], fields[1:])
            own.got(self.brings[place], fields[0])
        elif word == "=idup":
            own.got(self._place("idup", *own.idups[fields[1]], fields[2:]), fields[0])
        elif word == "=apart":
            own.got(self._place("apart", -1, own.count("apart", *fields[1:]), fields[1:]), fields[0])

    def _find_untold(self, journal: Journal) -> None:
        """A call that never came back may have made what other ranks report of the same wave."""
        entry = journal.entries[-1]
        is_undefined = entry.word == "comm_split" and entry.fields[1] == "undefined"
        place = journal.rank, entry.line
        if entry.word in MAKERS and not entry.came_back and not is_undefined:
            others = sorted(self.in_wave.get(self.waves[place], []))
            for _, key in others:
                if journal.rank in self.group(key):
                    self.brings[place] = key
                    self.owns[journal.rank].got(key)
                    return

    # ---- Numbers ----

    def _with_numbers(self) -> list[int]:
        """The keys with a number, from 1 on: by the lowest rank that has them, then by when it got them."""
        wanted = (key for own in self.owns for key in own.has if key in self.named)
        return list(dict.fromkeys(wanted))[:MOST_COMMUNICATORS]

    def head(self) -> str:
        groups = ["comm " + spelled(self.group(key)) for key in self.numbered[1:]]
        return "".join(line + "\n" for line in [f"ranks {len(self.journals)}", *groups])

    def preface(self, rank: int) -> list[str]:
        """The lines at the head of its trace by which it gets those that no call on a parent makes."""
        lines = []
        for layer in self.layers:
            mine = [(colour, key) for colour, key in enumerate(layer) if rank in self.group(key)]
            for colour, key in mine:
                lines.append(f"split 0 {colour} {self.group(key).index(rank)} {self.number(key)}")
            if not mine:
                lines.append("split 0 undefined 0 none")
        return lines

    def _layers(self) -> list[list[int]]:
        """Those of the preface by lines: each, by its number, in the first line without a common member."""
        layers: list[list[int]] = []
        for key in self.numbered[1:]:
            if self.keys[key].way == "made":
                continue
            members = set(self.group(key))
            for layer in layers:
                if all(members.isdisjoint(self.group(other)) for other in layer):
                    layer.append(key)
                    break
            else:
                layers.append([key])
        return layers
