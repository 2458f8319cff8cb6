"""Heads: the number of ranks, and the group of each communicator."""

from .texts import is_canonical

MOST_RANKS = 1024
MOST_COMMUNICATORS = 4096  # the world counted
MOST_BYTES = 4096  # of a line, its line feed counted
DECIDING = MOST_COMMUNICATORS * MOST_BYTES + 1  # bytes that decide what a head says

WORDS = {
    "H1": "first line", "H2": "number of ranks", "H3": "comm line", "H4": "group",
    "H5": "too many communicators", "H6": "line length or end",
}  # fmt: skip

Group = tuple[int, ...]  # ranks of the world, by their ranks in the group


class HeadFault(Exception):
    """The first line with a fault, from 1, and the code of the fault."""

    def __init__(self, line: int, code: str) -> None:
        super().__init__(line, code)
        self.line, self.code = line, code

    def __str__(self) -> str:
        return f"head line {self.line} {self.code} {WORDS[self.code]}"


def groups_of(data: bytes) -> list[Group]:
    """The groups of all communicators, that of the world first."""
    *lines, rest = data[:DECIDING].split(b"\n")
    groups: list[Group] = []
    for number, line in enumerate(lines, 1):
        if number > MOST_COMMUNICATORS:
            raise HeadFault(number, "H5")
        if len(line) >= MOST_BYTES:
            raise HeadFault(number, "H6")
        try:
            groups.append(group_of(line, len(groups[0])) if groups else world_of(line))
        except ValueError as code:
            raise HeadFault(number, str(code)) from None
    if rest:
        raise HeadFault(len(lines) + 1, "H5" if len(lines) == MOST_COMMUNICATORS else "H6")
    if not groups:
        raise HeadFault(1, "H1")
    return groups


def world_of(line: bytes) -> Group:
    """All ranks, by the first line. Raises the code of its fault."""
    word, *fields = line.split(b" ")
    if word != b"ranks" or len(fields) != 1 or not is_canonical(fields[0]):
        raise ValueError("H1")
    if not 1 <= int(fields[0]) <= MOST_RANKS:
        raise ValueError("H2")
    return tuple(range(int(fields[0])))


def group_of(line: bytes, ranks: int) -> Group:
    """The group of a further line. Raises the code of its fault."""
    word, *fields = line.split(b" ")
    if word != b"comm" or not all(map(is_canonical, fields)):
        raise ValueError("H3")
    group = tuple(map(int, fields))
    if not group or max(group) >= ranks or len(set(group)) < len(group):
        raise ValueError("H4")
    return group
