"""Whether a journal is one: its lines, and what they say of requests, messages and communicators.

A line has at most one fault, the first of WORDS that it has (J6 comes before all others); a journal has that of its
first line with one.
"""

import re
from collections.abc import Iterable

MOST_BYTES = 32_768  # of a line, with its line feed
MOST_RANKS = 1024
MOST = 2**31 - 1

WORDS = {
    "J1": "header", "J2": "unknown word", "J3": "number of fields", "J4": "field out of form or range",
    "J5": "line behind the end", "J6": "line too long", "J7": "told line out of place", "J8": "request",
    "J9": "communicator", "J10": "group", "J11": "cut",
}  # fmt: skip

# The fields of each line, one letter each:
# q, m: a new request, a new message; r, n: an earlier one, not completed; R: one or more r
# c: a communicator; C: a new one; W: one or more ranks of the world
# d: a destination, s: a source; t: a tag, u: one of a receive; o: a root; l, k: colour, key; b: bytes
FORMS = {
    **dict.fromkeys(("init", "finalize", "abort", "exit", "full", "cut"), ""),
    "send": "cdtb", "isend": "qcdtb", "recv": "csu", "irecv": "qcsu",
    **dict.fromkeys(("ssend", "bsend", "rsend"), "cdt"),
    **dict.fromkeys(("issend", "ibsend", "irsend"), "qcdt"),
    "sendrecv": "cdtsub", "isendrecv": "qqcdtsub",
    "probe": "csu", "iprobe": "cdt", "mprobe": "mcsu", "improbe": "mcdt", "mrecv": "n", "imrecv": "qn",
    **dict.fromkeys(("wait", "test", "waitany", "waitsome"), "R"), "cancel": "r", "request_free": "r",
    **dict.fromkeys(("barrier", "allgather", "alltoall", "allreduce", "scan", "exscan"), "c"),
    **dict.fromkeys(("ibarrier", "iallgather", "ialltoall", "iallreduce", "iscan", "iexscan"), "qc"),
    **dict.fromkeys(("bcast", "gather", "scatter", "reduce"), "co"),
    **dict.fromkeys(("ibcast", "igather", "iscatter", "ireduce"), "qco"),
    "comm_dup": "c", "comm_split": "clk", "comm_make": "c", "comm_idup": "qc", "comm_free": "c",
    "comm_create_group": "W",
    "=got": "dt", "=chose": "R", "=done": "rdt", "=gone": "r", "=kept": "r", "=comm": "CW", "=idup": "CrW",
    "=none": "", "=apart": "CW", "=failed": "", "=moved": "r",
}  # fmt: skip
LOWEST = {**dict.fromkeys("qmrnR", 1), **dict.fromkeys("cCbW", 0), **dict.fromkeys("dstuolk", -(2**31))}
NAMES = {"d": {"null"}, "s": {"null", "any"}, "u": {"any"}, "l": {"undefined"}}
HEADER = re.compile(rb"journal 2 (0|[1-9][0-9]{0,3}) ([1-9][0-9]{0,3}) ([^ ]+) ([io]) .+", re.DOTALL)
NUMBER = re.compile(r"0|-?[1-9][0-9]{0,9}")

# The calls that a line may follow, once each.
CALLS = set(FORMS) - {word for word in FORMS if word.startswith("=")}
WAITS, MAKERS = {"wait", "test", "waitany", "waitsome"}, {"comm_dup", "comm_split", "comm_make"}
FOLLOW = {
    "=got": {"recv", "sendrecv", "probe", "mprobe"}, "=chose": {"waitany", "waitsome"}, "=idup": WAITS,
    "=comm": MAKERS | {"comm_create_group"}, "=none": MAKERS,
    "=failed": CALLS - {"finalize", "abort", "exit", "full", "stopped", "cut"},
}  # fmt: skip
OUTCOMES = {"=done", "=gone", "=kept", "=moved"}
ENDS = {"finalize", "exit", "cut"}


class Fault(Exception):
    """A line, from 1, with a code of WORDS."""

    def __str__(self) -> str:
        line, code = self.args
        return f"line {line} {code} {WORDS[code]}"


def lines_of(data: bytes) -> list[bytes]:
    """The whole lines of a journal's bytes: those before its first zero byte."""
    return data.partition(b"\0")[0].split(b"\n")[:-1]


def header_of(lines: list[bytes]) -> tuple[int, int, bytes, bytes]:
    """The rank, the number of ranks, the name of the run and the state in a first line."""
    found = HEADER.fullmatch(lines[0]) if lines else None
    if lines and len(lines[0]) >= MOST_BYTES:
        raise Fault(1, "J6")
    if not found or int(found[2]) > MOST_RANKS:
        raise Fault(1, "J1")
    return int(found[1]), int(found[2]), found[3], found[4]


def fields_of(line: bytes, ranks: int) -> tuple[str, list[str]]:
    """The word and the fields of a line, without its site."""
    if len(line) >= MOST_BYTES:
        raise ValueError("J6")
    word, *fields = line.decode("latin-1").split(" ")
    if word == "stopped":
        return word, []
    if word not in FORMS:
        raise ValueError("J2")
    site = fields.pop()[1:] if word in CALLS and fields and fields[-1].startswith("@") else "1"
    letters = letters_of(word, fields)
    if len(letters) != len(fields):
        raise ValueError("J3")
    if not is_number(site, 1, MOST) or not all(is_formed(*pair, ranks) for pair in zip(letters, fields)):
        raise ValueError("J4")
    return word, fields


def letters_of(word: str, fields: list[str]) -> str:
    """One for each field that there has to be."""
    letters = FORMS.get(word, "")
    if letters.endswith("b") and len(fields) < len(letters):
        return letters[:-1]
    return letters + letters[-1] * (len(fields) - len(letters)) if letters.endswith(("R", "W")) else letters


def is_formed(letter: str, field: str, ranks: int) -> bool:
    return field in NAMES.get(letter, ()) or is_number(
        field, LOWEST[letter], ranks - 1 if letter == "W" else MOST
    )


def is_number(field: str, low: int, high: int) -> bool:
    return NUMBER.fullmatch(field) is not None and low <= int(field) <= high


def need(is_right: bool, code: str) -> None:
    if not is_right:
        raise ValueError(code)


class Request:
    """A request or a message, from the call line that numbers it on."""

    def __init__(self, word: str, fields: list[str], is_message: bool, wildcards: list[str]) -> None:
        self.is_message, self.is_receive = is_message, bool(wildcards)  # those of a receive
        self.moved_at: int | None = None  # the line that reports so
        self.parent = fields[1] if word == "comm_idup" else None  # of the communicator that it brings
        self.has_wildcard = "any" in wildcards and wildcards[0] != "null"
        self.is_cancelled = self.is_completed = self.has_outcome = self.is_brought = False


class Checker:
    """Takes the lines of one rank's journal after its header."""

    def __init__(self, rank: int, ranks: int, ends_with_cut: bool = False) -> None:
        self.rank, self.ranks, self.ends_with_cut = str(rank), ranks, ends_with_cut
        # Lines that report a moved receive which can't be one; other faults come first.
        self.moved_wrongly: set[int] = set()
        self.groups = {
            "0": [str(each) for each in range(ranks)],
            "1": [self.rank],
        }  # by the rank's own numbers
        self.requests: dict[str, Request] = {}  # messages too
        self.word, self.fields, self.reports = "", list[str](), set[str]()  # of the last call line
        self.completes: list[str] = []  # what it completes, if it doesn't fail
        self.number = 1

    def take(self, line: bytes) -> None:
        """Raises the code of the line's fault. Reports of moved receives that can't be are kept in `moved_wrongly'."""
        self.number += 1
        word, fields = fields_of(line, self.ranks)
        need(self.word not in ENDS, "J5")
        if word.startswith("="):
            self._report(word, fields)
        else:
            self._call(word, fields, letters_of(word, fields))

    # ---- Calls -----------------------------------------------------------------------------------

    def _call(self, word: str, fields: list[str], letters: str) -> None:
        if "=failed" not in self.reports:
            self._complete([self.requests[request] for request in self.completes])
        self.word, self.fields, self.reports, self.completes = word, fields, set(), []
        named = [(letter, field) for letter, field in zip(letters, fields) if letter in "qmrnR"]
        need(all(self._is_right(*pair) for pair in named), "J8")
        need(len({field for _, field in named}) == len(named), "J8")
        need("c" not in letters or fields[letters.index("c")] in self.groups, "J9")
        need(word != "comm_create_group" or self._is_group(fields, fields), "J10")
        for letter, field in named:
            if letter in "qm":
                wildcards = fields[2:4] if word == "irecv" else fields[5:7] if field != fields[0] else []
                self.requests[field] = Request(word, fields, letter == "m", wildcards)
        if word == "cancel":
            self.requests[fields[0]].is_cancelled = True
        elif (
            word in WAITS
            and (word in ("wait", "test") or len(fields) == 1)
            or word in ("mrecv", "request_free")
        ):
            self.completes = fields
        elif word == "imrecv":
            self.completes = fields[1:]

    def _complete(self, requests: list[Request]) -> None:
        for request in requests:
            request.is_completed = True
        self.moved_wrongly |= {request.moved_at for request in requests if request.moved_at}

    def _is_right(self, letter: str, field: str) -> bool:
        known = self.requests.get(field)
        if letter in "qm" or known is None:
            return letter in "qm" and known is None
        return not known.is_completed and known.is_message == (letter == "n")

    def _is_group(self, group: list[str], allowed: Iterable[str]) -> bool:
        return len(set(group)) == len(group) and self.rank in group and set(group) <= set(allowed)

    # ---- What is reported ------------------------------------------------------------------------

    def _report(self, word: str, fields: list[str]) -> None:
        named = (
            fields
            if word == "=chose"
            else [field for letter, field in zip(FORMS[word], fields) if letter == "r"]
        )
        known = [(field, self.requests[field]) for field in named if field in self.requests]
        known = [(field, request) for field, request in known if not request.is_message]
        need(self._can_have(word, fields) and all(self._fits(word, *pair) for pair in known), "J7")
        need(len(known) == len(named) == len(set(named)), "J8")
        if word in ("=comm", "=idup", "=apart"):
            self._new_communicator(word, fields, known)
        for _, request in known:
            request.has_outcome |= word in OUTCOMES
            if word == "=moved":
                request.moved_at = self.number
                self.moved_wrongly |= set() if self.ends_with_cut else {self.number}
            request.is_brought |= word == "=idup"
        if word in FOLLOW and word != "=idup":
            self.reports.add(word)
        if word == "=chose":
            self.completes = fields

    def _can_have(self, word: str, fields: list[str]) -> bool:
        """Whether the last call can have this line."""
        if word not in FOLLOW:
            return True
        if word == "=comm" and self.word == "comm_split" and self.fields[1] == "undefined":
            return False
        once = self.reports & ({"=comm", "=none"} if word in ("=comm", "=none") else {word})
        is_one = word != "=chose" or self.word != "waitany" or len(fields) == 1
        return not once and is_one and self.word in FOLLOW[word]

    def _fits(self, word: str, field: str, request: Request) -> bool:
        """Whether the line can say this of a request; of a call that failed nothing was completed."""
        is_back = field in self.completes and "=failed" not in self.reports
        if word == "=chose":
            return field in self.fields
        if word == "=idup":
            return request.parent is not None and is_back and not request.is_brought
        if word == "=moved":
            return request.is_receive and not request.is_completed and not request.has_outcome
        return (request.has_wildcard if word == "=done" else request.is_cancelled) and not request.has_outcome

    def _new_communicator(self, word: str, fields: list[str], known: list[tuple[str, Request]]) -> None:
        group = fields[2:] if word == "=idup" else fields[1:]
        need(fields[0] not in self.groups, "J9")
        is_of_group = word == "=comm" and self.word == "comm_create_group"
        need(not is_of_group or group == self.fields, "J10")
        parent = (
            known[0][1].parent
            if word == "=idup"
            else "0"
            if word == "=apart" or is_of_group
            else self.fields[0]
        )
        need(self._is_group(group, self.groups[parent]), "J10")
        self.groups[fields[0]] = group


def ends_with_cut(lines: list[bytes], ranks: int) -> bool:
    try:
        return len(lines) > 1 and fields_of(lines[-1], ranks)[0] == "cut"
    except ValueError:
        return False


def check(lines: list[bytes], rank: int, ranks: int) -> None:
    """Takes the lines of a journal after its header. Raises its first fault."""
    checker = Checker(rank, ranks, ends_with_cut(lines, ranks))
    for number, line in enumerate(lines[1:], 2):
        try:
            checker.take(line)
        except ValueError as code:
            raise Fault(number, str(code)) from None
    if checker.moved_wrongly:
        raise Fault(min(checker.moved_wrongly), "J7")
