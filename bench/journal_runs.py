"""Large runs as journals, for bench/speed: the call lines and reports of each rank, all of which come to their end."""

RANKS, CALLS = 64, 20_000
COMMS = 255


def turns(count=500_000):
    """Two ranks that send and receive in turn, a million calls each."""
    yield "send 0 1 7 8\nrecv 0 1 7\n" * (count - 1)
    yield "recv 0 0 7\nsend 0 0 7 8\n" * (count - 1)


def tenth():
    """A tenth of that."""
    return turns(50_000)


def step(first, comm, left, right):
    """A rank's exchange with its neighbours, by four requests from this one on."""
    a, b, c, d = range(first, first + 4)
    return (f"irecv {a} {comm} {left} 1\nirecv {b} {comm} {right} 2\nisend {c} {comm} {right} 1 64\n"
            f"isend {d} {comm} {left} 2 64\nwait {a} {b} {c} {d}\n")


def ring(ranks, calls, comm_of=lambda first: 0):
    """Ranks that exchange halos, so many calls each."""
    for rank in range(ranks):
        left, right = (rank - 1) % ranks, (rank + 1) % ranks
        yield "".join(step(first, comm_of(first), left, right) for first in range(1, calls // 5 * 4, 4))


def halos():
    """64 ranks that exchange halos, 20,000 calls each."""
    return ring(RANKS, CALLS)


def wide():
    """The same by 1,024 ranks, 1,000 calls each."""
    return ring(1024, 1000)


def wild():
    """64 ranks in a ring that receive by wildcards alone, 20,000 calls each: every other receive is nonblocking."""
    for rank in range(RANKS):
        left, right = (rank - 1) % RANKS, (rank + 1) % RANKS
        yield "".join(
            f"isend {a} 0 {right} 1 64\nrecv 0 any any\n=got {left} 1\nwait {a}\n"
            f"irecv {a + 1} 0 any 2\nisend {a + 2} 0 {right} 2 64\nwait {a + 1} {a + 2}\n=done {a + 1} {left} 2\n"
            for a in range(1, CALLS // 6 * 3, 3)
        )


def comms():
    """64 ranks that make 255 communicators and exchange halos on each in turn, 20,000 calls each."""
    group = " ".join(map(str, range(RANKS)))
    made = "".join(f"comm_dup 0\n=comm {comm} {group}\n" for comm in range(2, COMMS + 2))
    for calls in ring(RANKS, CALLS - COMMS, lambda first: 2 + first // 4 % COMMS):
        yield made + calls


MADE = {made.__name__: made for made in (tenth, turns, halos, wide, wild, comms)}


def journals_in(folder, name):
    """Writes the journals of a run of this name, if they aren't there; the number of their lines, and that of all
    numbers in their lists, as those of a wait and of a group."""
    if not (folder / "journal0").exists():
        folder.mkdir(parents=True, exist_ok=True)
        texts = list(MADE[name]())
        for rank, text in enumerate(texts):
            (folder / f"journal{rank}").write_text(f"journal 2 {rank} {len(texts)} run o made\n{text}finalize\n")
    texts = [path.read_text() for path in folder.iterdir()]
    return sum(text.count("\n") for text in texts), sum(map(numbers_in, texts))


def numbers_in(text):
    """How many numbers the lists of these lines have."""
    lists = {"wait": 1, "=comm": 2}
    words = (line.split(" ") for line in text.splitlines() if line.startswith(tuple(lists)))
    return sum(len(fields) - lists[fields[0]] for fields in words)
