"""The ring of ring.py by a module of its own, ring-module.c: rank 0 receives from the wrong side."""

import ring_module

rank, ranks = ring_module.begin()
left, right = (rank - 1) % ranks, (rank + 1) % ranks
if rank == 0:
    ring_module.send(right)
    ring_module.receive(right)
else:
    ring_module.receive(left)
    ring_module.send(right)
ring_module.end()
