"""A ring in Python: rank 0 receives first, and then from the wrong side."""

from mpi4py import MPI

world = MPI.COMM_WORLD
rank, ranks = world.Get_rank(), world.Get_size()
left, right = (rank - 1) % ranks, (rank + 1) % ranks


def pass_on(token):
    world.ssend(token, dest=right, tag=5)


if rank == 0:
    pass_on([0])
    world.recv(source=right, tag=5)
else:
    pass_on(world.recv(source=left, tag=5) + [rank])
