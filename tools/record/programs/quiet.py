"""A second thread computes, and then sends what the first one waits for."""

import sys
import threading
import time

from mpi4py import MPI

world = MPI.COMM_WORLD


def send_late():
    time.sleep(int(sys.argv[2]))
    world.send(None, world.rank, 4)


thread = threading.Thread(target=send_late)
thread.start()
world.recv(None, world.rank, 4)
thread.join()
