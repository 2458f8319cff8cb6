// A send fails, the program's error handler throws, and the program catches that and goes on.
#include <mpi.h>
#include <stdexcept>

static void raise(MPI_Comm *, int *, ...) { throw std::runtime_error("a call failed"); }

static void send_wrongly(int peer) {
    int data = 0;
    try {
        MPI_Ssend(&data, -1, MPI_INT, peer, 7, MPI_COMM_WORLD);
    } catch (const std::runtime_error &) {
    }
}

int main(int argc, char **argv) {
    int rank, data = 0;
    MPI_Errhandler handler;
    MPI_Init(&argc, &argv);
    MPI_Comm_rank(MPI_COMM_WORLD, &rank);
    MPI_Comm_create_errhandler(raise, &handler);
    MPI_Comm_set_errhandler(MPI_COMM_WORLD, handler);
    if (rank == 0)
        send_wrongly(1);
    MPI_Sendrecv_replace(&data, 1, MPI_INT, 1 - rank, 0, 1 - rank, 0, MPI_COMM_WORLD, MPI_STATUS_IGNORE);
    MPI_Barrier(MPI_COMM_WORLD);
    MPI_Finalize();
}
