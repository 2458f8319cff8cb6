/* A send fails, and the program's error handler jumps out of it. The ranks go on, and exchange what they
 * have. */
#include <mpi.h>
#include <setjmp.h>

static jmp_buf landing;

static void jump(MPI_Comm *comm, int *code, ...) {
    (void)comm, (void)code;
    longjmp(landing, 1);
}

static void send_wrongly(int peer) {
    int data = 0;
    if (setjmp(landing) == 0)
        MPI_Ssend(&data, -1, MPI_INT, peer, 7, MPI_COMM_WORLD);
}

int main(int argc, char **argv) {
    int rank, data = 0;
    MPI_Errhandler handler;
    MPI_Init(&argc, &argv);
    MPI_Comm_rank(MPI_COMM_WORLD, &rank);
    MPI_Comm_create_errhandler(jump, &handler);
    MPI_Comm_set_errhandler(MPI_COMM_WORLD, handler);
    if (rank == 0)
        send_wrongly(1);
    MPI_Sendrecv_replace(&data, 1, MPI_INT, 1 - rank, 0, 1 - rank, 0, MPI_COMM_WORLD, MPI_STATUS_IGNORE);
    MPI_Barrier(MPI_COMM_WORLD);
    MPI_Finalize();
    return 0;
}
