/* A wait answers an error, since the message is longer than its receive. Then the library may give the next receive the
 * same handle, and what that waits for is sent only after it. */
#include <mpi.h>

static void receive_twice(void) {
    char data[8], go = 0;
    MPI_Request request;
    MPI_Irecv(data, 4, MPI_CHAR, 1, 1, MPI_COMM_WORLD, &request);
    MPI_Wait(&request, MPI_STATUS_IGNORE);
    MPI_Irecv(data, 8, MPI_CHAR, 1, 2, MPI_COMM_WORLD, &request);
    MPI_Send(&go, 1, MPI_CHAR, 1, 3, MPI_COMM_WORLD);
    MPI_Wait(&request, MPI_STATUS_IGNORE);
}

static void send_twice(void) {
    char data[8] = {0};
    MPI_Send(data, 8, MPI_CHAR, 0, 1, MPI_COMM_WORLD);
    MPI_Recv(data, 1, MPI_CHAR, 0, 3, MPI_COMM_WORLD, MPI_STATUS_IGNORE);
    MPI_Send(data, 8, MPI_CHAR, 0, 2, MPI_COMM_WORLD);
}

int main(int argc, char **argv) {
    int rank;
    MPI_Init(&argc, &argv);
    MPI_Comm_set_errhandler(MPI_COMM_WORLD, MPI_ERRORS_RETURN);
    MPI_Comm_rank(MPI_COMM_WORLD, &rank);
    if (rank == 0)
        receive_twice();
    else
        send_twice();
    MPI_Finalize();
    return 0;
}
