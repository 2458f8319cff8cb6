// Rank 1 makes a call that fails, under MPI_ERRORS_ARE_FATAL, and MPI ends the run. The other rank waits.
#include <mpi.h>
#include <string.h>
#include <unistd.h>

static int data[4];

static void use_freed(void) {
    MPI_Comm comm, copy;
    MPI_Comm_dup(MPI_COMM_SELF, &comm);
    copy = comm;
    MPI_Comm_free(&comm);
    MPI_Send(data, 1, MPI_INT, 0, 0, copy);
}

static void put_nowhere(void) {
    MPI_Win win;
    MPI_Win_allocate(4, 1, MPI_INFO_NULL, MPI_COMM_SELF, data, &win);
    MPI_Put(data, 1, MPI_INT, 7, 0, 1, MPI_INT, win);
}

/* The program may ask for its handler, and set it again. */
static void set_again(void) {
    MPI_Errhandler handler;
    MPI_Comm_get_errhandler(MPI_COMM_WORLD, &handler);
    MPI_Comm_set_errhandler(MPI_COMM_WORLD, MPI_ERRORS_RETURN);
    MPI_Send(data, 1, MPI_INT, 99, 0, MPI_COMM_WORLD);
    MPI_Comm_set_errhandler(MPI_COMM_WORLD, handler == MPI_ERRORS_ARE_FATAL ? handler : MPI_ERRORS_RETURN);
    MPI_Errhandler_free(&handler);
    MPI_Send(data, 1, MPI_INT, 99, 0, MPI_COMM_WORLD);
}

static void fail(const char *way) {
    MPI_Request request;
    int rank;
    sleep(1); /* until the other rank waits */
    if (strcmp(way, "rank") == 0)
        MPI_Send(data, 1, MPI_INT, 99, 0, MPI_COMM_WORLD);
    else if (strcmp(way, "null") == 0)
        MPI_Barrier(MPI_COMM_NULL);
    else if (strcmp(way, "freed") == 0)
        use_freed();
    else if (strcmp(way, "init") == 0)
        MPI_Recv_init(data, 1, MPI_INT, 99, 0, MPI_COMM_WORLD, &request);
    else if (strcmp(way, "handler") == 0)
        MPI_Comm_call_errhandler(MPI_COMM_WORLD, MPI_ERR_OTHER);
    else if (strcmp(way, "again") == 0)
        set_again();
    else if (strcmp(way, "window") == 0)
        put_nowhere();
    else if (strcmp(way, "local") == 0)
        MPI_Comm_rank(MPI_COMM_NULL, &rank);
    else
        MPI_Recv(data, 1, MPI_INT, 0, 0, MPI_COMM_WORLD, MPI_STATUS_IGNORE);
}

int main(int argc, char **argv) {
    int rank;
    MPI_Init(&argc, &argv);
    MPI_Comm_rank(MPI_COMM_WORLD, &rank);
    if (rank == 1)
        fail(argc > 1 ? argv[1] : "short");
    else
        MPI_Send(data, 4, MPI_INT, 1, 0, MPI_COMM_WORLD);
    MPI_Barrier(MPI_COMM_WORLD);
    MPI_Finalize();
}
