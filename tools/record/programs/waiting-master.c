/* A master takes one result more than it gave tasks, from anybody, while its workers wait for another task: it hangs.
 * It receives the results, or probes for them first, or has receives of results and of failures posted. */
#include <mpi.h>
#include <string.h>

enum { TASK = 1, RESULT = 2, FAILURE = 3 };

static void take(MPI_Request *posted) {
    int which, data;
    MPI_Waitany(2, posted, &which, MPI_STATUS_IGNORE);
    MPI_Irecv(&data, 1, MPI_INT, MPI_ANY_SOURCE, which ? FAILURE : RESULT, MPI_COMM_WORLD, posted + which);
}

static void collect(const char *way, int results) {
    int data[2];
    MPI_Request posted[2];
    for (int which = 0; which < 2 && !strcmp(way, "posted"); which++)
        MPI_Irecv(data + which, 1, MPI_INT, MPI_ANY_SOURCE, which ? FAILURE : RESULT, MPI_COMM_WORLD, posted + which);
    for (int taken = 0; taken < results; taken++) {
        if (!strcmp(way, "posted"))
            take(posted);
        if (!strcmp(way, "probe"))
            MPI_Probe(MPI_ANY_SOURCE, MPI_ANY_TAG, MPI_COMM_WORLD, MPI_STATUS_IGNORE);
        if (strcmp(way, "posted"))
            MPI_Recv(data, 1, MPI_INT, MPI_ANY_SOURCE, MPI_ANY_TAG, MPI_COMM_WORLD, MPI_STATUS_IGNORE);
    }
}

static void work(void) {
    int task;
    for (;;) {
        MPI_Recv(&task, 1, MPI_INT, 0, TASK, MPI_COMM_WORLD, MPI_STATUS_IGNORE);
        MPI_Send(&task, 1, MPI_INT, 0, RESULT, MPI_COMM_WORLD);
    }
}

int main(int argc, char **argv) {
    int rank, ranks;
    MPI_Init(&argc, &argv);
    MPI_Comm_rank(MPI_COMM_WORLD, &rank);
    MPI_Comm_size(MPI_COMM_WORLD, &ranks);
    if (rank > 0)
        work();
    for (int worker = 1; worker < ranks; worker++)
        MPI_Send(&rank, 1, MPI_INT, worker, TASK, MPI_COMM_WORLD);
    collect(argc > 1 ? argv[1] : "", ranks);
    MPI_Finalize();
    return 0;
}
