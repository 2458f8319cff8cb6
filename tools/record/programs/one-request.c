/* Both ranks wait for a message of the other one, which nobody sends, each way with one request or none: by
 * the first word MPI_Waitany, MPI_Waitsome, a receive with any tag, one from any source, or MPI_Test. */
#include <mpi.h>
#include <sched.h>
#include <string.h>

int main(int argc, char **argv) {
    int rank, other, data, place, count, done = 0;
    const char *way = argc > 1 ? argv[1] : "";
    MPI_Request requests[2] = {MPI_REQUEST_NULL, MPI_REQUEST_NULL};
    MPI_Init(&argc, &argv);
    MPI_Comm_rank(MPI_COMM_WORLD, &rank);
    other = 1 - rank;
    MPI_Barrier(MPI_COMM_WORLD);
    if (strcmp(way, "any-tag") == 0)
        MPI_Recv(&data, 1, MPI_INT, other, MPI_ANY_TAG, MPI_COMM_WORLD, MPI_STATUS_IGNORE);
    if (strcmp(way, "any-source") == 0)
        MPI_Recv(&data, 1, MPI_INT, MPI_ANY_SOURCE, 4, MPI_COMM_WORLD, MPI_STATUS_IGNORE);
    MPI_Irecv(&data, 1, MPI_INT, other, 4, MPI_COMM_WORLD, &requests[0]);
    if (strcmp(way, "waitany") == 0)
        MPI_Waitany(1, requests, &place, MPI_STATUS_IGNORE);
    if (strcmp(way, "waitsome") == 0)
        MPI_Waitsome(2, requests, &count, &place, MPI_STATUSES_IGNORE);
    for (; !done; sched_yield())
        MPI_Test(&requests[0], &done, MPI_STATUS_IGNORE);
    MPI_Finalize();
    return 0;
}
