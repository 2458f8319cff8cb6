/* A tool of another kind that is between the program and MPI: it counts the sends. */
#include <mpi.h>
#include <stdio.h>

static int sends;

int MPI_Send(const void *data, int count, MPI_Datatype type, int peer, int tag, MPI_Comm comm) {
    sends++;
    return PMPI_Send(data, count, type, peer, tag, comm);
}

int MPI_Finalize(void) {
    int rank;
    PMPI_Comm_rank(MPI_COMM_WORLD, &rank);
    fprintf(stderr, "tool: rank %d sent %d times\n", rank, sends);
    return PMPI_Finalize();
}
