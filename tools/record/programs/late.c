// A tool below the recorder: rank 1 begins some of the recorder's own exchanges later than the others wait.
#define _GNU_SOURCE
#include <dlfcn.h>
#include <mpi.h>
#include <stdlib.h>
#include <unistd.h>

int PMPI_Iallreduce(const void *one, void *all, int count, MPI_Datatype type, MPI_Op op, MPI_Comm comm,
                    MPI_Request *request) {
    static int calls;
    __typeof__(&PMPI_Iallreduce) next;
    int rank;
    *(void **)&next = dlsym(RTLD_NEXT, "PMPI_Iallreduce");
    PMPI_Comm_rank(MPI_COMM_WORLD, &rank);
    if (rank == 1 && calls++ % 3 == 1)
        usleep(1300000);
    return next(one, all, count, type, op, comm, request);
}
