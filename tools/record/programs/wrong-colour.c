/* A colour below zero, which MPI forbids and MPICH takes. */
#include <mpi.h>

int main(int argc, char **argv) {
    MPI_Comm all = MPI_COMM_NULL;
    MPI_Init(&argc, &argv);
    MPI_Comm_set_errhandler(MPI_COMM_WORLD, MPI_ERRORS_RETURN);
    MPI_Comm_split(MPI_COMM_WORLD, -5, 0, &all);
    if (all != MPI_COMM_NULL)
        MPI_Barrier(all);
    MPI_Barrier(MPI_COMM_WORLD);
    MPI_Finalize();
    return 0;
}
