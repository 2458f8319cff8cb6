/* phases CALLS STEPS LINES: CALLS barriers, and then in each of STEPS steps LINES sends to nobody and a barrier. */
#include <mpi.h>
#include <stdlib.h>

int main(int argc, char **argv) {
    int data = 0;
    if (argc < 4)
        return 2;
    long calls = atol(argv[1]), steps = atol(argv[2]), lines = atol(argv[3]);
    MPI_Init(&argc, &argv);
    for (long i = 0; i < calls; i++)
        MPI_Barrier(MPI_COMM_WORLD);
    for (long step = 0; step < steps; step++) {
        for (long i = 0; i < lines; i++)
            MPI_Send(&data, 1, MPI_INT, MPI_PROC_NULL, 0, MPI_COMM_WORLD);
        MPI_Barrier(MPI_COMM_WORLD);
    }
    MPI_Finalize();
    return 0;
}
