/* Loads a plugin, the first word, so that its calls go to the MPI library itself, past the recorder. With a
 * second word the run then hangs. */
#define _GNU_SOURCE
#include <dlfcn.h>
#include <mpi.h>
#include <stdio.h>
#include <unistd.h>

int main(int argc, char **argv) {
    int rank, data = 0;
    MPI_Init(&argc, &argv);
    MPI_Comm_rank(MPI_COMM_WORLD, &rank);
    void *plugin = argc > 1 ? dlopen(argv[1], RTLD_NOW | RTLD_DEEPBIND) : NULL;
    void (*pass_on)(int) = plugin ? (void (*)(int))dlsym(plugin, "pass_on") : NULL;
    if (!pass_on) {
        fprintf(stderr, "deep-plugin: %s\n", dlerror());
        MPI_Abort(MPI_COMM_WORLD, 9);
    }
    MPI_Barrier(MPI_COMM_WORLD);
    /* Rank 1's receive is seen, the plugin's send isn't. */
    if (rank == 0)
        pass_on(rank);
    else
        MPI_Recv(&data, 1, MPI_INT, 0, 2, MPI_COMM_WORLD, MPI_STATUS_IGNORE);
    if (argc > 2 && rank == 0)
        sleep(60);
    MPI_Barrier(MPI_COMM_WORLD);
    MPI_Finalize();
    return 0;
}
