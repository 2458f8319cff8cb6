/* Loads two plugins, its first words, one after the other. The second comes to the addresses of the first,
 * which is unloaded before. Nobody receives what rank 0 sends in it. */
#include <dlfcn.h>
#include <mpi.h>
#include <stdio.h>

static void pass_on_in(const char *name, int rank) {
    void *plugin = dlopen(name, RTLD_NOW);
    void (*pass_on)(int) = plugin ? (void (*)(int))dlsym(plugin, "pass_on") : NULL;
    if (!pass_on) {
        fprintf(stderr, "reloads: %s\n", dlerror());
        MPI_Abort(MPI_COMM_WORLD, 9);
    }
    pass_on(rank);
    dlclose(plugin);
}

int main(int argc, char **argv) {
    int rank;
    MPI_Init(&argc, &argv);
    MPI_Comm_rank(MPI_COMM_WORLD, &rank);
    for (int i = 1; i < argc; i++)
        if (i == 1 || rank == 0)
            pass_on_in(argv[i], rank);
    MPI_Finalize();
    return 0;
}
