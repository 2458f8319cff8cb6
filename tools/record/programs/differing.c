/* differing WAY: programs that run to their end although the recorder doesn't see the same calls of all ranks,
 * after which it exchanges how far they are. `unseen`: rank 1 calls MPI_Barrier at an address that dlsym gave
 * for the library. `sizes`: ranks have other counts of another type.
 */
#define _GNU_SOURCE
#include <dlfcn.h>
#include <mpi.h>
#include <stdio.h>
#include <string.h>

enum { ROUNDS = 300, MOST_RANKS = 8 };
static int me, in[MOST_RANKS], out[MOST_RANKS];

static void differ_in_size(void) {
    MPI_Datatype two;
    MPI_Type_contiguous(2, MPI_INT, &two);
    MPI_Type_commit(&two);
    MPI_Allgather(out, 2, MPI_INT, in, me % 2 ? 1 : 2, me % 2 ? two : MPI_INT, MPI_COMM_WORLD);
    MPI_Type_free(&two);
}

static int meet_unseen(MPI_Comm comm) {
    static int (*barrier)(MPI_Comm);
    Dl_info library;
    if (!barrier && dladdr(dlsym(RTLD_DEFAULT, "MPI_Get_library_version"), &library))
        barrier = (int (*)(MPI_Comm))dlsym(dlopen(library.dli_fname, RTLD_NOW), "MPI_Barrier");
    return barrier(comm);
}

int main(int argc, char **argv) {
    const char *way = argc > 1 ? argv[1] : "unseen";
    MPI_Init(&argc, &argv);
    MPI_Comm_rank(MPI_COMM_WORLD, &me);
    for (int i = 0; i < ROUNDS; i++) {
        if (strcmp(way, "sizes") == 0)
            differ_in_size();
        else if (me == 1)
            meet_unseen(MPI_COMM_WORLD);
        else
            MPI_Barrier(MPI_COMM_WORLD);
    }
    if (me == 0)
        printf("it came to its end\n");
    return MPI_Finalize();
}
