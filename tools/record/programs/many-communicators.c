/* Makes and frees communicators in five parts, by MPI_Comm_dup with a barrier on each, or by MPI_Comm_create_group if
 * there is a word. Fails if the last part takes twice as long as the second one. */
#include <mpi.h>
#include <stdio.h>

enum { PARTS = 5, MANY = 20000 };

int main(int argc, char **argv) {
    double begin[PARTS + 1];
    MPI_Comm comm;
    MPI_Group world;
    (void)argv;
    MPI_Init(&argc, &argv);
    MPI_Comm_group(MPI_COMM_WORLD, &world);
    for (int i = 0; i < PARTS * MANY; i++) {
        if (i % MANY == 0)
            begin[i / MANY] = MPI_Wtime();
        if (argc > 1) {
            MPI_Comm_create_group(MPI_COMM_WORLD, world, 0, &comm);
        } else {
            MPI_Comm_dup(MPI_COMM_WORLD, &comm);
            MPI_Barrier(comm);
        }
        MPI_Comm_free(&comm);
    }
    begin[PARTS] = MPI_Wtime();
    MPI_Finalize();
    fprintf(stderr, "%.2f s, and %.2f s\n", begin[2] - begin[1], begin[PARTS] - begin[PARTS - 1]);
    return begin[PARTS] - begin[PARTS - 1] > 2 * (begin[2] - begin[1]);
}
