/* Communicators are made and freed 300 times; others are MPI_COMM_SELF, its duplicate, a half made by
 * MPI_Comm_split and one made by MPI_Comm_create. */
#include <mpi.h>

static void talk_to_oneself(MPI_Comm comm) {
    int out = 1, in;
    MPI_Sendrecv(&out, 1, MPI_INT, 0, 0, &in, 1, MPI_INT, 0, 0, comm, MPI_STATUS_IGNORE);
}

static void pass_round(MPI_Comm comm, int tag) {
    int rank, ranks, out = 0, in;
    MPI_Comm_rank(comm, &rank);
    MPI_Comm_size(comm, &ranks);
    MPI_Sendrecv(&out, 1, MPI_INT, (rank + 1) % ranks, tag, &in, 1, MPI_INT, (rank + ranks - 1) % ranks, tag, comm, MPI_STATUS_IGNORE);
}

/* All but the first rank. */
static MPI_Comm make_others(void) {
    MPI_Group world, others;
    MPI_Comm comm;
    int first = 0;
    MPI_Comm_group(MPI_COMM_WORLD, &world);
    MPI_Group_excl(world, 1, &first, &others);
    MPI_Comm_create(MPI_COMM_WORLD, others, &comm);
    MPI_Group_free(&world);
    MPI_Group_free(&others);
    return comm;
}

int main(int argc, char **argv) {
    int rank;
    MPI_Comm comm, half, others;
    MPI_Init(&argc, &argv);
    MPI_Comm_rank(MPI_COMM_WORLD, &rank);
    talk_to_oneself(MPI_COMM_SELF);
    MPI_Comm_dup(MPI_COMM_SELF, &comm);
    talk_to_oneself(comm);
    MPI_Comm_free(&comm);
    MPI_Comm_split(MPI_COMM_WORLD, rank % 2, -rank, &half);
    others = make_others();
    for (int i = 0; i < 300; i++) {
        MPI_Comm_dup(i % 2 ? MPI_COMM_WORLD : half, &comm);
        pass_round(comm, i);
        MPI_Comm_free(&comm);
    }
    if (others != MPI_COMM_NULL)
        MPI_Barrier(others);
    MPI_Finalize();
    return 0;
}
