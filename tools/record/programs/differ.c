// The ranks of a communicator disagree on a collective call: on its order, its root or its nonblocking form.
#include <mpi.h>
#include <string.h>

static MPI_Comm world = MPI_COMM_WORLD;
static int rank, data, all[64];

static void in_another_order(void) {
    if (rank == 0) {
        MPI_Bcast(&data, 1, MPI_INT, 0, world);
        MPI_Barrier(world);
    } else {
        MPI_Barrier(world);
        MPI_Bcast(&data, 1, MPI_INT, 0, world);
    }
}

static void with_another_root(int last) {
    MPI_Gather(&data, 1, MPI_INT, all, 1, MPI_INT, rank == last ? last : 0, world);
    MPI_Barrier(world);
}

static void started_in_another_order(void) {
    MPI_Request request;
    if (rank == 0)
        MPI_Ibarrier(world, &request);
    else
        MPI_Igather(&data, 1, MPI_INT, all, 1, MPI_INT, 1, world, &request);
    MPI_Wait(&request, MPI_STATUS_IGNORE);
}

static void in_another_form(void) {
    MPI_Request request;
    if (rank == 0) {
        MPI_Barrier(world);
    } else {
        MPI_Ibarrier(world, &request);
        MPI_Wait(&request, MPI_STATUS_IGNORE);
    }
}

static void on_a_half(void) {
    MPI_Comm half;
    MPI_Comm_split(world, rank % 2, 0, &half);
    if (rank == 3)
        MPI_Allreduce(&data, all, 1, MPI_INT, MPI_SUM, half);
    else
        MPI_Barrier(half);
    MPI_Recv(&data, 1, MPI_INT, (rank + 2) % 4, 5, world, MPI_STATUS_IGNORE);
}

int main(int argc, char **argv) {
    int ranks;
    MPI_Init(&argc, &argv);
    MPI_Comm_rank(world, &rank);
    MPI_Comm_size(world, &ranks);
    const char *way = argc > 1 ? argv[1] : "order";
    if (!strcmp(way, "order"))
        in_another_order();
    if (!strcmp(way, "root"))
        with_another_root(ranks - 1);
    if (!strcmp(way, "started"))
        started_in_another_order();
    if (!strcmp(way, "form"))
        in_another_form();
    if (!strcmp(way, "half"))
        on_a_half();
    MPI_Finalize();
}
