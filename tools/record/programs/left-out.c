/* Calls that no trace has, and calls on what they make: one-sided ones, files, neighbours, intercommunicators. */
#include <mpi.h>

static int rank, ranks, data, got[16];

static void one_sided(void) {
    MPI_Win win;
    int *window;
    MPI_Win_allocate(sizeof *window, sizeof *window, MPI_INFO_NULL, MPI_COMM_WORLD, &window, &win);
    MPI_Win_fence(0, win);
    MPI_Put(&rank, 1, MPI_INT, (rank + 1) % ranks, 0, 1, MPI_INT, win);
    MPI_Win_fence(0, win);
    MPI_Win_free(&win);
}

static void file(void) {
    MPI_File file;
    MPI_File_open(MPI_COMM_WORLD, "/dev/null", MPI_MODE_WRONLY, MPI_INFO_NULL, &file);
    MPI_File_set_atomicity(file, 0);
    MPI_File_write_at_all(file, rank * sizeof data, &data, 1, MPI_INT, MPI_STATUS_IGNORE);
    MPI_File_close(&file);
}

static void neighbours(void) {
    int periodic = 1;
    MPI_Comm ring;
    MPI_Request request;
    MPI_Cart_create(MPI_COMM_WORLD, 1, &ranks, &periodic, 0, &ring);
    MPI_Neighbor_allgather(&data, 1, MPI_INT, got, 1, MPI_INT, ring);
    MPI_Ineighbor_allgather(&data, 1, MPI_INT, got, 1, MPI_INT, ring, &request);
    MPI_Wait(&request, MPI_STATUS_IGNORE);
    MPI_Comm_free(&ring);
}

static void intercommunicator(void) {
    MPI_Comm half, inter, merged, dup;
    MPI_Request request;
    MPI_Message message;
    MPI_Comm_split(MPI_COMM_WORLD, rank % 2, rank, &half);
    MPI_Intercomm_create(half, 0, MPI_COMM_WORLD, 1 - rank % 2, 5, &inter);
    MPI_Barrier(inter);
    MPI_Sendrecv(&rank, 1, MPI_INT, rank / 2, 0, got, 1, MPI_INT, rank / 2, 0, inter, MPI_STATUS_IGNORE);
    MPI_Isend(&rank, 1, MPI_INT, rank / 2, 1, inter, &request);
    MPI_Mprobe(rank / 2, 1, inter, &message, MPI_STATUS_IGNORE);
    MPI_Mrecv(got, 1, MPI_INT, &message, MPI_STATUS_IGNORE);
    MPI_Wait(&request, MPI_STATUS_IGNORE);
    MPI_Intercomm_merge(inter, rank % 2, &merged);
    MPI_Barrier(merged);
    MPI_Comm_free(&merged);
    MPI_Comm_free(&inter);
    MPI_Comm_idup(half, &dup, &request);
    MPI_Wait(&request, MPI_STATUS_IGNORE);
    MPI_Barrier(dup);
    MPI_Comm_free(&dup);
    MPI_Comm_free(&half);
}

static void create_group(void) {
    MPI_Group world, group;
    MPI_Comm comm;
    int first = 0;
    MPI_Comm_group(MPI_COMM_WORLD, &world);
    MPI_Group_excl(world, 1, &first, &group);
    if (rank != 0) {
        MPI_Comm_create_group(MPI_COMM_WORLD, group, 3, &comm);
        MPI_Barrier(comm);
        MPI_Comm_free(&comm);
    }
    MPI_Group_free(&group);
    MPI_Group_free(&world);
}

static void freed(void) {
    MPI_Request request;
    MPI_Isend(&data, 1, MPI_INT, (rank + 1) % ranks, 9, MPI_COMM_WORLD, &request);
    MPI_Request_free(&request);
    MPI_Recv(&data, 1, MPI_INT, (rank + ranks - 1) % ranks, 9, MPI_COMM_WORLD, MPI_STATUS_IGNORE);
    MPI_Irecv(&data, 1, MPI_INT, (rank + 1) % ranks, 10, MPI_COMM_WORLD, &request);
    MPI_Cancel(&request);
    MPI_Request_free(&request);
}

int main(int argc, char **argv) {
    MPI_Init(&argc, &argv);
    MPI_Comm_rank(MPI_COMM_WORLD, &rank);
    MPI_Comm_size(MPI_COMM_WORLD, &ranks);
    one_sided();
    file();
    neighbours();
    intercommunicator();
    create_group();
    freed();
    MPI_Finalize();
    return 0;
}
