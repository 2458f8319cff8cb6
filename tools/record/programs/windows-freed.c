/* windows-freed inside|persistent: each rank exchanges with its neighbours and meets all others, 300 times. Before,
 * a communicator is freed. `inside`: by a function that MPI calls, since another one that has it as an attribute
 * is freed. `persistent`: while persistent requests for it are there, which are started on and on. */
#include <mpi.h>
#include <string.h>

enum { STEPS = 300, TAG = 1 };
static int rank, ranks, in, out;
static MPI_Comm inner;
static MPI_Request requests[2];

static int free_inner(MPI_Comm comm, int key, void *value, void *none) {
    (void)comm, (void)key, (void)value, (void)none;
    return MPI_Comm_free(&inner);
}

static void free_inside(void) {
    MPI_Comm outer;
    int key;
    MPI_Comm_dup(MPI_COMM_WORLD, &outer);
    MPI_Comm_create_keyval(MPI_COMM_NULL_COPY_FN, free_inner, &key, NULL);
    MPI_Comm_set_attr(outer, key, NULL);
    MPI_Barrier(inner);
    MPI_Comm_free(&outer);
    MPI_Comm_free_keyval(&key);
}

static void make_requests(MPI_Comm comm) {
    MPI_Recv_init(&in, 1, MPI_INT, (rank + ranks - 1) % ranks, TAG, comm, &requests[0]);
    MPI_Send_init(&out, 1, MPI_INT, (rank + 1) % ranks, TAG, comm, &requests[1]);
}

int main(int argc, char **argv) {
    if (argc < 2)
        return 2;
    MPI_Init(&argc, &argv);
    MPI_Comm_rank(MPI_COMM_WORLD, &rank);
    MPI_Comm_size(MPI_COMM_WORLD, &ranks);
    MPI_Comm_dup(MPI_COMM_WORLD, &inner);
    if (strcmp(argv[1], "inside") == 0) {
        free_inside();
        make_requests(MPI_COMM_WORLD);
    } else {
        make_requests(inner);
        MPI_Comm_free(&inner);
    }
    for (int step = 0; step < STEPS; step++) {
        MPI_Startall(2, requests);
        MPI_Waitall(2, requests, MPI_STATUSES_IGNORE);
        MPI_Barrier(MPI_COMM_WORLD);
    }
    MPI_Request_free(&requests[0]);
    MPI_Request_free(&requests[1]);
    MPI_Finalize();
    return 0;
}
