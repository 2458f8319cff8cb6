/* A function of the program that MPI calls waits for sends that completed at once, and starts a receive. The
 * library may give that receive the handle of one of these sends. What it waits for is sent later. */
#include <mpi.h>
#include <stddef.h>

enum { MANY = 4, SENT = 1, GO = 2, LATE = 3 };
static int data[MANY], late;
static MPI_Request sends[MANY], receive;

static int clean(MPI_Comm comm, int key, void *value, void *state) {
    (void)comm, (void)key, (void)value, (void)state;
    MPI_Waitall(MANY, sends, MPI_STATUSES_IGNORE);
    MPI_Irecv(&late, 1, MPI_INT, 1, LATE, MPI_COMM_WORLD, &receive);
    return MPI_SUCCESS;
}

static void send_and_receive(void) {
    int key;
    MPI_Comm own;
    MPI_Comm_dup(MPI_COMM_SELF, &own);
    MPI_Comm_create_keyval(MPI_COMM_NULL_COPY_FN, clean, &key, NULL);
    MPI_Comm_set_attr(own, key, NULL);
    for (int i = 0; i < MANY; i++)
        MPI_Isend(&data[i], 1, MPI_INT, 1, SENT, MPI_COMM_WORLD, &sends[i]);
    MPI_Comm_free(&own);
    MPI_Send(data, 1, MPI_INT, 1, GO, MPI_COMM_WORLD);
    MPI_Wait(&receive, MPI_STATUS_IGNORE);
    if (late != 1 || receive != MPI_REQUEST_NULL)
        MPI_Abort(MPI_COMM_WORLD, 1);
}

static void answer(void) {
    for (int i = 0; i < MANY; i++)
        MPI_Recv(&data[i], 1, MPI_INT, 0, SENT, MPI_COMM_WORLD, MPI_STATUS_IGNORE);
    MPI_Recv(data, 1, MPI_INT, 0, GO, MPI_COMM_WORLD, MPI_STATUS_IGNORE);
    late = 1;
    MPI_Send(&late, 1, MPI_INT, 0, LATE, MPI_COMM_WORLD);
}

int main(int argc, char **argv) {
    int rank;
    MPI_Init(&argc, &argv);
    MPI_Comm_rank(MPI_COMM_WORLD, &rank);
    if (rank == 0)
        send_and_receive();
    else
        answer();
    MPI_Finalize();
    return 0;
}
