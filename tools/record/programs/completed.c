/* Many sends complete at once. Each way to wait for them gives what it gives without the recorder: null
 * handles and such statuses. Else the program aborts. */
#include <mpi.h>

enum { MANY = 20, ROUNDS = 10, MARK = 77, TAG = 3 };
static int data[MANY];
static MPI_Request requests[MANY];
static MPI_Status statuses[MANY];

static void expect(int right) {
    if (!right)
        MPI_Abort(MPI_COMM_WORLD, 1);
}

static void start(void) {
    for (int i = 0; i < MANY; i++) {
        MPI_Isend(&data[i], 1, MPI_INT, 1, TAG, MPI_COMM_WORLD, &requests[i]);
        statuses[i].MPI_ERROR = MARK;
    }
}

/* A wait for one leaves the error of its status as it was. */
static void check(int is_for_one) {
    for (int i = 0; i < MANY; i++) {
        int cancelled;
        MPI_Test_cancelled(&statuses[i], &cancelled);
        expect(requests[i] == MPI_REQUEST_NULL && !cancelled);
        expect(statuses[i].MPI_ERROR == (is_for_one ? MARK : MPI_SUCCESS));
    }
}

static void wait_for_all(void) {
    start();
    MPI_Waitall(MANY, requests, statuses);
    check(0);
}

static void wait_for_each(void) {
    start();
    for (int i = MANY - 1; i >= 0; i--)
        MPI_Wait(&requests[i], &statuses[i]);
    check(1);
}

static void wait_for_any(void) {
    int place;
    start();
    for (int i = 0; i < MANY; i++)
        MPI_Waitany(MANY, requests, &place, &statuses[i]);
    check(1);
}

static void free_some(void) {
    start();
    for (int i = 0; i < MANY; i++)
        i % 2 ? MPI_Request_free(&requests[i]) : MPI_Wait(&requests[i], &statuses[i]);
    check(1);
}

static void (*const ways[])(void) = {wait_for_all, wait_for_each, wait_for_any, free_some};
enum { WAYS = sizeof ways / sizeof *ways };

int main(int argc, char **argv) {
    int rank;
    MPI_Init(&argc, &argv);
    MPI_Comm_rank(MPI_COMM_WORLD, &rank);
    for (int i = 0; rank == 0 && i < ROUNDS * WAYS; i++)
        ways[i % WAYS]();
    for (int i = 0; rank == 1 && i < ROUNDS * WAYS * MANY; i++)
        MPI_Recv(data, 1, MPI_INT, 0, TAG, MPI_COMM_WORLD, MPI_STATUS_IGNORE);
    MPI_Finalize();
    return 0;
}
