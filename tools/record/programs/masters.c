/* Masters that take results as they come, each in another way: by MPI_Probe, MPI_Iprobe, MPI_Mprobe,
 * MPI_Waitsome, MPI_Test and MPI_Testany. */
#include <mpi.h>

enum { ROUNDS = 3, MOST = 64 };

static void by_probe(int workers) {
    int result;
    MPI_Status status;
    for (int i = 0; i < workers; i++) {
        MPI_Probe(MPI_ANY_SOURCE, MPI_ANY_TAG, MPI_COMM_WORLD, &status);
        MPI_Recv(&result, 1, MPI_INT, status.MPI_SOURCE, status.MPI_TAG, MPI_COMM_WORLD, MPI_STATUS_IGNORE);
    }
}

static void by_iprobe(int workers) {
    int result, found;
    MPI_Status status;
    for (int i = 0; i < workers; i++) {
        do
            MPI_Iprobe(MPI_ANY_SOURCE, MPI_ANY_TAG, MPI_COMM_WORLD, &found, &status);
        while (!found);
        MPI_Recv(&result, 1, MPI_INT, status.MPI_SOURCE, status.MPI_TAG, MPI_COMM_WORLD, MPI_STATUS_IGNORE);
    }
}

static void by_mprobe(int workers) {
    int result;
    MPI_Message message;
    for (int i = 0; i < workers; i++) {
        MPI_Mprobe(MPI_ANY_SOURCE, MPI_ANY_TAG, MPI_COMM_WORLD, &message, MPI_STATUS_IGNORE);
        MPI_Mrecv(&result, 1, MPI_INT, &message, MPI_STATUS_IGNORE);
    }
}

static void start_receives(int workers, int results[], MPI_Request requests[]) {
    for (int i = 0; i < workers; i++)
        MPI_Irecv(&results[i], 1, MPI_INT, MPI_ANY_SOURCE, MPI_ANY_TAG, MPI_COMM_WORLD, &requests[i]);
}

static void by_waitsome(int workers) {
    int results[MOST], places[MOST], done;
    MPI_Request requests[MOST];
    start_receives(workers, results, requests);
    for (int left = workers; left > 0; left -= done)
        MPI_Waitsome(workers, requests, &done, places, MPI_STATUSES_IGNORE);
}

static void by_test(int workers) {
    int results[MOST], done;
    MPI_Request requests[MOST];
    start_receives(workers, results, requests);
    for (int i = 0; i < workers; i++) {
        do
            MPI_Test(&requests[i], &done, MPI_STATUS_IGNORE);
        while (!done);
    }
}

static void by_testany(int workers) {
    int results[MOST], chosen, done;
    MPI_Request requests[MOST];
    start_receives(workers, results, requests);
    for (int i = 0; i < workers; i++) {
        do
            MPI_Testany(workers, requests, &chosen, &done, MPI_STATUS_IGNORE);
        while (!done);
    }
}

static void (*const masters[])(int) = {by_probe, by_iprobe, by_mprobe, by_waitsome, by_test, by_testany};

int main(int argc, char **argv) {
    int rank, ranks;
    MPI_Init(&argc, &argv);
    MPI_Comm_rank(MPI_COMM_WORLD, &rank);
    MPI_Comm_size(MPI_COMM_WORLD, &ranks);
    for (int round = 0; round < ROUNDS; round++) {
        for (int way = 0; way < (int)(sizeof masters / sizeof *masters); way++) {
            if (rank == 0)
                masters[way](ranks - 1);
            else
                MPI_Ssend(&rank, 1, MPI_INT, 0, way, MPI_COMM_WORLD);
            MPI_Barrier(MPI_COMM_WORLD);
        }
    }
    MPI_Finalize();
    return 0;
}
