/* What a call costs, in loops of two ranks: a line for each, with the nanoseconds a call of rank 0. */
#include <mpi.h>
#include <stdio.h>

enum { ROUNDS = 20000, PIECES = 50, MANY = 32, TAG = 1 };
static int rank, peer, data[2 * MANY];
static MPI_Comm other;

static void to_nobody(void) { MPI_Send(data, 1, MPI_INT, MPI_PROC_NULL, TAG, MPI_COMM_WORLD); }

static void in_turn(void) {
    MPI_Send(data, 1, MPI_INT, MPI_PROC_NULL, TAG, MPI_COMM_WORLD);
    MPI_Send(data, 1, MPI_INT, MPI_PROC_NULL, TAG, other);
}

static MPI_Request never;

static void test(void) {
    int done;
    MPI_Test(&never, &done, MPI_STATUS_IGNORE);
}

static void iprobe(void) {
    int found;
    MPI_Iprobe(peer, TAG + 1, MPI_COMM_WORLD, &found, MPI_STATUS_IGNORE);
}

static void ping_pong(void) {
    if (rank == 0)
        MPI_Send(data, 1, MPI_INT, peer, TAG, MPI_COMM_WORLD);
    MPI_Recv(data, 1, MPI_INT, peer, TAG, MPI_COMM_WORLD, MPI_STATUS_IGNORE);
    if (rank == 1)
        MPI_Send(data, 1, MPI_INT, peer, TAG, MPI_COMM_WORLD);
}

static void wild_ping_pong(void) {
    if (rank == 0)
        MPI_Send(data, 1, MPI_INT, peer, TAG, MPI_COMM_WORLD);
    MPI_Recv(data, 1, MPI_INT, MPI_ANY_SOURCE, MPI_ANY_TAG, MPI_COMM_WORLD, MPI_STATUS_IGNORE);
    if (rank == 1)
        MPI_Send(data, 1, MPI_INT, peer, TAG, MPI_COMM_WORLD);
}

static void exchange(int count) {
    MPI_Request requests[2 * MANY];
    for (int i = 0; i < count; i++) {
        MPI_Irecv(&data[i], 1, MPI_INT, peer, TAG, MPI_COMM_WORLD, &requests[i]);
        MPI_Isend(&data[MANY + i], 1, MPI_INT, peer, TAG, MPI_COMM_WORLD, &requests[count + i]);
    }
    MPI_Waitall(2 * count, requests, MPI_STATUSES_IGNORE);
}

static void halo(void) { exchange(1); }

static void wide_halo(void) { exchange(MANY); }

static void barrier(void) { MPI_Barrier(MPI_COMM_WORLD); }

static void bcast(void) { MPI_Bcast(data, 1, MPI_INT, 0, MPI_COMM_WORLD); }

static const struct {
    const char *name;
    void (*round)(void);
    int calls, rounds; /* in all */
} loops[] = {
    {"Send to MPI_PROC_NULL", to_nobody, 1, ROUNDS},
    {"Send on two communicators in turn", in_turn, 2, ROUNDS},
    {"Test that finds nothing", test, 1, ROUNDS},
    {"Iprobe that finds nothing", iprobe, 1, ROUNDS},
    {"ping-pong", ping_pong, 2, ROUNDS},
    {"ping-pong with wildcards", wild_ping_pong, 2, ROUNDS},
    {"Irecv, Isend, Waitall", halo, 3, ROUNDS},
    {"32 Irecv, 32 Isend, Waitall", wide_halo, 2 * MANY + 1, ROUNDS / 8},
    {"Barrier", barrier, 1, ROUNDS},
    {"Bcast", bcast, 1, ROUNDS},
};

/* The best of many pieces: those in which another process had the processor are none. */
static double piece(int loop) {
    int rounds = loops[loop].rounds / PIECES;
    double start = MPI_Wtime();
    for (int i = 0; i < rounds; i++)
        loops[loop].round();
    return (MPI_Wtime() - start) / rounds / loops[loop].calls;
}

static void run(int loop) {
    double best = piece(loop);
    for (int i = 1; i < PIECES; i++) {
        double took = piece(loop);
        best = took < best ? took : best;
    }
    if (rank == 0)
        printf("%s\t%.0f\n", loops[loop].name, 1e9 * best);
    MPI_Barrier(MPI_COMM_WORLD);
}

int main(int argc, char **argv) {
    MPI_Init(&argc, &argv);
    MPI_Comm_rank(MPI_COMM_WORLD, &rank);
    peer = 1 - rank;
    MPI_Comm_dup(MPI_COMM_WORLD, &other);
    MPI_Irecv(data, 1, MPI_INT, peer, TAG + 1, other, &never);
    for (int i = 0; i < (int)(sizeof loops / sizeof *loops); i++)
        run(i);
    MPI_Cancel(&never);
    MPI_Wait(&never, MPI_STATUS_IGNORE);
    MPI_Finalize();
    return 0;
}
