/* Ranks that make no call for a while. The first word says why, the second for how many seconds. */
#include <mpi.h>
#include <pthread.h>
#include <stdio.h>
#include <stdlib.h>
#include <string.h>
#include <time.h>
#include <unistd.h>

enum { MANY = 1100000 };
static int rank, seconds, data;

static void compute(void) {
    time_t end = time(NULL) + seconds;
    while (time(NULL) < end)
        ;
}

static void receive(int source) { MPI_Recv(&data, 1, MPI_INT, source, 4, MPI_COMM_WORLD, MPI_STATUS_IGNORE); }

static void send(int dest) { MPI_Send(&data, 1, MPI_INT, dest, 4, MPI_COMM_WORLD); }

/* Ranks 0 and 1 receive from each other, and rank 2 goes on for much longer than that is waited for. Rank 0
 * writes when. */
static void hang(void) {
    MPI_Barrier(MPI_COMM_WORLD);
    sleep(seconds);
    MPI_Barrier(MPI_COMM_WORLD);
    if (rank == 0)
        fprintf(stderr, "hang at %ld\n", (long)time(NULL));
    if (rank < 2)
        receive(1 - rank);
    for (int i = 0; i < 90; i++) {
        sleep(1);
        send(MPI_PROC_NULL);
    }
}

/* Rank 0 computes, while rank 1 waits for its message. */
static void computes(void) {
    if (rank == 0) {
        compute();
        send(1);
    } else if (rank == 1) {
        receive(0);
    }
}

/* All compute between two calls. */
static void between(void) {
    MPI_Barrier(MPI_COMM_WORLD);
    compute();
    MPI_Barrier(MPI_COMM_WORLD);
}

/* Rank 0 asks for a message that rank 1 sends late. */
static void polls(void) {
    int found = 0;
    if (rank == 1) {
        compute();
        send(0);
    }
    while (rank == 0 && !found)
        MPI_Iprobe(1, 4, MPI_COMM_WORLD, &found, MPI_STATUS_IGNORE);
    if (rank == 0)
        receive(1);
}

static void slowly(void *in, void *out, int *count, MPI_Datatype *type) {
    (void)type;
    compute();
    memcpy(out, in, *count * sizeof(int));
}

/* All are in one call for long. */
static void exchange(void) {
    int sum;
    MPI_Op op;
    MPI_Op_create(slowly, 1, &op);
    MPI_Reduce(&data, &sum, 1, MPI_INT, op, 0, MPI_COMM_WORLD);
    MPI_Op_free(&op);
}

/* Rank 0's journal is full before it computes and sends. */
static void full(void) {
    for (int i = 0; rank == 0 && i < MANY; i++)
        send(MPI_PROC_NULL);
    computes();
}

static void *send_late(void *none) {
    compute();
    send(rank);
    return none;
}

/* A second thread sends what the first one waits for. */
static void threads(void) {
    pthread_t thread;
    pthread_create(&thread, NULL, send_late, NULL);
    receive(rank);
    pthread_join(thread, NULL);
}

static const struct {
    const char *name;
    void (*run)(void);
} ways[] = {{"hang", hang},   {"computes", computes}, {"between", between}, {"exchange", exchange},
            {"polls", polls}, {"full", full},         {"threads", threads}};

int main(int argc, char **argv) {
    int level, wanted = MPI_THREAD_SINGLE;
    if (argc < 3)
        return 2;
    seconds = atoi(argv[2]);
    if (strcmp(argv[1], "threads") == 0)
        wanted = MPI_THREAD_MULTIPLE;
    MPI_Init_thread(&argc, &argv, wanted, &level);
    MPI_Comm_rank(MPI_COMM_WORLD, &rank);
    for (size_t i = 0; i < sizeof ways / sizeof *ways; i++)
        if (strcmp(ways[i].name, argv[1]) == 0)
            ways[i].run();
    MPI_Finalize();
    return 0;
}
