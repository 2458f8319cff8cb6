/* Threads of each rank exchange with those of the other one. The first word is the level that is asked for;
 * with `turns' one thread calls at a time, with `overlap' one calls while the first is in a call, with
 * `overlapped' the first calls while another is in a call. */
#include <mpi.h>
#include <pthread.h>
#include <stdbool.h>
#include <stdio.h>
#include <string.h>
#include <unistd.h>

enum { THREADS = 3, ROUNDS = 4 };
static int rank;
static int is_waiting;
static pthread_mutex_t turn = PTHREAD_MUTEX_INITIALIZER;
static pthread_cond_t next = PTHREAD_COND_INITIALIZER;
static int whose;

static void exchange(int tag) {
    int out = 0, in;
    MPI_Comm world = MPI_COMM_WORLD;
    MPI_Sendrecv(&out, 1, MPI_INT, 1 - rank, tag, &in, 1, MPI_INT, 1 - rank, tag, world, MPI_STATUS_IGNORE);
}

static void *in_turn(void *place) {
    int mine = *(int *)place;
    for (int round = 0; round < ROUNDS; round++) {
        pthread_mutex_lock(&turn);
        while (whose % THREADS != mine)
            pthread_cond_wait(&next, &turn);
        exchange(mine);
        whose++;
        pthread_cond_broadcast(&next);
        pthread_mutex_unlock(&turn);
    }
    return NULL;
}

static void in_turns(void) {
    pthread_t threads[THREADS];
    int places[THREADS];
    for (int i = 0; i < THREADS; i++) {
        places[i] = i;
        pthread_create(&threads[i], NULL, in_turn, &places[i]);
    }
    for (int i = 0; i < THREADS; i++)
        pthread_join(threads[i], NULL);
}

/* Waits for the other rank. */
static void *wait_for_message(void *none) {
    int data;
    __atomic_store_n(&is_waiting, 1, __ATOMIC_RELEASE);
    MPI_Recv(&data, 1, MPI_INT, 1, 8, MPI_COMM_WORLD, MPI_STATUS_IGNORE);
    return none;
}

/* While another thread waits so, this one calls. */
static void *call_meanwhile(void *none) {
    int data = 0;
    while (!__atomic_load_n(&is_waiting, __ATOMIC_ACQUIRE))
        ;
    usleep(500000);
    MPI_Send(&data, 1, MPI_INT, MPI_PROC_NULL, 0, MPI_COMM_WORLD);
    return none;
}

static void overlapping(bool first_waits) {
    int data = 0;
    pthread_t thread;
    exchange(7);
    if (rank == 0) {
        pthread_create(&thread, NULL, first_waits ? call_meanwhile : wait_for_message, NULL);
        first_waits ? wait_for_message(NULL) : call_meanwhile(NULL);
        pthread_join(thread, NULL);
    } else {
        sleep(2);
        MPI_Send(&data, 1, MPI_INT, 0, 8, MPI_COMM_WORLD);
    }
    exchange(9);
}

int main(int argc, char **argv) {
    int level, wanted = MPI_THREAD_SINGLE;
    if (argc < 3)
        return 2;
    if (strcmp(argv[1], "serialized") == 0)
        wanted = MPI_THREAD_SERIALIZED;
    if (strcmp(argv[1], "multiple") == 0)
        wanted = MPI_THREAD_MULTIPLE;
    MPI_Init_thread(&argc, &argv, wanted, &level);
    MPI_Comm_rank(MPI_COMM_WORLD, &rank);
    if (strcmp(argv[2], "turns") == 0)
        in_turns();
    else
        overlapping(strcmp(argv[2], "overlap") == 0);
    MPI_Barrier(MPI_COMM_WORLD);
    MPI_Finalize();
    return 0;
}
