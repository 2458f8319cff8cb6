/* Each rank waits for a message that the other never sends. After two seconds its own watch calls MPI_Abort: `signal`:
 * in a handler of a signal; `thread`: in another thread; `multiple`: the same with MPI_THREAD_MULTIPLE. */
#include <mpi.h>
#include <pthread.h>
#include <signal.h>
#include <string.h>
#include <unistd.h>

static void end(int signal) {
    (void)signal;
    MPI_Abort(MPI_COMM_WORLD, 1);
}

static void *watch(void *none) {
    sleep(2);
    end(0);
    return none;
}

int main(int argc, char **argv) {
    int rank, data, level, wanted = MPI_THREAD_SINGLE;
    pthread_t thread;
    if (argc < 2)
        return 2;
    if (strcmp(argv[1], "multiple") == 0)
        wanted = MPI_THREAD_MULTIPLE;
    MPI_Init_thread(&argc, &argv, wanted, &level);
    MPI_Comm_rank(MPI_COMM_WORLD, &rank);
    if (strcmp(argv[1], "signal") == 0) {
        signal(SIGALRM, end);
        alarm(2);
    } else {
        pthread_create(&thread, NULL, watch, NULL);
    }
    MPI_Recv(&data, 1, MPI_INT, 1 - rank, 3, MPI_COMM_WORLD, MPI_STATUS_IGNORE);
    MPI_Finalize();
    return 0;
}
