/* Python is embedded, and the main thread has its lock while another one calls MPI. */
#include <Python.h>
#include <mpi.h>
#include <pthread.h>

static void *call(void *rank) {
    int out = 0, in, peer = 1 - *(int *)rank;
    for (int i = 0; i < 5; i++)
        MPI_Sendrecv(&out, 1, MPI_INT, peer, i, &in, 1, MPI_INT, peer, i, MPI_COMM_WORLD, MPI_STATUS_IGNORE);
    return NULL;
}

int main(int argc, char **argv) {
    int rank, level;
    pthread_t thread;
    Py_Initialize();
    MPI_Init_thread(&argc, &argv, MPI_THREAD_SERIALIZED, &level);
    MPI_Comm_rank(MPI_COMM_WORLD, &rank);
    pthread_create(&thread, NULL, call, &rank);
    pthread_join(thread, NULL);
    MPI_Finalize();
    return 0;
}
