// An error handler of C++ that returns: MPICH then has the failed call return MPI_SUCCESS, and what it should
// have answered is as it was before. Neither such a probe nor such a test found anything.
#include <mpi.h>
#include <cstdio>

static int calls;

#ifdef OMPI_MAJOR_VERSION
static void count(MPI_Comm *, int *, ...) { calls++; }
static void set_handler() {
    MPI_Errhandler handler;
    MPI_Comm_create_errhandler(count, &handler);
    MPI_Comm_set_errhandler(MPI_COMM_WORLD, handler);
}
#else
static void count(MPI::Comm &, int *, ...) { calls++; }
static void set_handler() { MPI::COMM_WORLD.Set_errhandler(MPI::Comm::Create_errhandler(count)); }
#endif

int main(int argc, char **argv) {
    int found = 1;
    MPI_Status status = {};
    MPI_Message message;
    MPI_Request requests[] = {MPI_REQUEST_NULL};
    MPI_Init(&argc, &argv);
    set_handler();
    status.MPI_SOURCE = 1;
    status.MPI_TAG = 5;
    MPI_Iprobe(99, 5, MPI_COMM_WORLD, &found, &status);
    MPI_Improbe(99, 5, MPI_COMM_WORLD, &found, &message, &status);
    MPI_Testall(-1, requests, &found, MPI_STATUSES_IGNORE);
    MPI_Barrier(MPI_COMM_WORLD);
    std::printf("%d calls of the handler\n", calls);
    return MPI_Finalize();
}
