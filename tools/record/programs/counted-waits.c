/* Ranks that wait for ever in calls that are only counted, and one that came back from such a call. */
#include <mpi.h>
#include <unistd.h>

static int rank, data;
static MPI_Win window;
static MPI_Comm pairs;

/* Calls that come back. */
static void begin(void) {
    MPI_Comm pair;
    int *memory;
    MPI_Comm_split(MPI_COMM_WORLD, rank % 2, rank, &pair);
    MPI_Intercomm_create(pair, 0, MPI_COMM_WORLD, 1 - rank % 2, 5, &pairs);
    MPI_Barrier(MPI_COMM_WORLD);
    MPI_Win_allocate(sizeof data, sizeof data, MPI_INFO_NULL, MPI_COMM_WORLD, &memory, &window);
}

/* Nobody ends an access to what is exposed here. */
static void wait_for_access(void) {
    MPI_Group world;
    MPI_Comm_group(MPI_COMM_WORLD, &world);
    MPI_Win_post(world, 0, window);
    MPI_Win_wait(window);
}

int main(int argc, char **argv) {
    int found;
    MPI_Init(&argc, &argv);
    MPI_Comm_rank(MPI_COMM_WORLD, &rank);
    begin();
    if (rank == 1)
        wait_for_access();
    if (rank == 2) {
        MPI_Iprobe(1, 7, MPI_COMM_WORLD, &found, MPI_STATUS_IGNORE);
        MPI_Recv(&data, 1, MPI_INT, 0, 7, pairs, MPI_STATUS_IGNORE);
    }
    if (rank == 3)
        pause();
    MPI_Recv(&data, 1, MPI_INT, 1, 7, MPI_COMM_WORLD, MPI_STATUS_IGNORE);
    MPI_Finalize();
    return 0;
}
