/* Tests once more often than the digits of a count can say: it writes the most there itself. */
#include <fcntl.h>
#include <mpi.h>
#include <stdio.h>
#include <stdlib.h>
#include <string.h>
#include <unistd.h>

enum { DIGITS = 12 };

static int put_nines(void) {
    char path[4096], text[4096] = "", *call;
    snprintf(path, sizeof path, "%s/1/left0", getenv("MPIWAIT_JOURNAL"));
    int file = open(path, O_RDWR);
    if (file < 0) {
        snprintf(path, sizeof path, "%s/left0", getenv("MPIWAIT_JOURNAL"));
        file = open(path, O_RDWR);
    }
    if (file < 0 || pread(file, text, sizeof text - 1, 0) <= 0 || !(call = strstr(text, " MPI_Test,")))
        return 0;
    return pwrite(file, "999999999999", DIGITS, call - text - DIGITS) == DIGITS;
}

int main(int argc, char **argv) {
    int in, done, out = 0;
    MPI_Request request;
    MPI_Init(&argc, &argv);
    MPI_Irecv(&in, 1, MPI_INT, 0, 1, MPI_COMM_WORLD, &request);
    MPI_Test(&request, &done, MPI_STATUS_IGNORE);
    int is_put = put_nines();
    MPI_Test(&request, &done, MPI_STATUS_IGNORE);
    MPI_Send(&out, 1, MPI_INT, 0, 1, MPI_COMM_WORLD);
    MPI_Wait(&request, MPI_STATUS_IGNORE);
    MPI_Finalize();
    return !is_put;
}
