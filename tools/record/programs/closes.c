/* Closes all files in the folder of the journals, and opens files of its own, which get their numbers. Fails
 * if what these have isn't what it wrote. With a word it makes few calls. */
#include <dirent.h>
#include <fcntl.h>
#include <mpi.h>
#include <stdio.h>
#include <stdlib.h>
#include <string.h>
#include <unistd.h>

enum { MOST = 64 };

static int close_those_in(const char *folder) {
    char link[64], path[4096];
    int closed = 0;
    for (int file = 3; file < MOST; file++) {
        snprintf(link, sizeof link, "/proc/self/fd/%d", file);
        ssize_t length = readlink(link, path, sizeof path - 1);
        path[length > 0 ? length : 0] = '\0';
        if (length > 0 && strncmp(path, folder, strlen(folder)) == 0)
            closed += close(file) == 0;
    }
    return closed;
}

int main(int argc, char **argv) {
    const char *folder = getenv("MPIWAIT_JOURNAL");
    int files[MOST], count, wrong = 0;
    MPI_Init(&argc, &argv);
    count = folder ? close_those_in(folder) : 0;
    for (int i = 0; i < count; i++) {
        files[i] = fileno(tmpfile());
        wrong |= ftruncate(files[i], 200000) != 0;
    }
    for (int i = 0; i < (argc > 1 ? 1 : 100000); i++)
        MPI_Send(&i, 1, MPI_INT, MPI_PROC_NULL, 0, MPI_COMM_WORLD);
    MPI_Barrier(MPI_COMM_WORLD);
    MPI_Finalize();
    for (int i = 0; i < count; i++) {
        char byte = 1;
        wrong |= lseek(files[i], 0, SEEK_END) != 200000 || pread(files[i], &byte, 1, 0) != 1 || byte;
    }
    return wrong;
}
