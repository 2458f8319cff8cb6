/* A program that limits its files to 300,000 bytes, and makes more calls than a journal of that size has. By
 * a word it gives more names, or calls from more places, than a file of 5 megabytes has room for. */
#include <mpi.h>
#include <stdio.h>
#include <string.h>
#include <sys/resource.h>

static void make_calls(void) {
    struct rlimit most;
    getrlimit(RLIMIT_FSIZE, &most);
    most.rlim_cur = 300000;
    setrlimit(RLIMIT_FSIZE, &most);
    for (int i = 0; i < 100000; i++)
        MPI_Send(NULL, 0, MPI_INT, MPI_PROC_NULL, 0, MPI_COMM_WORLD);
}

static void give_names(void) {
    char name[MPI_MAX_OBJECT_NAME] = "";
    memset(name, 1, sizeof name - 1);
    for (int i = 0; i < 100000; i++)
        MPI_Comm_set_name(MPI_COMM_WORLD, name);
}

/* Each number is a place of its own: one of two lines for each of its digits. */
static void call_from(int number, int digits) {
    int found;
    if (digits == 0)
        MPI_Iprobe(MPI_ANY_SOURCE, 0, MPI_COMM_SELF, &found, MPI_STATUS_IGNORE);
    else if (number % 2)
        call_from(number / 2, digits - 1);
    else
        call_from(number / 2, digits - 1);
}

int main(int argc, char **argv) {
    const char *way = argc > 1 ? argv[1] : "calls";
    MPI_Init(&argc, &argv);
    if (strcmp(way, "calls") == 0)
        make_calls();
    if (strcmp(way, "names") == 0)
        give_names();
    for (int i = 0; i < 1 << 14 && strcmp(way, "places") == 0; i++)
        call_from(i, 14);
    MPI_Finalize();
    puts("it came to its end");
    return 0;
}
