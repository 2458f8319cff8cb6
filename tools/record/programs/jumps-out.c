/* The handler of a signal jumps out of a call before the library has it: while the recorder looks at the
 * modules, and has its lock. */
#define _GNU_SOURCE
#include <dlfcn.h>
#include <link.h>
#include <mpi.h>
#include <setjmp.h>
#include <signal.h>
#include <unistd.h>

typedef int Look(struct dl_phdr_info *module, size_t size, void *state);
static sigjmp_buf back;
static volatile sig_atomic_t is_wanted;

static void jump(int number) {
    (void)number;
    siglongjmp(back, 1);
}

/* It is called in place of the system's. */
int dl_iterate_phdr(Look *look, void *state) {
    static int (*real)(Look *, void *);
    if (!real)
        *(void **)&real = dlsym(RTLD_NEXT, "dl_iterate_phdr");
    int result = real(look, state);
    if (is_wanted)
        raise(SIGUSR1);
    return result;
}

/* The recorder looks at the modules only now and then. */
static void leave_send(int rank) {
    usleep(1000);
    is_wanted = 1;
    if (sigsetjmp(back, 1) == 0)
        MPI_Send(&rank, 1, MPI_INT, 1 - rank, 1, MPI_COMM_WORLD);
    is_wanted = 0;
}

int main(int argc, char **argv) {
    int rank;
    MPI_Init(&argc, &argv);
    MPI_Comm_rank(MPI_COMM_WORLD, &rank);
    signal(SIGUSR1, jump);
    leave_send(rank);
    MPI_Barrier(MPI_COMM_WORLD);
    MPI_Finalize();
    return 0;
}
