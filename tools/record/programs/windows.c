/* windows STEPS [WAY AT [REST]]: each rank exchanges halos with its neighbours, and all sum up after each 10
 * steps. A receive from anybody is active throughout. After a step it rests REST microseconds. At step AT the
 * ranks may do otherwise. `head`: ranks 0 and 1 send to each other before they receive; rank 0 writes `end`
 * at its end. `hang`: rank 0 receives what nobody sends, and writes when. `under`, `posted`, `self`, `alone`,
 * `probed`, `matched`: from there on a message is under way at each sum: to a neighbour, to one whose receive
 * was started, to oneself, on MPI_COMM_SELF, one that a probe saw or took. `cancelled`: a receive, and a
 * later one got the message. `orders`: two communicators that not all ranks number alike. `uneven`: ranks
 * have different numbers of calls, all meet after each step, and all but the last one by themselves too.
 * `closes`: rank 0 closes its journal, and is recorded no further. `file`: a call that isn't recorded.
 * `threads`: MPI_THREAD_MULTIPLE, from the beginning. `asked`: each is sent what it receives from anybody,
 * rank 0 sends to one that receives late, and the waits come at the end.
 */
#include <mpi.h>
#include <stdio.h>
#include <stdlib.h>
#include <string.h>
#include <time.h>
#include <unistd.h>

enum { TO_LEFT = 1, TO_RIGHT = 2, LATE = 3, NEVER = 4, HEAD = 5 };
static int me, ranks;
static const char *way = "";

static void rest(long microseconds) {
    struct timespec time = {.tv_nsec = microseconds * 1000};
    if (microseconds > 0)
        nanosleep(&time, NULL);
}

static void exchange(void) {
    MPI_Request requests[4];
    int in[2], left = (me + ranks - 1) % ranks, right = (me + 1) % ranks;
    MPI_Irecv(&in[0], 1, MPI_INT, left, TO_RIGHT, MPI_COMM_WORLD, &requests[0]);
    MPI_Irecv(&in[1], 1, MPI_INT, right, TO_LEFT, MPI_COMM_WORLD, &requests[1]);
    MPI_Isend(&me, 1, MPI_INT, right, TO_RIGHT, MPI_COMM_WORLD, &requests[2]);
    MPI_Isend(&me, 1, MPI_INT, left, TO_LEFT, MPI_COMM_WORLD, &requests[3]);
    MPI_Waitall(4, requests, MPI_STATUSES_IGNORE);
}

static int is(const char *word) { return strcmp(way, word) == 0; }

/* A message is under way to a receive that was started while all sum up. */
static void sum_up_posted(void) {
    int left = (me + ranks - 1) % ranks, right = (me + 1) % ranks, mine = 1, all, in;
    MPI_Request requests[2];
    MPI_Irecv(&in, 1, MPI_INT, left, HEAD, MPI_COMM_WORLD, &requests[0]);
    MPI_Isend(&me, 1, MPI_INT, right, HEAD, MPI_COMM_WORLD, &requests[1]);
    MPI_Allreduce(&mine, &all, 1, MPI_INT, MPI_SUM, MPI_COMM_WORLD);
    MPI_Waitall(2, requests, MPI_STATUSES_IGNORE);
}

/* A receive is cancelled, and the message that it would have got comes only then. */
static void sum_up_cancelled(void) {
    int left = (me + ranks - 1) % ranks, right = (me + 1) % ranks, mine = 1, all, in;
    MPI_Request request;
    MPI_Irecv(&in, 1, MPI_INT, left, HEAD, MPI_COMM_WORLD, &request);
    MPI_Cancel(&request);
    MPI_Sendrecv(&me, 1, MPI_INT, left, TO_LEFT, &in, 1, MPI_INT, right, TO_LEFT, MPI_COMM_WORLD,
                 MPI_STATUS_IGNORE);
    MPI_Sendrecv(&me, 1, MPI_INT, right, HEAD, &in, 1, MPI_INT, left, HEAD, MPI_COMM_WORLD,
                 MPI_STATUS_IGNORE);
    MPI_Allreduce(&mine, &all, 1, MPI_INT, MPI_SUM, MPI_COMM_WORLD);
    MPI_Wait(&request, MPI_STATUS_IGNORE);
}

/* Waits for a message in a probe, and the next time by polls. */
static void look_for(int from, MPI_Comm comm) {
    static int times;
    int found = times++ % 2 == 0;
    if (found)
        MPI_Probe(from, HEAD, comm, MPI_STATUS_IGNORE);
    while (!found)
        MPI_Iprobe(from, HEAD, comm, &found, MPI_STATUS_IGNORE);
}

/* A message is under way while all sum up. */
static void sum_up_under_way(void) {
    MPI_Comm comm = is("alone") ? MPI_COMM_SELF : MPI_COMM_WORLD;
    int to = is("alone") ? 0 : is("self") ? me : (me + 1) % ranks;
    int from = is("alone") ? 0 : is("self") ? me : (me + ranks - 1) % ranks, mine = 1, all, in;
    MPI_Request request;
    MPI_Message message;
    MPI_Isend(&me, 1, MPI_INT, to, HEAD, comm, &request);
    if (is("probed"))
        look_for(from, comm);
    if (is("matched"))
        MPI_Mprobe(from, HEAD, comm, &message, MPI_STATUS_IGNORE);
    MPI_Allreduce(&mine, &all, 1, MPI_INT, MPI_SUM, MPI_COMM_WORLD);
    if (is("matched"))
        MPI_Mrecv(&in, 1, MPI_INT, &message, MPI_STATUS_IGNORE);
    else
        MPI_Recv(&in, 1, MPI_INT, from, HEAD, comm, MPI_STATUS_IGNORE);
    MPI_Wait(&request, MPI_STATUS_IGNORE);
}

static MPI_Comm pair[2], part;

/* Rank 0 has the second one first. */
static void make_pair(void) {
    MPI_Request requests[2];
    MPI_Comm_idup(MPI_COMM_WORLD, &pair[0], &requests[0]);
    MPI_Comm_idup(MPI_COMM_WORLD, &pair[1], &requests[1]);
    MPI_Wait(&requests[me == 0], MPI_STATUS_IGNORE);
    MPI_Wait(&requests[me != 0], MPI_STATUS_IGNORE);
}

static void sum_up(void) {
    int mine = 1, all;
    MPI_Allreduce(&mine, &all, 1, MPI_INT, MPI_SUM, MPI_COMM_WORLD);
    if (is("orders")) {
        MPI_Barrier(pair[0]);
        MPI_Bcast(&all, 1, MPI_INT, 0, pair[1]);
    }
}

/* A rank has the more calls the greater its number. */
static void be_uneven(void) {
    for (int i = 0; i < 3 * me; i++)
        MPI_Send(&me, 1, MPI_INT, MPI_PROC_NULL, 0, MPI_COMM_WORLD);
    if (part != MPI_COMM_NULL)
        MPI_Barrier(part);
    MPI_Barrier(MPI_COMM_WORLD);
}

static void send_late(void) { MPI_Send(&me, 1, MPI_INT, (me + 1) % ranks, LATE, MPI_COMM_WORLD); }

/* A strict recorder learns in rank 0's sends what that rank received. */
static void send_early(void) {
    int in, last = ranks - 1;
    send_late();
    if (me == 0 || me == last)
        MPI_Send(&me, 1, MPI_INT, 1, HEAD, MPI_COMM_WORLD);
    if (me != 1)
        return;
    MPI_Recv(&in, 1, MPI_INT, last, HEAD, MPI_COMM_WORLD, MPI_STATUS_IGNORE);
    rest(300000);
    MPI_Recv(&in, 1, MPI_INT, 0, HEAD, MPI_COMM_WORLD, MPI_STATUS_IGNORE);
}

static void close_journal(void) {
    char path[64], name[4096];
    for (int file = 3; file < 1024; file++) {
        snprintf(path, sizeof path, "/proc/self/fd/%d", file);
        ssize_t length = readlink(path, name, sizeof name - 1);
        name[length > 0 ? length : 0] = '\0';
        if (strstr(name, "/journal0"))
            close(file);
    }
}

static void do_otherwise(void) {
    int in;
    MPI_File file;
    if (is("asked"))
        send_early();
    if (is("hang") && me == 0) {
        fprintf(stderr, "hang at %ld\n", (long)time(NULL));
        MPI_Recv(&in, 1, MPI_INT, 1, NEVER, MPI_COMM_WORLD, MPI_STATUS_IGNORE);
    }
    if (is("head") && me < 2) {
        MPI_Send(&me, 1, MPI_INT, 1 - me, HEAD, MPI_COMM_WORLD);
        MPI_Recv(&in, 1, MPI_INT, 1 - me, HEAD, MPI_COMM_WORLD, MPI_STATUS_IGNORE);
    }
    if (is("closes") && me == 0)
        close_journal();
    if (is("file")) {
        MPI_File_open(MPI_COMM_SELF, "/dev/null", MPI_MODE_RDONLY, MPI_INFO_NULL, &file);
        MPI_File_close(&file);
    }
}

static void make_communicators(void) {
    if (is("orders"))
        make_pair();
    if (is("uneven"))
        MPI_Comm_split(MPI_COMM_WORLD, me == ranks - 1 ? MPI_UNDEFINED : 0, 0, &part);
}

static void sum_up_by(long step, long at) {
    if (step < at)
        sum_up();
    else if (is("posted"))
        sum_up_posted();
    else if (is("cancelled"))
        sum_up_cancelled();
    else if (is("under") || is("self") || is("alone") || is("probed") || is("matched"))
        sum_up_under_way();
    else
        sum_up();
}

int main(int argc, char **argv) {
    long steps = argc > 1 ? atol(argv[1]) : 1000, at = argc > 3 ? atol(argv[3]) : -1;
    long pause = argc > 4 ? atol(argv[4]) : 0;
    int in, level;
    MPI_Request late;
    way = argc > 2 ? argv[2] : "";
    MPI_Init_thread(&argc, &argv, is("threads") ? MPI_THREAD_MULTIPLE : MPI_THREAD_SINGLE, &level);
    MPI_Comm_rank(MPI_COMM_WORLD, &me);
    MPI_Comm_size(MPI_COMM_WORLD, &ranks);
    make_communicators();
    MPI_Irecv(&in, 1, MPI_INT, MPI_ANY_SOURCE, LATE, MPI_COMM_WORLD, &late);
    for (long step = 0; step < steps; step++) {
        exchange();
        rest(pause);
        if (step == at)
            do_otherwise();
        if (is("uneven"))
            be_uneven();
        if (step % 10 == 9)
            sum_up_by(step, at);
    }
    if (!is("asked"))
        send_late();
    else if (me == 1)
        MPI_Cancel(&late);
    MPI_Wait(&late, MPI_STATUS_IGNORE);
    if (is("head") && me == 0)
        fprintf(stderr, "end\n");
    MPI_Finalize();
    return 0;
}
