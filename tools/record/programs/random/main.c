/* random-program SEED [STEPS [fault|pauses]]: runs a random program that can't deadlock, or one with a fault
 * put in. With `pauses` nothing is under way now and then but a receive. See random.h. */
#include "random.h"
#include <stdio.h>
#include <string.h>

enum { STEPS = 120, BUFFER = 1 << 26 };

/* The steps, and how often each is drawn; those that a program with a fault has, too. */
static const struct {
    void (*step)(void);
    int weight;
    bool with_fault;
} steps[] = {
    {step_message, 30, true},   {step_other_half, 14, true},        {step_complete, 16, true},
    {step_collective, 6, true}, {step_started_collective, 5, false}, {step_make, 5, false},
    {step_free, 3, false},      {step_ring, 6, true},               {step_persistent_ring, 2, true},
    {step_ready, 2, true},      {step_wildcards, 3, false},         {step_crossed, 2, true},
    {step_matched, 2, true},    {step_freed, 1, false},             {step_alone, 2, true},
    {step_self, 1, true},       {step_cancelled, 2, true},          {step_kept, 1, true},
    {step_look, 2, true},
};
enum { PAUSE = 7 }; /* steps between two of them */
enum { KINDS = sizeof steps / sizeof *steps };

static void (*any_step(void))(void) {
    int at = 0, left;
    do {
        left = draw(105);
        for (at = 0; at < KINDS - 1 && left >= steps[at].weight; at++)
            left -= steps[at].weight;
    } while (is_faulty && !steps[at].with_fault);
    return steps[at].step;
}

static MPI_Comm between; /* for the messages of pauses */

static void begin(unsigned seed) {
    MPI_Comm_rank(MPI_COMM_WORLD, &me);
    MPI_Comm_size(MPI_COMM_WORLD, &ranks);
    seed_plan(seed, me);
    comms[0] = (Comm){.is_alive = true, .size = ranks, .left = ranks, .parent = NOBODY};
    comms[0].handle = MPI_COMM_WORLD;
    for (int i = 0; i < ranks; i++) {
        comms[0].members[i] = places[i] = i;
        counts[i] = 1;
        offsets[i] = i * (int)sizeof(int);
        types[i] = MPI_INT;
    }
    MPI_Buffer_attach(malloc(BUFFER), BUFFER);
    MPI_Comm_dup(MPI_COMM_WORLD, &bridge);
    if (has_pauses)
        MPI_Comm_dup(MPI_COMM_WORLD, &between);
    begin_wildcards();
}

static void end(void) {
    void *buffer;
    int size;
    finish_all();
    drop_inactive(NOBODY);
    for (int comm = 1; comm < MOST_COMMS; comm++)
        if (comms[comm].is_alive && comm % 2 && is_member(comm, me))
            MPI_Comm_free(&comms[comm].handle);
    end_wildcards();
    MPI_Comm_free(&bridge);
    if (has_pauses)
        MPI_Comm_free(&between);
    MPI_Buffer_detach(&buffer, &size);
    free(buffer);
    MPI_Barrier(MPI_COMM_WORLD); /* MPICH's MPI_Finalize doesn't help others to detach theirs */
}

/* A receive from anybody is active from one pause to the next. */
static void pause_all(bool goes_on) {
    static MPI_Request early = MPI_REQUEST_NULL;
    static int got;
    finish_all();
    MPI_Barrier(MPI_COMM_WORLD);
    if (early != MPI_REQUEST_NULL) {
        MPI_Send(&me, 1, MPI_INT, (me + 1) % ranks, 0, between);
        MPI_Wait(&early, MPI_STATUS_IGNORE);
    }
    if (goes_on)
        MPI_Irecv(&got, 1, MPI_INT, MPI_ANY_SOURCE, MPI_ANY_TAG, between, &early);
}

/* In a program with a fault communicators are made before it alone, since no rank may lack one. */
static void run(int count) {
    Fault kind = is_faulty ? FAULT_NO_SEND + draw(FAULT_EARLY) : FAULT_NONE;
    for (int i = 0; is_faulty && i < 4; i++)
        step_make();
    int late = count / 3 + draw(count / 3 + 1);
    for (int i = 0; i < count; i++) {
        if (i == late)
            fault = kind;
        any_step()();
        if (has_pauses && i % PAUSE == PAUSE - 1)
            pause_all(i + PAUSE < count);
    }
}

int main(int argc, char **argv) {
    static const int levels[] = {MPI_THREAD_SINGLE, MPI_THREAD_FUNNELED, MPI_THREAD_SERIALIZED};
    unsigned seed = argc > 1 ? (unsigned)atoi(argv[1]) : 1;
    int level;
    if (seed % 4 == 3)
        MPI_Init(&argc, &argv);
    else
        MPI_Init_thread(&argc, &argv, levels[seed % 4], &level);
    is_faulty = argc > 3 && strcmp(argv[3], "fault") == 0;
    has_pauses = argc > 3 && strcmp(argv[3], "pauses") == 0;
    begin(seed);
    if (ranks > MOST_RANKS || ranks < 2) {
        fputs("random-program: it takes 2 to 16 ranks\n", stderr);
        MPI_Abort(MPI_COMM_WORLD, 9);
    }
    run(argc > 2 ? atoi(argv[2]) : STEPS);
    end();
    MPI_Finalize();
    return 0;
}
