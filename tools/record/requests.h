/* The requests that a rank has in use, found by their handles. */
#ifndef MPIWAIT_REQUESTS_H
#define MPIWAIT_REQUESTS_H

#include "journal.h"
#include <stddef.h>
#include <stdint.h>

/* The program doesn't see these names. */
#pragma GCC visibility push(hidden)

/* The line that each start of a persistent request writes. */
typedef struct {
    const char *word;
    Field fields[4];
    bool wild;
} Template;

/* What a receive wants, as its line has it. */
typedef struct {
    bool is_there;
    int comm;
    Field source, tag;
} Receive;

typedef struct {
    uintptr_t handle; /* 0: no request */
    int number;  /* in the journal, from 1; 0 where its call isn't recorded, or a persistent one isn't started
                  */
    int second;  /* the number of its receive, where the call sends and receives; else 0 */
    int site;    /* of the call that started it */
    bool active; /* started, and not known to be complete */
    bool persistent;
    bool wild;              /* a receive with a wildcard, whose status will be asked for */
    bool cancelled;         /* MPI_Cancel was called for it */
    bool open;              /* it is wild or cancelled, and what became of it isn't written */
    bool told;              /* that is written, although no call completed it */
    Template *template;     /* of a persistent one that is recorded */
    uintptr_t comm;         /* the communicator that it makes, if that is known yet */
    const void *place;      /* else the program's variable that will have it */
    struct Done *done;      /* the completed request of the recorder's own that it is (starts.c), or NULL */
    uint64_t origin;        /* of that communicator (sums.h) */
    uint64_t sent, message; /* what its send, or the message that it takes, adds to the sum of messages */
    Receive receive;        /* of itself, or of its second half */
} Request;

/* The request of a handle, or NULL. The pointer is valid until the next `requests_add` or `requests_remove`.
 */
Request *requests_find(uintptr_t handle);

/* A request with a new handle, or NULL if there is no memory. */
Request *requests_add(uintptr_t handle);
void requests_remove(Request *request);

/* The table has a completed request of the recorder's own no longer (starts.c). There may be none. */
void forget_done(struct Done *done);

/* The active ones that have a number, in the order in which they were started; NULL without memory. */
Request **requests_active(int *count);

/* Whether it has a wildcard. */
void request_is_wild(Request *request, bool wild);

/* A request is wild or cancelled; what became of it is written, or it is no longer in use. */
void request_opens(Request *request);
void request_closes(Request *request);

/* How many are open, and the next of them in the table, from place 0 on, or NULL. */
int requests_open(void);
Request *requests_next_open(size_t *place);

/* The next persistent one whose starts are recorded, likewise. */
const Request *requests_next_persistent(size_t *place);

#pragma GCC visibility pop

#endif
