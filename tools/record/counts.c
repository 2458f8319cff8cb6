/* Counts the calls that have no line in the journal. See journal.h. */
#define _GNU_SOURCE
#include "journal.h"
#include <sched.h>
#include <string.h>
#include <unistd.h>

enum {
    ROOM = 1 << 14, /* bytes of the text */
    KINDS = 128,    /* the last three are for calls that have no room of their own */
    DIGITS = 12,
    OTHERS_ROOM = 128,
    WITHIN = 'w' /* in place of WAITS */
};

/* One line for each kind, `W 000000000012 MPI_Put`, whose digits are counted up in place. */
static struct {
    char *text, *end;
    char *within; /* the line of the call that the rank is in, or NULL */
    int kinds;
    struct {
        Meaning meaning;
        const char *what;
        char *line;
    } kind[KINDS];
} counts;

static const char others[] = "other calls";

/* The thread that counts, or NULL. If it is this one, a handler of a signal came meanwhile, or left it. */
static const char *counting;
static __thread char me __attribute__((tls_model("initial-exec")));

static void begin_to_count(void) {
    const char *none = NULL;
    while (__atomic_load_n(&counting, __ATOMIC_RELAXED) != &me &&
           !__atomic_compare_exchange_n(&counting, &none, &me, false, __ATOMIC_ACQUIRE, __ATOMIC_RELAXED)) {
        none = NULL;
        sched_yield();
    }
}

/* Of more than the digits can say it stays the most. */
static void count_up(char *first) {
    char *digit = first + DIGITS - 1;
    while (digit >= first && *digit == '9')
        digit--;
    if (digit < first)
        return;
    ++*digit;
    while (++digit < first + DIGITS)
        *digit = '0';
}

static int find_kind(Meaning meaning, const char *what) {
    int kind = 0;
    while (kind < counts.kinds && (counts.kind[kind].what != what || counts.kind[kind].meaning != meaning))
        kind++;
    return kind;
}

static bool has_room(const char *what) {
    char *most = counts.text + ROOM - OTHERS_ROOM;
    return what == others || (counts.kinds < KINDS - 3 && counts.end + strlen(what) + DIGITS + 4 < most);
}

static int new_kind(Meaning meaning, const char *what) {
    char *line = counts.end, *at = line + 2;
    line[1] = ' ';
    memset(at, '0', DIGITS);
    counts.kind[counts.kinds].meaning = meaning;
    counts.kind[counts.kinds].what = what;
    counts.kind[counts.kinds].line = line;
    at[DIGITS] = ' ';
    at = stpcpy(at + DIGITS + 1, what);
    *at++ = '\n';
    __atomic_store_n(line, (char)meaning, __ATOMIC_RELEASE);
    counts.end = at;
    return counts.kinds++;
}

/* What waits is left out by the thread that has the turn, so no other one writes these letters. */
static void goes_within(char *line) {
    counts_came_back();
    __atomic_store_n(line, WITHIN, __ATOMIC_RELEASE);
    counts.within = line;
    in_counted = true;
}

void counts_came_back(void) {
    if (counts.within)
        __atomic_store_n(counts.within, WAITS, __ATOMIC_RELEASE);
    counts.within = NULL;
    in_counted = false;
}

void left_out(Meaning meaning, const char *what) {
    in_doubt = in_doubt || meaning != NOTHING;
    if (!counts.text)
        return;
    begin_to_count();
    int kind = find_kind(meaning, what);
    if (kind == counts.kinds && !has_room(what))
        kind = find_kind(meaning, what = others);
    if (kind == counts.kinds)
        kind = new_kind(meaning, what);
    count_up(counts.kind[kind].line + 2);
    if (meaning == WAITS)
        goes_within(counts.kind[kind].line);
    __atomic_store_n(&counting, NULL, __ATOMIC_RELEASE);
}

const char *counts_open(const char *folder, int rank) {
    int file = create_text(folder, "left", rank);
    char *text = file < 0 ? NULL : map_text(file, 0, ROOM);
    if (file >= 0)
        close(file);
    counts.text = counts.end = text;
    return text ? NULL : "there is no room for its journal";
}
