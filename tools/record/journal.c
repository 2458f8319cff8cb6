/* Writes a rank's journal. See journal.h. */
#define _GNU_SOURCE
#include "journal.h"
#include <errno.h>
#include <fcntl.h>
#include <stdint.h>
#include <stdio.h>
#include <string.h>
#include <sys/mman.h>
#include <sys/resource.h>
#include <sys/stat.h>
#include <unistd.h>

enum {
    FIRST_WINDOW = 1 << 16, /* the part of the journal that is mapped at first */
    WINDOW = 1 << 20,       /* the largest part that is mapped at a time */
    LONGEST_LINE = 1 << 15,
    LONGEST_REST = 64,   /* of a line: its word and its site */
    MOST_TIMES = 1000,   /* that room is reserved, if signals come meanwhile */
    LONGEST_STOP = 512,  /* the line with the reason why no more follow; there is always room for it */
    MOST_CALLS = 1000001 /* one more than a trace may have, since a trace has no MPI_Init */
};

bool recording, journal_is_full, in_doubt, in_counted;
int journal_site;

/* What the header of each window's journal has, and the folder of the run. */
static struct {
    char folder[4096], id[LONGEST_ID], library[512];
    int ranks;
} run;

typedef struct {
    int file, rank, number; /* of its window, or 0 */
    Identity identity;
    bool is_open;
    long calls;
    off_t start; /* where the window begins in the file */
    size_t size; /* of the window */
    char *window, *at;
    char *header;        /* its page stays mapped to the end */
    char *state, *polls; /* their places in the header */
} Journal;

static Journal journal, next;
static unsigned long lines;

/* The call that is being recorded. */
static struct {
    off_t begin, first_end; /* where its lines begin, and where its first line ends */
    int lines;
    bool failed;
} call;

int create_text(const char *folder, const char *name, int rank) {
    char path[4096];
    if (snprintf(path, sizeof path, "%s/%s%d", folder, name, rank) >= (int)sizeof path)
        return -1;
    return open(path, O_RDWR | O_CREAT | O_EXCL | O_CLOEXEC, 0666);
}

bool is_still_ours(int file, Identity *identity) {
    struct stat now;
    if (fstat(file, &now) != 0)
        return false;
    if (!identity->is_known)
        *identity = (Identity){true, now.st_dev, now.st_ino};
    return now.st_dev == identity->device && now.st_ino == identity->place;
}

bool may_have(unsigned long size) {
    struct rlimit most;
    return getrlimit(RLIMIT_FSIZE, &most) != 0 || most.rlim_cur == RLIM_INFINITY || size <= most.rlim_cur;
}

/* Some file systems let signals of the program interrupt it. */
static int reserve(int file, long start, unsigned long size) {
    int result = EINTR;
    for (int i = 0; i < MOST_TIMES && result == EINTR; i++)
        result = posix_fallocate(file, start, size);
    return result;
}

/* The system maps many pages at once if it has them in memory. Else it makes each one when its first byte is
 * written, which takes three times as long. Nothing is lost where this fails. */
static void put_zeros(int file, off_t from, off_t end) {
    static char zeros[1 << 16];
    while (from < end) {
        size_t part = end - from < (off_t)sizeof zeros ? (size_t)(end - from) : sizeof zeros;
        ssize_t put = pwrite(file, zeros, part, from);
        if (put <= 0)
            return;
        from += put;
    }
}

/* Room on the disk is reserved first: a write into mapped memory can't return an error. */
char *map_text(int file, long start, unsigned long size) {
    off_t had = lseek(file, 0, SEEK_END);
    if (!may_have(start + size) || reserve(file, start, size) != 0)
        return NULL;
    if (had >= 0)
        put_zeros(file, had < start ? start : had, start + size);
    char *place = mmap(NULL, size, PROT_READ | PROT_WRITE, MAP_SHARED, file, start);
    return place == MAP_FAILED ? NULL : place;
}

/* ---- Lines ------------------------------------------------------------------------------------- */

/* The numbers from 00 to 99, since a division costs more than anything else here. */
static const char pairs[] = "00010203040506070809101112131415161718192021222324"
                            "25262728293031323334353637383940414243444546474849"
                            "50515253545556575859606162636465666768697071727374"
                            "75767778798081828384858687888990919293949596979899";

static char *put_two(char *at, unsigned number) { return (char *)memcpy(at, &pairs[2 * number], 2) + 2; }

static char *put_one_or_two(char *at, unsigned number) {
    if (number >= 10)
        return put_two(at, number);
    *at = '0' + number;
    return at + 1;
}

static char *put_digits_of(char *at, unsigned long long number) {
    unsigned last = number % 10000;
    if (number < 100)
        return put_one_or_two(at, last);
    at = number < 10000 ? put_one_or_two(at, last / 100)
                        : put_two(put_digits_of(at, number / 10000), last / 100);
    return put_two(at, last % 100);
}

static char *put_number(char *at, long long number) {
    if (number < 0)
        *at++ = '-';
    return put_digits_of(at, number < 0 ? -(unsigned long long)number : (unsigned long long)number);
}

static char *put_long_field(char *at, Field field) {
    switch (field) {
    case UNKNOWN: return at;
    case NULL_PEER: return stpcpy(at, " null");
    case ANY: return stpcpy(at, " any");
    case UNDEFINED: return stpcpy(at, " undefined");
    default: *at++ = ' '; return put_number(at, field);
    }
}

/* Most fields have one digit. */
static inline char *put_field(char *at, Field field) {
    if (field < 0 || field > 9)
        return put_long_field(at, field);
    at[0] = ' ';
    at[1] = '0' + field;
    return at + 2;
}

static off_t place(void) { return journal.start + (journal.at - journal.window); }

/* The next window begins on the page of the next line, and is twice as large up to the most. */
static bool move_window(void) {
    long page = sysconf(_SC_PAGESIZE);
    off_t next = place(), start = next - next % page;
    size_t size = !journal.window ? FIRST_WINDOW : journal.size < WINDOW ? 2 * journal.size : WINDOW;
    char *window = map_text(journal.file, start, size);
    if (!window)
        return false;
    Journal old = journal;
    journal.window = window;
    journal.start = start;
    journal.size = size;
    journal.at = window + (next - start);
    if (old.window) /* last, since a handler of a signal may jump out of it */
        munmap(old.window, old.size);
    return true;
}

bool fits_line(int count, const Field *fields) {
    char field[32];
    Field most = 0;
    for (int i = 0; i < count && count > MOST_FIELDS; i++)
        most = fields[i] > most ? fields[i] : most;
    return count * (put_field(field, most) - field) <= LONGEST_LINE - LONGEST_REST;
}

static bool has_room(int count, const Field *fields) {
    if (!journal.is_open)
        return false;
    if (count > MOST_FIELDS && !fits_line(count, fields)) {
        journal_stop("a call names more ranks than a line of the journal holds");
        return false;
    }
    if (journal.window + journal.size - journal.at >= LONGEST_LINE + LONGEST_STOP)
        return true;
    bool is_ours = is_still_ours(journal.file, &journal.identity);
    if (is_ours && move_window())
        return true;
    journal_stop(is_ours ? "there is no room for its journal" : "the program closed its journal");
    return false;
}

static void put_line(const char *word, int count, const Field *fields, int site) {
    char *at = stpcpy(journal.at + 1, word + 1);
    for (int i = 0; i < count; i++)
        at = put_field(at, fields[i]);
    if (site) {
        at = stpcpy(at, " @");
        at = put_number(at, site);
    }
    *at++ = '\n';
    __atomic_store_n(journal.at, word[0], __ATOMIC_RELEASE);
    journal.at = at;
    lines++;
}

/* Removes what was written from a place on, if that is still mapped. */
static bool cut_from(off_t from) {
    if (!journal.is_open || from < journal.start)
        return false;
    char *cut = journal.window + (from - journal.start);
    __atomic_store_n(cut, '\0', __ATOMIC_RELEASE);
    memset(cut, '\0', journal.at - cut);
    journal.at = cut;
    return true;
}

/* ---- Calls ------------------------------------------------------------------------------------- */

static void set_state(char state) { __atomic_store_n(journal.state, state, __ATOMIC_RELEASE); }

static const char no_polls[] = "00000000 00 0000000000000000";

static unsigned long polled;

static void put_digits(char *at, int digits, unsigned long number) {
    for (int i = digits - 1; i >= 0; i--, number >>= 4)
        at[i] = "0123456789abcdef"[number & 15];
}

void journal_polled(Poll poll, int site) {
    if (!journal.is_open)
        return;
    if (site)
        put_digits(journal.polls, 8, site);
    put_digits(journal.polls + 9, 2, poll);
    put_digits(journal.polls + 12, 16, ++polled);
}

static void clear_polls(void) {
    if (polled)
        memcpy(journal.polls, no_polls, sizeof no_polls - 1);
    polled = 0;
}

void journal_begin(void) {
    call.begin = place();
    call.lines = 0;
    call.failed = false;
}

/* The first call beyond the most has the line `full` instead of its own. */
void journal_call(const char *word, int count, const Field *fields, int site) {
    if (journal_is_full || !has_room(count, fields))
        return;
    journal_is_full = ++journal.calls > MOST_CALLS;
    journal_site = site;
    if (journal_is_full)
        put_line("full", 0, NULL, site);
    else
        put_line(word, count, fields, site);
    set_state('i');
    clear_polls();
    if (call.lines++ == 0)
        call.first_end = place();
}

void journal_report(const char *word, int count, const Field *fields) {
    if (!journal_is_full && has_room(count, fields))
        put_line(word, count, fields, 0);
}

void journal_done(int number, Field source, Field tag) {
    if (has_room(3, NULL))
        put_line("=done", 3, (Field[]){number, source, tag}, 0);
}

/* Which of several lines failed isn't known, so only the first stays, and has `=failed`. */
void journal_failed(void) {
    if (call.lines == 0 || call.failed || journal_is_full)
        return;
    call.failed = in_doubt = true;
    if (call.lines > 1)
        cut_from(call.first_end);
    journal_report("=failed", 0, NULL);
}

void journal_left(void) {
    size_t room = journal.window + journal.size - journal.at;
    if (journal.is_open)
        memset(journal.at, '\0', room < LONGEST_LINE ? room : LONGEST_LINE);
    journal_failed();
}

void journal_came_back(void) {
    if (call.lines > 0)
        set_state('o');
    call.lines = 0;
    if (in_counted)
        counts_came_back();
}

void journal_take_back(void) {
    if (call.lines > 0 && !journal_is_full && !cut_from(call.begin))
        journal_failed();
    journal_came_back();
}

bool journal_rewrites(void) {
    bool is_last = call.lines == 1 && call.first_end == place();
    if (journal_is_full || !is_last || !cut_from(call.begin))
        return false;
    journal.calls--;
    lines--;
    call.lines = 0;
    return true;
}

void journal_stop(const char *why) {
    recording = false;
    in_doubt = true;
    if (!journal.is_open || journal_is_full)
        return;
    char line[LONGEST_STOP];
    snprintf(line, sizeof line, "stopped %s", why);
    put_line(line, 0, NULL, 0);
    set_state('o');
    journal.is_open = false;
    fprintf(stderr, "mpiwait-record: rank %d stops recording: %s\n", journal.rank, why);
}

void journal_close(void) {
    bool is_open = journal.is_open && is_still_ours(journal.file, &journal.identity);
    if (is_open && ftruncate(journal.file, place()) != 0)
        fprintf(stderr, "mpiwait-record: rank %d: its journal couldn't be cut to its length\n", journal.rank);
    journal.is_open = false;
}

/* ---- Beginning --------------------------------------------------------------------------------- */

static bool put_header(void) {
    char line[1024], window[16] = "";
    if (journal.number)
        snprintf(window, sizeof window, ".%d", journal.number);
    int before =
        snprintf(line, sizeof line, "journal 2 %d %d %s%s ", journal.rank, run.ranks, run.id, window);
    int length =
        before + snprintf(line + before, sizeof line - before, "o %s polls %s", run.library, no_polls);
    journal.header = map_text(journal.file, 0, sysconf(_SC_PAGESIZE));
    if (length >= (int)sizeof line || !journal.header)
        return false;
    journal.polls = journal.header + length - (sizeof no_polls - 1);
    journal.state = journal.header + before;
    put_line(line, 0, NULL, 0);
    return true;
}

/* The folder of a window, or that of the run. */
static const char *folder_of(int window) {
    static char folder[sizeof run.folder + 16];
    snprintf(folder, sizeof folder, window ? "%s/%d" : "%s", run.folder, window);
    if (window)
        mkdir(folder, 0777);
    return folder;
}

static const char *begin_journal(int rank, int window, bool is_first, bool is_hidden) {
    static const char no_room[] = "there is no room for its journal";
    journal = (Journal){.rank = rank, .number = window};
    journal.file = create_text(is_hidden ? run.folder : folder_of(window), is_hidden ? "next" : "journal", rank);
    if (journal.file < 0)
        return errno == EEXIST ? "an MPI program before it was recorded in the same folder"
                               : "no journal can be made in the folder that MPIWAIT_JOURNAL names";
    if (is_first && counts_open(run.folder, rank))
        return no_room;
    bool has_file = is_still_ours(journal.file, &journal.identity);
    journal.is_open = has_file && move_window() && put_header();
    return journal.is_open ? NULL : no_room;
}

const char *journal_open(const char *folder, const char *id, int rank, int ranks, const char *library,
                         int window) {
    snprintf(run.folder, sizeof run.folder, "%s", folder);
    snprintf(run.id, sizeof run.id, "%s", id);
    snprintf(run.library, sizeof run.library, "%s", library);
    run.ranks = ranks;
    return begin_journal(rank, window, true, false);
}

/* ---- Windows ----------------------------------------------------------------------------------- */

bool journal_begin_window(void) {
    Journal old = journal;
    const char *why = begin_journal(old.rank, old.number + 1, false, false);
    next = journal;
    journal = old;
    if (why)
        journal_stop(why);
    return !why;
}

void journal_cut(void) {
    if (!has_room(0, NULL)) {
        next.is_open = false;
        return;
    }
    set_state('o');
    put_line("cut", 0, NULL, 0);
    journal_close();
    munmap(journal.window, journal.size);
    munmap(journal.header, sysconf(_SC_PAGESIZE));
    if (is_still_ours(journal.file, &journal.identity))
        close(journal.file);
    journal = next;
    journal_begin();
}

/* ---- A cut that is made later ------------------------------------------------------------------ */

/* What was so at the place that is remembered. Meanwhile the other journal is in `next`. */
static struct {
    off_t place;
    long calls;
    unsigned long lines;
    __typeof__(call) call;
} remembered;

static void swap_journals(void) {
    Journal other = next;
    next = journal;
    journal = other;
}

bool journal_remember(void) {
    Journal old = journal;
    if (!old.is_open || journal_is_full || !has_room(0, NULL))
        return false;
    const char *why = begin_journal(old.rank, old.number + 1, false, true);
    next = journal;
    journal = old;
    if (why) {
        journal_forget();
        return false;
    }
    remembered.place = place();
    remembered.calls = journal.calls;
    remembered.lines = lines;
    remembered.call = call;
    swap_journals();
    journal_begin();
    return true;
}

void journal_go_on(void) {
    swap_journals();
    call = remembered.call;
    lines = remembered.lines;
}

static void path_of(char path[sizeof run.folder + 64], const char *folder, const char *name) {
    snprintf(path, sizeof run.folder + 64, "%s/%s%d", folder, name, journal.rank);
}

static void close_texts(Journal *old) {
    if (old->window)
        munmap(old->window, old->size);
    if (old->header)
        munmap(old->header, sysconf(_SC_PAGESIZE));
    if (old->file >= 0 && is_still_ours(old->file, &old->identity))
        close(old->file);
    old->is_open = false;
}

void journal_forget(void) {
    char path[sizeof run.folder + 64];
    path_of(path, run.folder, "next");
    close_texts(&next);
    unlink(path);
}

/* Adds what the journal has from the remembered place on to the next one. */
static bool copy_rest(off_t end) {
    char block[LONGEST_LINE];
    int from = journal.file;
    ssize_t got = 1;
    swap_journals();
    for (off_t at = remembered.place; at < end && got > 0; at += got) {
        size_t size = end - at < (off_t)sizeof block ? (size_t)(end - at) : sizeof block;
        got = journal.is_open && has_room(0, NULL) ? pread(from, block, size, at) : 0;
        if (got > 0)
            journal.at = (char *)memcpy(journal.at, block, got) + got;
    }
    swap_journals();
    return got > 0;
}

/* Ends the text of a journal at the remembered place. */
static void end_there(Journal *old, int count, const Field *moved) {
    off_t at = remembered.place;
    char line[64];
    *old->state = 'o';
    if (ftruncate(old->file, at) != 0)
        return;
    for (int i = 0; i <= count; i++) {
        char *end = i < count ? put_number(stpcpy(line, "=moved "), moved[i]) : stpcpy(line, "cut");
        *end++ = '\n';
        if (!may_have(at + (end - line)) || pwrite(old->file, line, end - line, at) != end - line)
            return;
        at += end - line;
    }
}

/* Last the old journal gets its end: if the rank is killed before, its lines are there all the same. */
void journal_cut_there(int count, const Field *moved) {
    char from[sizeof run.folder + 64], to[sizeof run.folder + 64];
    off_t end = place();
    bool is_ours = journal.is_open && !journal_is_full && is_still_ours(journal.file, &journal.identity);
    path_of(from, run.folder, "next");
    path_of(to, folder_of(next.number), "journal");
    if (!is_ours || !next.is_open || !copy_rest(end) || rename(from, to) != 0) {
        journal_forget();
        return;
    }
    swap_journals();
    journal.calls += next.calls - remembered.calls;
    call.begin += place() - end;
    call.first_end += place() - end;
    set_state(*next.state);
    end_there(&next, count, moved);
    close_texts(&next);
}

unsigned long journal_lines(void) { return lines; }
