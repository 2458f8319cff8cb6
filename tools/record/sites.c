/* The places in the program from which MPI was called. See journal.h.
 *
 * A place is a chain of return addresses, the innermost first, as modules and offsets. It has one address, or
 * as many as the variable MPIWAIT_FRAMES says; with 0 no places are noted. Frames of MPI's own bindings, such
 * as Fortran's, and those of other tools are left out. In a Python program a place is the file and line of
 * the Python code instead.
 */
#define _GNU_SOURCE
#include "sites.h"
#include "journal.h"
#include "modules.h"
#include <stdint.h>
#include <stdio.h>
#include <stdlib.h>
#include <string.h>
#include <unistd.h>
#include <unwind.h>

enum { MOST_FRAMES = 16, MOST_WALKED = 32, PLACES = 1 << 16, MOST_SITES = PLACES / 4 };
enum { LONGEST_FRAME = 4 * 4096 + 64 }; /* in a text: each byte of its path may be written as four */

static FILE *sites;
static Identity sites_file, names_file;
static char names_path[4096]; /* empty once the file is there or can't be */
static FILE *names;
static int frames_wanted, sites_known;
static bool has_python;

/* Sites by a 64-bit hash of their text. Two places with the same hash would be taken for one. */
static struct {
    uint64_t key;
    int site;
} known[PLACES];

/* Whether a text is there to be written to. */
static bool is_open(FILE **file, Identity *identity) {
    if (*file && !is_still_ours(fileno(*file), identity))
        *file = NULL;
    return *file;
}

/* Whether it may get so many bytes longer. */
static bool has_room(FILE *file, unsigned long more) {
    long length = ftell(file);
    return length >= 0 && may_have(length + more);
}

/* Whether one more site can be noted, in so many bytes. Once there is no room for one, none is noted. */
static bool may_note(unsigned long bytes) {
    if (sites_known < MOST_SITES && is_open(&sites, &sites_file) && !has_room(sites, bytes)) {
        left_out(NOTHING, "place of a call for which there was no room, as for all new ones after it");
        sites_known = MOST_SITES;
    }
    return sites_known < MOST_SITES;
}

/* The entry for a key, which is 0 if it is new; NULL if it is new and can't be noted. */
static int *look_up(uint64_t key, unsigned long bytes) {
    size_t place = (key * 0x9e3779b97f4a7c15u) >> 48;
    while (known[place].key != 0 && known[place].key != key)
        place = (place + 1) % PLACES;
    if (known[place].key == 0 && !may_note(bytes))
        return NULL;
    known[place].key = key;
    return &known[place].site;
}

/* The sites of some return addresses in the program: most calls come from there. */
enum { MOST_DIRECT = 1 << 8 };
typedef struct {
    const void *caller;
    int site;
} Direct;
static Direct direct[MOST_DIRECT];

static Direct *direct_of(const void *caller) {
    return &direct[((uintptr_t)caller * (uint64_t)0x9e3779b97f4a7c15u) >> 56];
}

/* Other sites by their addresses, or by a hash of several. */
enum { MOST_RECENT = 1 << 13 };
typedef struct {
    uint64_t key;
    int site;
} Recent;
static Recent recent[MOST_RECENT];

static Recent *recent_of(uint64_t key) { return &recent[(key * 0x9e3779b97f4a7c15u) >> 51]; }

void forget_sites(void) {
    memset(direct, 0, sizeof direct);
    memset(recent, 0, sizeof recent);
}

static uint64_t mixed(uint64_t hash, uint64_t more) { return (hash ^ more) * 0x100000001b3u + 1; }

static uint64_t mixed_with(uint64_t hash, const char *text) {
    for (; *text; text++)
        hash = mixed(hash, (unsigned char)*text);
    return hash;
}

void put_name(FILE *file, const char *name) {
    for (; *name; name++)
        if ((unsigned char)*name < ' ' || *name == 127 || *name == '\\')
            fprintf(file, "\\x%02x", (unsigned char)*name);
        else
            fputc(*name, file);
}

/* ---- Frames of machine code -------------------------------------------------------------------- */

typedef struct {
    void *address;
    void **place; /* on the stack; NULL if it isn't known */
} Frame;

typedef struct {
    Frame bindings[MOST_WALKED]; /* frames of bindings and tools, from the recorder's caller on */
    void *frames[MOST_FRAMES];   /* frames of the program */
    Frame first;                 /* the first of these */
    int passed, kept, walked;
    bool is_past; /* the walk has come to the caller */
    const void *caller;
} Walk;

/* On most machines a return address is right below the frame to which it returns. */
static Frame frame_of(struct _Unwind_Context *context) {
    Frame frame = {(void *)_Unwind_GetIP(context), (void **)_Unwind_GetCFA(context) - 1};
    if (*frame.place != frame.address)
        frame.place = NULL;
    return frame;
}

static _Unwind_Reason_Code step(struct _Unwind_Context *context, void *state) {
    Walk *walk = state;
    void *address = (void *)_Unwind_GetIP(context);
    bool is_first = walk->kept == 0;
    if (!address) /* above the first function */
        return _URC_END_OF_STACK;
    walk->is_past = walk->is_past || address == walk->caller;
    if (walk->is_past && is_first && module_of(address) != OF_PROGRAM) {
        walk->bindings[walk->passed++] = frame_of(context);
    } else if (walk->is_past) {
        if (is_first)
            walk->first = frame_of(context);
        walk->frames[walk->kept++] = address;
    }
    bool goes_on = walk->kept < frames_wanted && ++walk->walked < MOST_WALKED;
    return goes_on ? _URC_NO_REASON : _URC_END_OF_STACK;
}

/* ---- Frames of bindings, without a walk -------------------------------------------------------- */

/* A walk of the stack costs microseconds, and each call from a Fortran binding would need one. So the
 * distance on the stack between two return addresses is remembered, if the first is in a binding. The next
 * time the second is found by that distance. */
enum { MOST_PAIRS = 1 << 10, FARTHEST = 1 << 9, MOST_PASSED = 8 };
static struct {
    void *from, *to;
    int words;
} pairs[MOST_PAIRS], last_from[MOST_PAIRS];

static size_t place_of(const void *from, const void *to) {
    return (((uintptr_t)from * 31 + (uintptr_t)to) * 0x9e3779b97f4a7c15u) >> 54;
}

static void learn_pair(Frame from, Frame to) {
    long words = from.place && to.place ? to.place - from.place : 0;
    if (words <= 0 || words > FARTHEST)
        return;
    size_t pair = place_of(from.address, to.address), last = place_of(from.address, NULL);
    pairs[pair].from = from.address;
    pairs[pair].to = to.address;
    pairs[pair].words = words;
    last_from[last].from = from.address;
    last_from[last].words = words;
}

static void learn(const Walk *walk) {
    for (int i = 0; i < walk->passed; i++)
        learn_pair(walk->bindings[i], i + 1 < walk->passed ? walk->bindings[i + 1] : walk->first);
}

/* The program's return address, or NULL if only a walk can find it. */
static void *guess(void *caller, void **place) {
    for (int i = 0; i < MOST_PASSED && module_of(caller) != OF_PROGRAM; i++) {
        size_t last = place_of(caller, NULL);
        if (last_from[last].from != caller)
            return NULL;
        place += last_from[last].words;
        size_t pair = place_of(caller, *place);
        if (pairs[pair].from != caller || pairs[pair].to != *place ||
            pairs[pair].words != last_from[last].words)
            return NULL;
        caller = *place;
    }
    return module_of(caller) == OF_PROGRAM ? caller : NULL;
}

/* ---- Sites ------------------------------------------------------------------------------------- */

static void put_frame(void *address) {
    unsigned long base;
    const char *name = module_at(address, &base);
    char path[4096];
    if (!name) {
        fprintf(sites, "\t?+%p", address);
        return;
    }
    if (!*name) { /* the program itself */
        ssize_t length = readlink("/proc/self/exe", path, sizeof path - 1);
        path[length > 0 ? length : 0] = '\0';
        name = path;
    }
    fputc('\t', sites);
    put_name(sites, name);
    fprintf(sites, "+0x%lx", (unsigned long)address - base);
}

static uint64_t hash_of(void *const frames[], int count) {
    uint64_t hash = 1;
    for (int i = 0; i < count; i++) {
        unsigned long base;
        const char *name = module_at(frames[i], &base);
        hash = mixed(mixed_with(hash, name ? name : "?"), (uintptr_t)frames[i] - base);
    }
    return hash;
}

static int note_frames(void *const frames[], int count) {
    if (!is_open(&sites, &sites_file))
        return 0;
    fprintf(sites, "%d", ++sites_known);
    for (int i = 0; i < count; i++)
        put_frame(frames[i]);
    fputc('\n', sites);
    return sites_known;
}

static int site_of_frames(uint64_t key, void *const frames[], int count) {
    Recent *last = recent_of(key);
    if (last->key == key && last->site)
        return last->site;
    int *site = count ? look_up(hash_of(frames, count), count * LONGEST_FRAME) : NULL;
    if (site && !*site)
        *site = note_frames(frames, count);
    if (site)
        *last = (Recent){key, *site};
    return site ? *site : 0;
}

static int site_of_machine_code(void *caller, void **frame) {
    void *found = frames_wanted == 1 ? guess(caller, frame + 1) : NULL;
    if (found) {
        int site = site_of_frames((uintptr_t)found, &found, 1);
        if (found == caller && site && !has_python)
            *direct_of(caller) = (Direct){caller, site};
        return site;
    }
    Walk walk = {.caller = caller};
    uint64_t key = 1;
    _Unwind_Backtrace(step, &walk);
    learn(&walk);
    for (int i = 0; i < walk.kept; i++)
        key = mixed(key, (uintptr_t)walk.frames[i]);
    return site_of_frames(walk.kept == 1 ? (uintptr_t)walk.frames[0] : key, walk.frames, walk.kept);
}

/* ------------------------------------------------------------------------------------------------ */

int site_of_line(const char *file, int line) {
    uint64_t key = mixed_with(mixed(2, line), file);
    int *site = look_up(key, LONGEST_FRAME + 4 * strlen(file));
    if (!site || *site || !is_open(&sites, &sites_file))
        return site ? *site : 0;
    fprintf(sites, "%d\t", ++sites_known);
    put_name(sites, file);
    fprintf(sites, ":%d\n", line);
    return *site = sites_known;
}

void sites_open(const char *folder, int rank) {
    char path[4096];
    const char *wanted = getenv("MPIWAIT_FRAMES");
    frames_wanted = wanted ? atoi(wanted) : 1;
    frames_wanted = frames_wanted > MOST_FRAMES ? MOST_FRAMES : frames_wanted;
    snprintf(names_path, sizeof names_path, "%s/names%d", folder, rank);
    snprintf(path, sizeof path, "%s/sites%d", folder, rank);
    sites = frames_wanted > 0 ? fopen(path, "wxe") : NULL;
    if (!is_open(&sites, &sites_file))
        return;
    setvbuf(sites, NULL, _IOLBF, 0);
    has_python = find_python();
}

void name_communicator(int number, const char *name) {
    if (*names_path) {
        names = fopen(names_path, "wxe");
        if (names)
            setvbuf(names, NULL, _IOLBF, 0);
        *names_path = '\0';
    }
    if (!is_open(&names, &names_file))
        return;
    if (!has_room(names, 64 + 4 * strlen(name))) {
        left_out(NOTHING, "names of communicators for which there was no room");
        return;
    }
    fprintf(names, "%d ", number);
    put_name(names, name);
    fputc('\n', names);
}

int site_of(void *caller, void **frame) {
    const Direct *known = direct_of(caller);
    if (known->site && known->caller == caller)
        return known->site;
    if (!sites)
        return 0;
    int site = has_python ? site_of_python() : 0;
    return site ? site : site_of_machine_code(caller, frame);
}
