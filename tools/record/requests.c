/* A hash table with linear probing; at most half of its places are in use. See requests.h. */
#include "requests.h"
#include <stdlib.h>

static Request *places;
static size_t room, used; /* room is a power of two */
static int open_requests;

static size_t home(uintptr_t handle) { return ((uint64_t)handle * 0x9e3779b97f4a7c15u >> 20) & (room - 1); }

/* The place of the handle, or the free place where it would be. */
static Request *place_of(uintptr_t handle) {
    size_t at = home(handle);
    while (places[at].handle != 0 && places[at].handle != handle)
        at = (at + 1) & (room - 1);
    return &places[at];
}

static bool grow(void) {
    Request *old = places;
    size_t old_room = room, new_room = room ? 2 * room : 1024;
    Request *new = calloc(new_room, sizeof *new);
    if (!new)
        return false;
    places = new;
    room = new_room;
    for (size_t i = 0; i < old_room; i++)
        if (old[i].handle != 0)
            *place_of(old[i].handle) = old[i];
    free(old);
    return true;
}

Request *requests_find(uintptr_t handle) {
    if (used == 0 || handle == 0)
        return NULL;
    Request *found = place_of(handle);
    return found->handle == handle ? found : NULL;
}

Request *requests_add(uintptr_t handle) {
    if (2 * (used + 1) > room && !grow())
        return NULL;
    Request *new = place_of(handle);
    used += new->handle == 0;
    request_closes(new);
    free(new->template);
    forget_done(new->done);
    *new = (Request){.handle = handle};
    return new;
}

static int by_number(const void *one, const void *other) {
    return (*(const Request *const *)one)->number - (*(const Request *const *)other)->number;
}

Request **requests_active(int *count) {
    Request **found = malloc((used + 1) * sizeof *found);
    *count = 0;
    for (size_t i = 0; found && i < room; i++)
        if (places[i].handle != 0 && places[i].active && places[i].number)
            found[(*count)++] = &places[i];
    if (found)
        qsort(found, *count, sizeof *found, by_number);
    return found;
}

/* Closes the gap: a request after it moves into it if the gap lies between that request's home and its place.
 */
void requests_remove(Request *request) {
    request_closes(request);
    free(request->template);
    forget_done(request->done);
    size_t hole = request - places, mask = room - 1;
    for (size_t at = (hole + 1) & mask; places[at].handle != 0; at = (at + 1) & mask) {
        if (((at - home(places[at].handle)) & mask) >= ((at - hole) & mask)) {
            places[hole] = places[at];
            hole = at;
        }
    }
    places[hole] = (Request){0};
    used--;
}

void request_opens(Request *request) {
    if (request->open || request->told || !request->number)
        return;
    request->open = true;
    open_requests++;
}

void request_is_wild(Request *request, bool wild) {
    request->wild = wild;
    if (wild)
        request_opens(request);
}

void request_closes(Request *request) {
    open_requests -= request->open;
    request->open = false;
}

int requests_open(void) { return open_requests; }

Request *requests_next_open(size_t *place) {
    while (*place < room && !places[*place].open)
        ++*place;
    return *place < room ? &places[(*place)++] : NULL;
}

const Request *requests_next_persistent(size_t *place) {
    while (*place < room && !places[*place].template)
        ++*place;
    return *place < room ? &places[(*place)++] : NULL;
}
