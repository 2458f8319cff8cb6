/* Calls of MPI that go to the library directly, past the recorder. See bypasses.h.
 *
 * A module has a slot in memory for the address of each function that it calls. The linker fills it with the
 * first definition that it finds. That is the recorder's, except in a module loaded with RTLD_DEEPBIND, which
 * searches its own libraries first. Some modules are bound when they are loaded, others function by function
 * at the first call. So slots that aren't bound yet are looked at again at each recorded call.
 */
#define _GNU_SOURCE
#include "bypasses.h"
#include "calls.h"
#include "modules.h"
#include "sites.h"
#include <stdio.h>
#include <string.h>

/* The recorder and the library, as they lie in memory. */
static struct {
    struct dl_phdr_info recorder, library;
    Dynamic recorded;
    const void *of_library;
} ends;

static int take_ends(struct dl_phdr_info *module, size_t size, void *none) {
    (void)size, (void)none;
    if (has_address(module, (uintptr_t)find_bypasses)) {
        ends.recorder = *module;
        ends.recorded = dynamic_of(module);
    } else if (has_address(module, (uintptr_t)ends.of_library)) {
        ends.library = *module;
    }
    return 0;
}

/* ---- What is noted ----------------------------------------------------------------------------- */

/* The counts keep pointers to these texts. */
enum { MOST_NOTED = 16 };
static char noted[MOST_NOTED][128];
static int noted_count;

static void note(const char *name) {
    char text[128];
    int length = snprintf(text, sizeof text, "calls of %.80s that go past the recorder", name);
    for (int i = 0; i < length; i++)
        if ((unsigned char)text[i] < ' ' || text[i] == 127)
            text[i] = '?';
    for (int i = 0; i < noted_count; i++)
        if (strcmp(noted[i], text) == 0)
            return;
    if (noted_count < MOST_NOTED) {
        strcpy(noted[noted_count], text);
        left_out(PARTNERS, noted[noted_count++]);
    } else {
        left_out(PARTNERS, "calls of other modules that go past the recorder");
    }
    if (recording) /* what the rank calls after this isn't known */
        journal_stop(text);
}

/* ---- Functions that aren't bound yet ----------------------------------------------------------- */

enum { MOST_UNBOUND = 1 << 10 };
static struct {
    const uintptr_t *place;
    uintptr_t before;   /* the address that was there */
    const char *module; /* the module's name */
} unbound[MOST_UNBOUND];
static int unbound_count;

static void keep_unbound(const uintptr_t *place, const char *module) {
    if (unbound_count == MOST_UNBOUND)
        return;
    unbound[unbound_count].place = place;
    unbound[unbound_count].before = *place;
    unbound[unbound_count++].module = module;
}

static void look_at_unbound(void) {
    for (int i = 0; i < unbound_count; i++) {
        uintptr_t bound = *unbound[i].place;
        if (bound == unbound[i].before)
            continue;
        if (has_address(&ends.library, bound))
            note(unbound[i].module);
        unbound[i--] = unbound[--unbound_count];
    }
}

/* ---- Modules ----------------------------------------------------------------------------------- */

enum { LEAST_TICKS = 4096 }; /* of the processor: a module takes longer */

static unsigned long long loaded, unloaded; /* how many modules were loaded so far, and unloaded */
static int first_count, seen;               /* modules at the beginning; modules that a search came to */

static bool is_recorded_function(const char *name) {
    return (has_prefix(name, "MPI_") || has_prefix(name, "PMPI_")) && defines(&ends.recorded, name);
}

/* Whether a relocation binds a function that the recorder defines to the library's. A slot that isn't bound
 * yet has an address in its own module. */
static bool leads_past(const Dynamic *dynamic, const ElfW(Rel) * relocation,
                       const struct dl_phdr_info *module) {
#if __ELF_NATIVE_CLASS == 64
    size_t symbol = ELF64_R_SYM(relocation->r_info);
#else
    size_t symbol = ELF32_R_SYM(relocation->r_info);
#endif
    if (symbol == 0 || !is_recorded_function(dynamic->names + dynamic->symbols[symbol].st_name))
        return false;
    const uintptr_t *place = (const uintptr_t *)(dynamic->base + relocation->r_offset);
    if (seen > first_count && has_address(module, *place))
        keep_unbound(place, *module->dlpi_name ? base_name(module->dlpi_name) : "the program");
    return has_address(&ends.library, *place);
}

static bool goes_past(const struct dl_phdr_info *module) {
    Dynamic dynamic = dynamic_of(module);
    bool found = false;
    for (int i = 0; i < 3; i++) {
        const Relocations *table = &dynamic.relocations[i];
        for (size_t at = 0; table->step && at < table->size; at += table->step)
            found = leads_past(&dynamic, (const ElfW(Rel) *)(table->start + at), module) || found;
    }
    return found;
}

static int look_at(struct dl_phdr_info *module, size_t size, void *none) {
    (void)size, (void)none;
    loaded = module->dlpi_adds;
    unloaded = module->dlpi_subs;
    seen++;
    bool is_end = module->dlpi_addr == ends.recorder.dlpi_addr || module->dlpi_addr == ends.library.dlpi_addr;
    if (!is_end && !is_of_mpi(module) && goes_past(module))
        note(*module->dlpi_name ? base_name(module->dlpi_name) : "the program");
    return 0;
}

void find_bypasses(void) {
    if (!ends.of_library) {
        ends.of_library = (const void *)REAL(Init);
        dl_iterate_phdr(take_ends, NULL);
    }
    seen = unbound_count = 0;
    if (ends.library.dlpi_phdr && ends.recorded.hashes)
        dl_iterate_phdr(look_at, NULL);
}

/* Whether modules were loaded or unloaded. The slots that aren't bound are looked at in here, because no
 * module can be unloaded during the iteration. */
static int has_changed(struct dl_phdr_info *module, size_t size, void *changed) {
    (void)size;
    *(bool *)changed = module->dlpi_adds != loaded || module->dlpi_subs != unloaded;
    if (!*(bool *)changed)
        look_at_unbound();
    return 1;
}

/* Whether the last look was so short a time ago that no module can have been loaded since: that takes ten
 * calls of the system and more. To look costs more than to read this clock. */
#if defined __x86_64__ || defined __i386__
static bool is_soon(void) {
    static unsigned long long last;
    unsigned long long now = __builtin_ia32_rdtsc();
    if (now - last < LEAST_TICKS)
        return true;
    last = now;
    return false;
}
#else
static bool is_soon(void) { return false; }
#endif

/* Functions that aren't bound yet may be bound in less time. */
void find_new_bypasses(void) {
    bool changed = false;
    if (unbound_count == 0 && is_soon())
        return;
    dl_iterate_phdr(has_changed, &changed);
    if (!changed)
        return;
    forget_owners();
    forget_sites();
    find_bypasses();
}

static int count_one(struct dl_phdr_info *module, size_t size, void *count) {
    (void)module, (void)size;
    ++*(int *)count;
    return 0;
}

void bypasses_open(void) { dl_iterate_phdr(count_one, &first_count); }
