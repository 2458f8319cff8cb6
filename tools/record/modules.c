/* The modules that the process has loaded. See modules.h. */
#define _GNU_SOURCE
#include "modules.h"
#include "calls.h"
#include <link.h>
#include <stdint.h>
#include <stdio.h>
#include <string.h>

/* How the file names of the libraries and of their bindings for other languages begin. */
static const char *const mpi_names[] = {
    "libmpi.so",       "libmpich.so",   "libmpichfort.so", "libmpichcxx.so", "libmpifort.so", "libmpicxx.so",
    "libmpi_mpifh.so", "libmpi_usempi", "libmpi_cxx.so",   "libmpi_java.so", "libopen-",      "mca_",
    "libmca_",
};

const char *base_name(const char *path) {
    const char *slash = strrchr(path, '/');
    return slash ? slash + 1 : path;
}

bool has_prefix(const char *text, const char *prefix) { return strncmp(text, prefix, strlen(prefix)) == 0; }

bool is_of_mpi(const struct dl_phdr_info *module) {
    const char *name = base_name(module->dlpi_name);
    for (size_t i = 0; i < sizeof mpi_names / sizeof *mpi_names; i++)
        if (has_prefix(name, mpi_names[i]))
            return true;
    return false;
}

bool has_address(const struct dl_phdr_info *module, uintptr_t address) {
    for (int i = 0; i < module->dlpi_phnum; i++) {
        const ElfW(Phdr) *part = &module->dlpi_phdr[i];
        uintptr_t start = module->dlpi_addr + part->p_vaddr;
        if (part->p_type == PT_LOAD && address >= start && address - start < part->p_memsz)
            return true;
    }
    return false;
}

/* ---- Symbols ----------------------------------------------------------------------------------- */

static uintptr_t value_of(const ElfW(Dyn) * entry, uintptr_t base) {
    return entry->d_un.d_ptr < base ? base + entry->d_un.d_ptr : entry->d_un.d_ptr;
}

static size_t size_of(size_t kind) { return kind == DT_REL ? sizeof(ElfW(Rel)) : sizeof(ElfW(Rela)); }

static void take_entry(Dynamic *dynamic, const ElfW(Dyn) * entry) {
    const void *at = (const void *)value_of(entry, dynamic->base);
    Relocations *tables = dynamic->relocations;
    switch (entry->d_tag) {
    case DT_SYMTAB: dynamic->symbols = at; break;
    case DT_STRTAB: dynamic->names = at; break;
    case DT_GNU_HASH: dynamic->hashes = at; break;
    case DT_JMPREL: tables[0].start = at; break;
    case DT_PLTRELSZ: tables[0].size = entry->d_un.d_val; break;
    case DT_PLTREL: tables[0].step = size_of(entry->d_un.d_val); break;
    case DT_RELA: tables[1].start = at; break;
    case DT_RELASZ: tables[1].size = entry->d_un.d_val; break;
    case DT_RELAENT: tables[1].step = entry->d_un.d_val; break;
    case DT_REL: tables[2].start = at; break;
    case DT_RELSZ: tables[2].size = entry->d_un.d_val; break;
    case DT_RELENT: tables[2].step = entry->d_un.d_val; break;
    }
}

Dynamic dynamic_of(const struct dl_phdr_info *module) {
    Dynamic dynamic = {.base = module->dlpi_addr};
    const ElfW(Dyn) *entry = NULL;
    for (int i = 0; i < module->dlpi_phnum; i++)
        if (module->dlpi_phdr[i].p_type == PT_DYNAMIC)
            entry = (const ElfW(Dyn) *)(module->dlpi_addr + module->dlpi_phdr[i].p_vaddr);
    for (; entry && entry->d_tag != DT_NULL; entry++)
        take_entry(&dynamic, entry);
    if (!dynamic.symbols || !dynamic.names)
        memset(dynamic.relocations, 0, sizeof dynamic.relocations);
    return dynamic;
}

static uint32_t gnu_hash(const char *name) {
    uint32_t hash = 5381;
    while (*name)
        hash = 33 * hash + (unsigned char)*name++;
    return hash;
}

/* Whether a module defines a symbol, by its GNU hash table. The table begins with four words: the number of
 * buckets, the number of its first symbol, the number of words of a filter, and a shift. The filter follows,
 * then the buckets, then the hashes. The last hash of a bucket is odd. */
bool defines(const Dynamic *dynamic, const char *name) {
    const uint32_t *table = dynamic->hashes;
    if (!table || table[0] == 0)
        return false;
    uint32_t hash = gnu_hash(name);
    const uint32_t *buckets = table + 4 + table[2] * (sizeof(ElfW(Addr)) / sizeof *table);
    const uint32_t *hashes = buckets + table[0];
    uint32_t at = buckets[hash % table[0]];
    if (at < table[1])
        return false;
    for (;; at++) {
        uint32_t found = hashes[at - table[1]];
        if ((found | 1) == (hash | 1) && strcmp(dynamic->names + dynamic->symbols[at].st_name, name) == 0)
            return dynamic->symbols[at].st_shndx != SHN_UNDEF;
        if (found & 1)
            return false;
    }
}

/* ---- Whose code is at an address --------------------------------------------------------------- */

/* Answers that are known already. They are forgotten when modules are loaded or unloaded, since another
 * module may then be at the same address. */
enum { MOST_KNOWN = 1 << 12 };
static struct {
    const void *address;
    Owner owner;
} known[MOST_KNOWN];

typedef struct {
    const void *address;
    Owner owner;
} Question;

/* The first module is the program itself. */
static int answer(struct dl_phdr_info *module, size_t size, void *state) {
    (void)size;
    Question *question = state;
    if (!has_address(module, (uintptr_t)question->address))
        return 0;
    Dynamic dynamic = dynamic_of(module);
    if (is_of_mpi(module))
        question->owner = OF_MPI;
    else if (*module->dlpi_name && defines(&dynamic, "MPI_Init"))
        question->owner = OF_TOOL;
    return 1;
}

Owner module_of(const void *address) {
    size_t place = ((uintptr_t)address * 0x9e3779b97f4a7c15u) >> 52;
    if (known[place].address == address)
        return known[place].owner;
    Question question = {address, OF_PROGRAM};
    dl_iterate_phdr(answer, &question);
    known[place].address = address;
    known[place].owner = question.owner;
    return question.owner;
}

typedef struct {
    const void *address;
    const char *name;
    unsigned long base;
} Place;

static int take_place(struct dl_phdr_info *module, size_t size, void *state) {
    (void)size;
    Place *place = state;
    if (!has_address(module, (uintptr_t)place->address))
        return 0;
    place->name = module->dlpi_name;
    place->base = module->dlpi_addr;
    return 1;
}

const char *module_at(const void *address, unsigned long *base) {
    Place place = {.address = address};
    dl_iterate_phdr(take_place, &place);
    *base = place.base;
    return place.name;
}

static int compare(struct dl_phdr_info *module, size_t size, void *name) {
    (void)size;
    return has_prefix(base_name(module->dlpi_name), name);
}

bool is_loaded(const char *name) { return dl_iterate_phdr(compare, (void *)name) != 0; }

const char *passed_tool(void) {
    static const char *const some[] = {"MPI_Init", "MPI_Init_thread", "MPI_Finalize", "MPI_Send",
                                       "MPI_Recv", "MPI_Isend",       "MPI_Wait",     "MPI_Allreduce"};
    for (size_t i = 0; i < sizeof some / sizeof *some; i++) {
        unsigned long base;
        const void *next = dlsym(RTLD_NEXT, some[i]);
        if (next && module_of(next) == OF_TOOL)
            return base_name(module_at(next, &base));
    }
    return NULL;
}

void forget_owners(void) { memset(known, 0, sizeof known); }
