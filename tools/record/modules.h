/* The modules that the process has loaded. */
#ifndef MPIWAIT_MODULES_H
#define MPIWAIT_MODULES_H

#include <link.h>
#include <stdbool.h>
#include <stddef.h>
#include <stdint.h>

/* The program doesn't see these names. */
#pragma GCC visibility push(hidden)

/* Whose code is at an address: the program's, that of the MPI library with its bindings, or that of another
 * tool between the two. */
typedef enum { OF_PROGRAM = 1, OF_MPI, OF_TOOL } Owner;
Owner module_of(const void *address);

/* The path of the module at an address, and its base address. The path is empty for the program itself, and
 * NULL if there is no module. */
const char *module_at(const void *address, unsigned long *base);

/* Whether a library is loaded whose name begins so. */
bool is_loaded(const char *name);

/* The name of another tool's module that defines MPI calls and comes after the recorder, so that it is never
 * called; or NULL. */
const char *passed_tool(void);

/* Modules were loaded or unloaded, so an address may now belong to another one. */
void forget_owners(void);

/* ---- One module -------------------------------------------------------------------------------- */

/* A table of relocations. Each entry begins with the same two fields. An addend may follow them, but not on
 * most machines of 32 bits. */
typedef struct {
    const char *start;
    size_t size, step;
} Relocations;

/* The parts of a module's dynamic section. */
typedef struct {
    uintptr_t base;
    const ElfW(Sym) * symbols;
    const char *names;
    const uint32_t *hashes;     /* the GNU hash table */
    Relocations relocations[3]; /* of functions; of data with addends; of data without them */
} Dynamic;

Dynamic dynamic_of(const struct dl_phdr_info *module);

/* Whether it defines a symbol. */
bool defines(const Dynamic *dynamic, const char *name);

bool has_address(const struct dl_phdr_info *module, uintptr_t address);

/* Whether it is a part of an MPI library. */
bool is_of_mpi(const struct dl_phdr_info *module);

const char *base_name(const char *path);
bool has_prefix(const char *text, const char *prefix);

#pragma GCC visibility pop

#endif
