/* Which run a process belongs to, and the folder for its journals. See journal.h.
 *
 * The run's ID is found without communication. A broadcast in MPI_Init would hang if a rank has no recorder,
 * or it would match one of that rank's own collective calls.
 *
 * The ID is a hash of what the launcher gives to each process of this run and to no other: PMIx's namespace,
 * the port of Hydra's mpiexec, the job of PMI, the step of SLURM. Without these, a run of one rank takes its
 * process number and the time. All other runs share one ID, which the first process claims. So a second such
 * run in one folder isn't recorded, and the report says so.
 */
#define _GNU_SOURCE
#include "journal.h"
#include <errno.h>
#include <fcntl.h>
#include <stdint.h>
#include <stdio.h>
#include <stdlib.h>
#include <string.h>
#include <sys/stat.h>
#include <time.h>
#include <unistd.h>

enum { MOST_ANCESTORS = 32 };
static const char claimed[] = "claimed-";

static uint64_t hash_of(const char *text) {
    uint64_t hash = 0xcbf29ce484222325u;
    while (*text)
        hash = (hash ^ (unsigned char)*text++) * 0x100000001b3u;
    return hash;
}

/* ---- What the launchers give ------------------------------------------------------------------- */

static const char *of_variables(const char *first, const char *second, char *text, size_t room) {
    const char *one = getenv(first), *two = second ? getenv(second) : "";
    if (!one || !*one || !two)
        return NULL;
    snprintf(text, room, "%s %s", one, two);
    return text;
}

/* Open MPI's namespace has only 16 bits of a hash, so the address of its mpirun is added. */
static const char *of_pmix(char *text, size_t room) {
    const char *found = of_variables("PMIX_NAMESPACE", "OMPI_MCA_orte_hnp_uri", text, room);
    return found ? found : of_variables("PMIX_NAMESPACE", NULL, text, room);
}

static long parent_of(long process) {
    char path[64], text[1024];
    long parent = 0;
    snprintf(path, sizeof path, "/proc/%ld/stat", process);
    FILE *file = fopen(path, "re");
    if (!file)
        return 0;
    text[fread(text, 1, sizeof text - 1, file)] = '\0';
    fclose(file);
    const char *after = strrchr(text, ')'); /* the name before it may have any byte */
    return after && sscanf(after + 1, " %*c %ld", &parent) == 1 ? parent : 0;
}

/* The word after `--control-port` in the command line of Hydra's proxy, whose words end with zero bytes. */
static const char *port_in(const char *command, size_t length) {
    const char *end = command + length;
    if (!strstr(command, "hydra_pmi_proxy"))
        return NULL;
    for (const char *word = command; word < end; word += strlen(word) + 1)
        if (strcmp(word, "--control-port") == 0 && word + strlen(word) + 1 < end)
            return word + strlen(word) + 1;
    return NULL;
}

/* Hydra's proxy on each machine is an ancestor of the ranks there. Its command line has the address of the
 * run's mpiexec. */
static const char *of_hydra(char *text, size_t room) {
    long process = getpid();
    for (int i = 0; i < MOST_ANCESTORS && process > 1; i++) {
        char path[64], command[4096];
        process = parent_of(process);
        snprintf(path, sizeof path, "/proc/%ld/cmdline", process);
        FILE *file = fopen(path, "re");
        if (!file)
            return NULL;
        size_t length = fread(command, 1, sizeof command - 1, file);
        fclose(file);
        command[length] = '\0';
        const char *port = port_in(command, length);
        if (port)
            return snprintf(text, room, "%s", port), text;
    }
    return NULL;
}

static const char *of_one_rank(int ranks, char *text, size_t room) {
    char host[256] = "";
    struct timespec now;
    if (ranks != 1)
        return NULL;
    gethostname(host, sizeof host - 1);
    clock_gettime(CLOCK_REALTIME, &now);
    snprintf(text, room, "%s %ld %ld.%09ld", host, (long)getpid(), (long)now.tv_sec, now.tv_nsec);
    return text;
}

/* What the launcher gives: its kind, its words, and the variable with the rank. */
typedef struct {
    const char *kind, *words, *rank;
} Given;

static bool is_given(Given *given, const char *kind, const char *words, const char *rank) {
    *given = (Given){kind, words, rank};
    return words;
}

/* The first launcher that gives something is taken. For programs of MPICH that is Hydra, since such a program
 * may be started by one that runs under the other library's mpirun. */
static bool ask_launcher(Given *given, char *text, size_t room) {
    bool is_mpich = true;
#ifdef OPEN_MPI
    is_mpich = false;
#endif
    if (is_mpich && is_given(given, "hydra", of_hydra(text, room), "PMI_RANK"))
        return true;
    return is_given(given, "pmix", of_pmix(text, room), "PMIX_RANK") ||
           (!is_mpich && is_given(given, "hydra", of_hydra(text, room), "PMI_RANK")) ||
           is_given(given, "pmi", of_variables("PMI_JOBID", NULL, text, room), "PMI_RANK") ||
           is_given(given, "slurm", of_variables("SLURM_JOB_ID", "SLURM_STEP_ID", text, room),
                    "SLURM_PROCID");
}

static void make_id(const char *kind, const char *words, char id[LONGEST_ID]) {
    snprintf(id, LONGEST_ID, "%s-%016llx", kind, (unsigned long long)hash_of(words));
}

bool run_is_given(char *id, int *rank) {
    char text[4096];
    Given given;
    if (!ask_launcher(&given, text, sizeof text) || !getenv(given.rank))
        return false;
    make_id(given.kind, given.words, id);
    *rank = atoi(getenv(given.rank));
    return true;
}

static bool give_id(int ranks, char id[LONGEST_ID]) {
    char text[4096];
    Given given;
    bool found = ask_launcher(&given, text, sizeof text) ||
                 is_given(&given, "alone", of_one_rank(ranks, text, sizeof text), "");
    if (found)
        make_id(given.kind, given.words, id);
    return found;
}

/* ---- The folder -------------------------------------------------------------------------------- */

/* Exactly one process makes the file `run`, completely or not at all, also on a network file system. Without
 * hard links, a rename that replaces nothing does the same. */
static bool put_in_place(const char *from, const char *to) {
    if (link(from, to) == 0 || errno == EEXIST)
        return true;
    return renameat2(AT_FDCWD, from, AT_FDCWD, to, RENAME_NOREPLACE) == 0 || errno == EEXIST;
}

static bool claim(const char *folder, const char *id) {
    char mine[4096], path[4096], host[64] = "";
    gethostname(host, sizeof host - 1);
    snprintf(mine, sizeof mine, "%s/.run-%s-%ld", folder, host, (long)getpid());
    if (snprintf(path, sizeof path, "%s/run", folder) >= (int)sizeof path)
        return false;
    FILE *file = fopen(mine, "wxe");
    if (!file)
        return false;
    bool written = may_have(LONGEST_ID + 1) && fprintf(file, "%s\n", id) > 0;
    written = fclose(file) == 0 && written && put_in_place(mine, path);
    unlink(mine);
    return written;
}

/* Reads the ID of the run to which the folder belongs; whether that could be read. */
static bool read_claim(const char *folder, char id[LONGEST_ID]) {
    char path[4096];
    snprintf(path, sizeof path, "%s/run", folder);
    FILE *file = fopen(path, "re");
    bool found = file && fgets(id, LONGEST_ID, file);
    if (file)
        fclose(file);
    if (found)
        id[strcspn(id, "\n")] = '\0';
    return found && *id;
}

const char *run_open(const char *named, int ranks, char *folder, unsigned long room, const char **id) {
    static char mine[LONGEST_ID];
    char first[LONGEST_ID] = "";
    static const char wrong[] = "no journal can be made in the folder that MPIWAIT_JOURNAL names";
    bool is_known = give_id(ranks, mine);
    if (!is_known)
        snprintf(mine, sizeof mine, "%s%lx", claimed, (long)getpid());
    *id = mine;
    if (!read_claim(named, first) && !(claim(named, mine) && read_claim(named, first)))
        return wrong;
    if (!is_known && strncmp(first, claimed, strlen(claimed)) == 0)
        strcpy(mine, first);
    else if (!is_known)
        snprintf(mine, sizeof mine, "%s0", claimed);
    if (strcmp(first, mine) == 0)
        return snprintf(folder, room, "%s", named) < (int)room ? NULL : wrong;
    if (snprintf(folder, room, "%s/run-%s", named, mine) >= (int)room)
        return wrong;
    return mkdir(folder, 0777) == 0 || errno == EEXIST ? NULL : wrong;
}

/* ---- Marks ------------------------------------------------------------------------------------- */

/* In MPICH and Open MPI no process leaves MPI_Init before all have entered it, since they exchange their
 * addresses there. So a mark that was made before MPI_Init is seen by all after it. */
void put_mark(const char *folder, const char *kind, char marks[4096]) {
    char id[LONGEST_ID], path[4096 + 16];
    int rank;
    marks[0] = '\0';
    if (!folder || !*folder || !run_is_given(id, &rank))
        return;
    if (snprintf(marks, 4096, "%s/%s-%s", folder, kind, id) >= 4096) {
        marks[0] = '\0';
        return;
    }
    mkdir(marks, 0777);
    snprintf(path, sizeof path, "%s/%d", marks, rank);
    int file = open(path, O_WRONLY | O_CREAT | O_CLOEXEC, 0666);
    if (file >= 0)
        close(file);
}

bool has_mark(const char *marks, int rank) {
    char path[4096 + 16];
    snprintf(path, sizeof path, "%s/%d", marks, rank);
    return *marks && access(path, F_OK) == 0;
}
