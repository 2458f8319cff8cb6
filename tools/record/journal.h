/* What a rank writes while it runs. An unproved companion of mpiwait, like all of tools/.
 *
 * Each rank has these texts in the folder of the run:
 *   journalR  one line for each call, written when it begins; lines beginning with `=` for its results
 *   leftR     how often each call was made that has no line
 *   sitesR    the places in the program from which the calls were made
 *   namesR    the names that the program gives to communicators, if it does
 *   failedR   what failed, if the rank did
 * The first two are mapped files, so the kernel has each byte at once: a rank that is killed leaves all that
 * it wrote. The first byte of a line is written last, so a line is there completely or not at all. Zero bytes
 * follow the last line.
 *
 * journalR begins with `journal 2 R P ID S LIBRARY`: the rank, the number of ranks, the run's ID, a letter,
 * and the MPI library in words. The letter S is `i` while the rank is inside the call of its last call line,
 * and `o` once that call returned. After the library comes ` strict` in a strict run, ` multiple` if threads
 * may call MPI at once, and ` on HOST`, the machine.
 *
 * The header ends with ` polls SSSSSSSS WW CCCCCCCCCCCCCCCC`, hexadecimal digits. They are zeros unless the
 * rank's last calls were tests or probes that found nothing. Then they are the site of the last one, which
 * call it was (Poll), and how many there were since the last call line. S and these digits are overwritten in
 * place.
 *
 * A line of leftR is `M NNNNNNNNNNNN WORDS`: a letter of Meaning, how often, and which calls. The letter is
 * `w` in place of `W` while the rank is in such a call. It is overwritten in place, like the digits.
 *
 * A line of sitesR is a number, a tab, and frames with tabs between them, the innermost first. A frame is
 * `MODULE+0xOFFSET` or, in Python code, `FILE:LINE`. In a name, a backslash, a byte below 32 and the byte 127
 * are written as `\xHH`.
 *
 * A line of namesR is the rank's number of a communicator and the name, written in the same way.
 *
 * failedR is there if the rank failed, and then has one line. `error SITE NAME TEXT` is the call of MPI in
 * which an error ended the run, and MPI's message. `threads SITE NAME OTHER` is a call that was made while
 * another thread was in one, from the site OTHER, although only one thread may call at a time.
 *
 * A recording with windows (windows.h) has the journals of each in a folder of its own: 1, 2, .. in that of
 * the run. The journals of all but the last one end with `cut`.
 *
 * MPIWAIT_JOURNAL names the folder of the run. The file `run` there has the ID of the first run; ranks of
 * another run write into the subfolder `run-ID`. For a process that isn't recorded, the file `unrecorded` of
 * one of these folders has a line with the reason.
 */
#ifndef MPIWAIT_JOURNAL_H
#define MPIWAIT_JOURNAL_H

#include <limits.h>
#include <stdbool.h>

/* The program doesn't see these names. */
#pragma GCC visibility push(hidden)

/* A field of a line: a number, or one of these values beyond all ints. */
typedef long long Field;
#define NULL_PEER ((Field)INT_MAX + 1)
#define ANY ((Field)INT_MAX + 2)
#define UNDEFINED ((Field)INT_MAX + 3)
#define UNKNOWN ((Field)INT_MAX + 4) /* the field is left out */

/* So many fields fit into one line, whatever they are. */
enum { MOST_FIELDS = 2600 };

/* Whether calls are recorded: from MPI_Init to MPI_Finalize, unless the recording stops before. */
extern bool recording;

/* Whether the journal has as many calls as a trace may have. Then no other call is written, and no request
 * gets a number. */
extern bool journal_is_full;

/* Whether something isn't known that would have to be, for nothing to be under way: what a call did that
 * failed or isn't recorded, or what became of a request. */
extern bool in_doubt;

/* Whether the rank is in a call that is only counted. */
extern bool in_counted;

/* Why the journal can't be begun, or NULL. Windows are numbered from 1; without windows the number is 0. */
const char *journal_open(const char *folder, const char *id, int rank, int ranks, const char *library,
                         int window);

/* Begins the journal of the next window, if there is room. Lines go to the old one until that is cut. */
bool journal_begin_window(void);
void journal_cut(void);

/* Remembers this place, in case that the journal turns out to be cut here. Lines go to the next window's journal,
 * which nobody sees yet, until `journal_go_on`. Then either this place is forgotten, or all lines since then move
 * into that journal; the receives of these numbers go on there. */
bool journal_remember(void);
void journal_go_on(void);
void journal_forget(void);
void journal_cut_there(int count, const Field *moved);

/* How many lines it has, those of earlier windows too. */
unsigned long journal_lines(void);

/* Whether fields fit into one line: more of them, all from 0 on, if the largest one has few digits. */
bool fits_line(int count, const Field *fields);

/* A call of the program begins. It may write several lines, or none. */
void journal_begin(void);

/* Writes a line for it, with a site that `site_of` gave: that of the last line is in `journal_site`. */
extern int journal_site;
void journal_call(const char *word, int count, const Field *fields, int site);

/* Writes a result of the call, or what became of an earlier call's request. The word begins with `=`. */
void journal_report(const char *word, int count, const Field *fields);

/* A receive with a wildcard got its message. This is the only line that a full journal still takes. */
void journal_done(int number, Field source, Field tag);

/* The call returned an error, so what it did isn't known. */
void journal_failed(void);

/* The call was left by a jump, perhaps while it wrote a line. */
void journal_left(void);

/* The call returns. It may have no line. */
void journal_came_back(void);

/* The call isn't recorded after all: its lines are removed. It may still be inside MPI. */
void journal_take_back(void);

/* The tests and probes that find nothing. */
typedef enum { TEST = 1, TESTALL, TESTANY, TESTSOME, IPROBE, IMPROBE, GET_STATUS } Poll;
void journal_polled(Poll call, int site);

/* Takes out the only line of the call, if nothing came after it, so that another one comes in its place. */
bool journal_rewrites(void);

/* The recording stops and the program continues: the rank's later calls aren't known. */
void journal_stop(const char *why);

/* After this only S is written. */
void journal_close(void);

/* What a verdict is worth if a call is left out. */
typedef enum {
    NOTHING = 'N', /* the same: the call waits for nobody */
    WAITS = 'W',   /* a `hang` stays a hang; a `free` says nothing of these waits */
    PARTNERS = 'P' /* recorded calls may match these calls: no verdict can be trusted */
} Meaning;

/* Why there is no room for the counts, or NULL. */
const char *counts_open(const char *folder, int rank);

/* Counts a call that has no line. `what` must stay in memory, as a constant does. With WAITS it is the call
 * that is being recorded, and the rank is in it until it comes back. */
void left_out(Meaning meaning, const char *what);
void counts_came_back(void);

/* How both texts are made: a new file; and a part of it, zero bytes, mapped into memory, or NULL. */
int create_text(const char *folder, const char *name, int rank);
char *map_text(int file, long start, unsigned long size);

/* Whether a file may be so long. The system ends a process by SIGXFSZ that makes a longer one. */
bool may_have(unsigned long size);

/* Whether a file number is still that of the same file as in the first call for it. A program may close all
 * files, and then open one of its own, which has the number of ours. */
typedef struct {
    bool is_known;
    unsigned long device, place;
} Identity;
bool is_still_ours(int file, Identity *identity);

enum { LONGEST_ID = 40 };

/* The ID of the run and the rank, if the launcher gives them before MPI begins. */
bool run_is_given(char *id, int *rank);

/* The folder of the run to which this process belongs, and the run's ID. Answers NULL, or why there is no
 * folder. */
const char *run_open(const char *named, int ranks, char *folder, unsigned long room, const char **id);

/* A process shows by a mark of some kind that it has a recorder for that: before MPI begins. After MPI_Init
 * all ranks see the same marks. The folder of the marks is empty if there are none. */
void put_mark(const char *folder, const char *kind, char marks[4096]);
bool has_mark(const char *marks, int rank);

void sites_open(const char *folder, int rank);

/* The program gives a name to a communicator. */
void name_communicator(int number, const char *name);

/* The number, from 1, of the place from which the recorder's function was called; 0 if none is known. Given
 * are the return address of that function and its frame, whose second word is that address. */
int site_of(void *caller, void **frame);

#pragma GCC visibility pop

#endif
