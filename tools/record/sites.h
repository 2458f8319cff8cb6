/* What the files about places share. See sites.c. */
#ifndef MPIWAIT_SITES_H
#define MPIWAIT_SITES_H

#include <stdbool.h>
#include <stdio.h>

/* The program doesn't see these names. */
#pragma GCC visibility push(hidden)

/* The number of the site that is a line of Python code. */
int site_of_line(const char *file, int line);

/* Writes a name as one line: a backslash, a byte below 32 and the byte 127 as `\xHH`. */
void put_name(FILE *file, const char *name);

/* Whether the process has Python. */
bool find_python(void);

/* Modules were loaded or unloaded, so an address may now belong to another one. */
void forget_sites(void);

/* The site of the Python line that this thread executes; 0 if it runs no Python code, or if Python can't be
 * asked. */
int site_of_python(void);

#pragma GCC visibility pop

#endif
