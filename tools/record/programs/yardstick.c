/* What it costs to write a line of text on this machine, which tools/tries/overhead.sh compares recorded calls
 * with: a line with the nanoseconds, the best of many pieces. */
#include <stdio.h>
#include <time.h>

enum { ROUNDS = 400, PIECES = 500 };

static double now(void) {
    struct timespec time;
    clock_gettime(CLOCK_MONOTONIC, &time);
    return 1e9 * (double)time.tv_sec + (double)time.tv_nsec;
}

static double piece(void) {
    char line[100];
    double start = now();
    for (int i = 0; i < ROUNDS; i++)
        snprintf(line, sizeof line, "isend %d 0 1 %d 4 @%d\n", i, i + 1, i + 2);
    return (now() - start) / ROUNDS;
}

int main(void) {
    double best = piece();
    for (int i = 1; i < PIECES; i++) {
        double took = piece();
        best = took < best ? took : best;
    }
    printf("a line\t%.0f\n", best);
    return 0;
}
