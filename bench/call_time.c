/* Prints the time of a call of roe_check on a plan, by a thousand rows of calls: in the best row, on average, and that of the
   processor on average, which other programs disturb less.

       call_time CALLS PLAN.. */
#include <stdio.h>
#include <stdlib.h>
#include <time.h>

#include "roe_link.h"

#define ROWS 1000

static double seconds(clockid_t clock) {
    struct timespec now;
    clock_gettime(clock, &now);
    return (double)now.tv_sec + 1e-9 * (double)now.tv_nsec;
}

static void measure(const char *name, long calls) {
    static char plan[65537];
    char text[ROE_ROOM] = {0};
    size_t written = 0;
    FILE *file = fopen(name, "rb");
    if (file == NULL) {
        fprintf(stderr, "%s is not read\n", name);
        exit(1);
    }
    size_t octets = fread(plan, 1, sizeof plan, file);
    fclose(file);

    long in_row = calls / ROWS;
    double best = 0, all = 0, begun = seconds(CLOCK_PROCESS_CPUTIME_ID);
    for (int row = 0; row < ROWS; row++) {
        double begin = seconds(CLOCK_MONOTONIC);
        for (long i = 0; i < in_row; i++) {
            roe_check(plan, octets, text, sizeof text, &written);
        }
        double took = seconds(CLOCK_MONOTONIC) - begin;
        best = row == 0 || took < best ? took : best;
        all += took;
    }
    double worked = seconds(CLOCK_PROCESS_CPUTIME_ID) - begun;
    double micro = 1e6 / (double)in_row;
    printf("%s: best row %.1f, mean %.1f, processor %.1f microseconds a call\n", name, micro * best, micro * all / ROWS, micro * worked / ROWS);
}

int main(int argc, char **argv) {
    for (int i = 2; i < argc; i++) {
        measure(argv[i], atol(argv[1]));
    }
    return 0;
}
