/* Answers a plan as `roe_link check` does: prints the text, and ends with the code.

       cc -I include examples/check_plan.c c/out/libroe_link.a -o check_plan
       ./check_plan PLAN */
#include <stdio.h>

#include "roe_link.h"

/* One more than a plan may have: then a longer file is no plan, as it is for the program. */
#define PLAN_ROOM 65537

int main(int argc, char **argv) {
    static char plan[PLAN_ROOM];
    char text[ROE_ROOM] = {0};
    size_t written = 0;

    FILE *file = argc == 2 ? fopen(argv[1], "rb") : NULL;
    if (file == NULL) {
        fprintf(stderr, "check_plan PLAN\n");
        return 2;
    }
    size_t octets = fread(plan, 1, sizeof plan, file);
    fclose(file);

    int code = roe_check(plan, octets, text, sizeof text, &written);
    if (code != ROE_TOO_SHORT) {
        fwrite(text, 1, written, stdout);
    }
    return code;
}
