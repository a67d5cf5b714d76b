/* Calls of the library on plans with every room that is too short for the text, and with each allocation failing in turn.

       refusals PLAN..

   Linked with -Wl,--wrap=malloc,--wrap=realloc,--wrap=free, so that the library's calls of these come here. */
#include <stdbool.h>
#include <stdint.h>
#include <stdio.h>
#include <stdlib.h>
#include <string.h>

#include "roe_link.h"

void *__real_malloc(size_t size);
void *__real_realloc(void *block, size_t size);
void __real_free(void *block);

/* What a buffer has before a call. */
#define FILL 0x55

static struct {
    bool counts;  /* whether a call of the library runs */
    long taken;   /* the blocks and new sizes that it asked for */
    long held;    /* the blocks that it has */
    long fails;   /* the one that it does not get, or 0 */
    bool all;     /* nor any after that */
} memory;

static bool refuses(void) {
    memory.taken += 1;
    return memory.fails != 0 && (memory.taken == memory.fails || (memory.all && memory.taken > memory.fails));
}

void *__wrap_malloc(size_t size) {
    if (!memory.counts) {
        return __real_malloc(size);
    }
    void *block = refuses() ? NULL : __real_malloc(size);
    memory.held += block != NULL;
    return block;
}

void *__wrap_realloc(void *block, size_t size) {
    if (memory.counts && refuses()) {
        return NULL;
    }
    return __real_realloc(block, size);
}

void __wrap_free(void *block) {
    memory.held -= memory.counts && block != NULL;
    __real_free(block);
}

/* A call, and what it left. */
struct answer {
    int code;
    size_t written;
    char *out;
};

static void fail(const char *name, const char *what, long at) {
    fprintf(stderr, "refusals: %s: %s (at %ld)\n", name, what, at);
    exit(1);
}

/* Calls with a buffer of just that room, so that an octet beside it is noticed. */
static struct answer call(const char *plan, size_t octets, size_t room, long fails, bool all) {
    struct answer answer = {-1, SIZE_MAX, malloc(room + (room == 0))};
    memset(answer.out, FILL, room + (room == 0));
    memory.taken = memory.held = 0;
    memory.fails = fails;
    memory.all = all;
    memory.counts = true;
    answer.code = roe_check(plan, octets, answer.out, room, &answer.written);
    memory.counts = false;
    return answer;
}

static bool is_filled(const char *octets, size_t count) {
    for (size_t i = 0; i < count; i++) {
        if (octets[i] != FILL) {
            return false;
        }
    }
    return true;
}

static void refused(const char *name, struct answer answer, size_t room, int code, size_t written, long at) {
    if (answer.code != code || answer.written != written) {
        fail(name, "another code or count", at);
    }
    if (!is_filled(answer.out, room + (room == 0))) {
        fail(name, "the buffer was changed", at);
    }
    if (memory.held != 0) {
        fail(name, "memory was not given back", at);
    }
    free(answer.out);
}

static void told(const char *name, struct answer answer, const struct answer *whole, size_t room, long at) {
    if (answer.code != whole->code || answer.written != whole->written || memory.held != 0) {
        fail(name, "another answer", at);
    }
    if (memcmp(answer.out, whole->out, whole->written) != 0 || !is_filled(answer.out + whole->written, room - whole->written)) {
        fail(name, "another text", at);
    }
    free(answer.out);
}

/* Each front of the plan is answered too, out of a block that has no octet more. */
static void fronts(const char *name, const char *plan, size_t octets) {
    for (size_t i = 0; i < octets; i += 1 + octets / 1000) {
        char *front = malloc(i + (i == 0));
        memcpy(front, plan, i);
        struct answer answer = call(front, i, ROE_ROOM, 0, false);
        if ((answer.code != ROE_YES && answer.code != ROE_NO && answer.code != ROE_NO_PLAN) || memory.held != 0) {
            fail(name, "a front is not answered", (long)i);
        }
        free(answer.out);
        free(front);
    }
}

static long try_plan(const char *name, const char *plan, size_t octets) {
    struct answer whole = call(plan, octets, ROE_ROOM, 0, false);
    long taken = memory.taken;
    if (whole.code != ROE_YES && whole.code != ROE_NO && whole.code != ROE_NO_PLAN) {
        fail(name, "no answer", 0);
    }
    for (size_t room = 0; room < whole.written; room++) {
        refused(name, call(plan, octets, room, 0, false), room, ROE_TOO_SHORT, whole.written, (long)room);
    }
    for (size_t room = whole.written; room <= whole.written + 1; room++) {
        told(name, call(plan, octets, room, 0, false), &whole, room, (long)room);
    }
    for (long fails = 1; fails <= taken; fails++) {
        refused(name, call(plan, octets, ROE_ROOM, fails, false), ROE_ROOM, ROE_NO_MEMORY, 0, fails);
        refused(name, call(plan, octets, ROE_ROOM, fails, true), ROE_ROOM, ROE_NO_MEMORY, 0, fails);
    }
    told(name, call(plan, octets, ROE_ROOM, 0, false), &whole, ROE_ROOM, 0);
    fronts(name, plan, octets);
    free(whole.out);
    return taken;
}

static char *read_plan(const char *name, size_t *octets) {
    FILE *file = fopen(name, "rb");
    if (file == NULL) {
        fail(name, "is not read", 0);
    }
    char *room = malloc(65537);
    *octets = fread(room, 1, 65537, file);
    fclose(file);
    char *plan = malloc(*octets + (*octets == 0));
    memcpy(plan, room, *octets);
    free(room);
    return plan;
}

int main(int argc, char **argv) {
    long taken = 0;
    for (int i = 1; i < argc; i++) {
        size_t octets = 0;
        char *plan = read_plan(argv[i], &octets);
        taken += try_plan(argv[i], plan, octets);
        free(plan);
    }
    printf("refusals: %d plans, %ld allocations failed in turn\n", argc - 1, taken);
    return 0;
}
