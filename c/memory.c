/* The memory of the library: malloc, realloc and free of the program that it is linked with. */
#include <stdbool.h>
#include <stddef.h>
#include <stdlib.h>

/* Whether there is a block, and where. The place is no null pointer where there is none either. */
struct tried {
    bool ok;
    void *place;
};

static char no_block;

static struct tried tried(void *block) {
    return (struct tried){block != NULL, block != NULL ? block : &no_block};
}

/* An alignment is at most 16, as that of malloc, and a block of no octets has a place of its own too. */
struct tried rattle_alloc(size_t size, size_t alignment) {
    return tried(malloc(size != 0 ? size : alignment));
}

/* realloc keeps all octets that both sizes have, and so the first `kept` of them. */
struct tried rattle_realloc(void *block, size_t kept, size_t size, size_t alignment) {
    (void)kept;
    return tried(realloc(block, size != 0 ? size : alignment));
}

void rattle_dealloc(void *block) {
    free(block);
}
