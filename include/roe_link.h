/* The proved check of plans, as a call.

   Link with libroe_link.a or libroe_link.so, which c/build_library builds. */
#ifndef ROE_LINK_H
#define ROE_LINK_H

#include <stddef.h>

#ifdef __cplusplus
extern "C" {
#endif

/* What roe_check gives. The first four are what the program roe_link ends with. */
enum {
    ROE_YES = 0,       /* the plan meets the rules */
    ROE_NO = 1,        /* it fails a rule; the text names the first one, and its item */
    ROE_NO_PLAN = 3,   /* the octets are no plan; the text says what is wrong with them */
    ROE_NO_MEMORY = 7, /* memory was wanting */
    ROE_TOO_SHORT = 9  /* the buffer has no room for the text */
};

/* More octets than any text has that roe_check gives. */
#define ROE_ROOM 2048

/* Whether the plan_len octets at plan are a plan that meets the rules: what `roe_link check` answers to a file with them.

   Gives                 puts into out                                          sets *written to
   ROE_YES, ROE_NO,      the text that the program prints, in the first         the octets of the text
   ROE_NO_PLAN           *written octets; the others stay as they were
   ROE_TOO_SHORT         nothing: all room octets stay as they were             the octets of the text, which is more than room
   ROE_NO_MEMORY         nothing: all room octets stay as they were             0

   It gives no other code. The text is lines that each end with a line feed, and no octet 0 follows it. The plan need not end
   with an octet 0 either; an octet 0 in it is an octet like others. Each plan has one answer: it depends on these octets alone.

   The caller sees to this, which the call does not test:

   - None of the three pointers is NULL, also where plan_len or room is 0; they then point to anything that the caller has.
   - plan points to plan_len octets that may be read, out to room octets that were set to some value and may be written, and
     written to a size_t, aligned as one. Both numbers are at most PTRDIFF_MAX.
   - The three areas do not overlap, and until the call has returned nobody writes to plan, or reads or writes out or *written.
   - There is stack left: 32 KiB do for a plan as people write it, and 2 MiB for octets from strangers, which may nest deeply.
     Both are measured, not proved.
   - The call is not made in a signal handler, nor between fork and exec in the child of a process with several threads.

   Calls may be made by several threads at once. A call takes memory by malloc and realloc, and has given all of it back by
   free when it returns. It keeps nothing, opens nothing, and reads neither locale nor environment. */
int roe_check(const char *plan, size_t plan_len, char *out, size_t room, size_t *written);

#ifdef __cplusplus
}
#endif

#endif
