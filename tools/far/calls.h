/* What the two sides share: one call, in memory that both see.

   The library is compiled for x86-64. On another processor `near.c` stands in
   its place: it puts each call here, and `server.c`, an x86-64 program that
   runs under an emulator, hands it to the library. */

#include <stddef.h>
#include <stdint.h>

enum { FRESH, STEP, RUN, READ, WRITE };

/* Each slice of a call has an area of its own. */
enum { RECORD, PAGES, MEMORY, COUNT, FIELDS, WORD, AREAS };

struct call {
    uint64_t kind;
    uint64_t length[AREAS];
    uint64_t budget;
    uint64_t word;
    uint64_t reply;
};

/* Sizes in bytes. The memory area holds one page more than may be lent. */
#define CALL_AREA ((size_t)4096)
#define SMALL_AREA ((size_t)65536)
#define MEMORY_AREA ((size_t)16385 * 2048)
#define SHARED (CALL_AREA + 5 * SMALL_AREA + MEMORY_AREA)

static inline unsigned char *area(unsigned char *shared, int which)
{
    int place = which > MEMORY ? which - 1 : which;
    if (which == MEMORY)
        return shared + CALL_AREA + 5 * SMALL_AREA;
    return shared + CALL_AREA + (size_t)place * SMALL_AREA;
}
