/* The x86-64 side: hands each call to the library. It needs no C library.
   Descriptor 0 asks, descriptor 1 answers, descriptor 3 is the shared memory. */

#include "calls.h"
#include "a400.h"

static long ask(long number, long a, long b, long c, long d, long e, long f)
{
    long result;
    register long r10 __asm__("r10") = d;
    register long r8 __asm__("r8") = e;
    register long r9 __asm__("r9") = f;
    __asm__ volatile("syscall"
                     : "=a"(result)
                     : "a"(number), "D"(a), "S"(b), "d"(c), "r"(r10), "r"(r8), "r"(r9)
                     : "rcx", "r11", "memory");
    return result;
}

enum { SYS_READ = 0, SYS_WRITE = 1, SYS_MMAP = 9, SYS_EXIT = 60 };

/* What a compiler may call. */
void *memcpy(void *to, const void *from, size_t size)
{
    unsigned char *t = to;
    const unsigned char *f = from;
    for (size_t i = 0; i < size; i++)
        t[i] = f[i];
    return to;
}

void *memmove(void *to, const void *from, size_t size)
{
    unsigned char *t = to;
    const unsigned char *f = from;
    if (t <= f)
        return memcpy(to, from, size);
    while (size-- > 0)
        t[size] = f[size];
    return to;
}

void *memset(void *to, int value, size_t size)
{
    unsigned char *t = to;
    for (size_t i = 0; i < size; i++)
        t[i] = (unsigned char)value;
    return to;
}

int memcmp(const void *one, const void *other, size_t size)
{
    const unsigned char *a = one, *b = other;
    for (size_t i = 0; i < size; i++)
        if (a[i] != b[i])
            return a[i] - b[i];
    return 0;
}

static uint32_t serve(unsigned char *shared)
{
    struct call *call = (struct call *)shared;
    uint16_t *record = (uint16_t *)area(shared, RECORD), *pages = (uint16_t *)area(shared, PAGES);
    uint16_t *memory = (uint16_t *)area(shared, MEMORY), *fields = (uint16_t *)area(shared, FIELDS);
    uint16_t *word = (uint16_t *)area(shared, WORD);
    uint32_t *count = (uint32_t *)area(shared, COUNT);
    const uint64_t *length = call->length;
    switch (call->kind) {
    case FRESH:
        return a400_fresh(record, length[RECORD]);
    case STEP:
        return a400_step(record, length[RECORD], pages, length[PAGES], memory, length[MEMORY]);
    case RUN:
        return a400_run(record, length[RECORD], pages, length[PAGES], memory, length[MEMORY],
                        (uint32_t)call->budget, count, length[COUNT]);
    case READ:
        return a400_read((uint16_t)call->word, fields, length[FIELDS]);
    default:
        return a400_write(fields, length[FIELDS], word, length[WORD]);
    }
}

__attribute__((force_align_arg_pointer)) void _start(void)
{
    unsigned char byte;
    unsigned char *shared = (unsigned char *)ask(SYS_MMAP, 0, SHARED, 3, 1, 3, 0);
    while (ask(SYS_READ, 0, (long)&byte, 1, 0, 0, 0) == 1) {
        ((struct call *)shared)->reply = serve(shared);
        ask(SYS_WRITE, 1, (long)&byte, 1, 0, 0, 0);
    }
    ask(SYS_EXIT, 0, 0, 0, 0, 0, 0);
    for (;;)
        ;
}
