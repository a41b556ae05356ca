/* This side: a library with the same five functions, for a processor that is
   not x86-64. Each call goes to the server under an emulator, whose names are
   given by EMULATOR and SERVER when this file is compiled. */

#define _GNU_SOURCE
#include "calls.h"
#include "a400.h"
#include <fcntl.h>
#include <pthread.h>
#include <stdio.h>
#include <stdlib.h>
#include <string.h>
#include <sys/mman.h>
#include <unistd.h>

static pthread_mutex_t one_at_a_time = PTHREAD_MUTEX_INITIALIZER;
static unsigned char *shared;
static int asks, answers;

static void stop(const char *what)
{
    perror(what);
    abort();
}

static void start(void)
{
    int to[2], from[2];
    int memory = memfd_create("a400", 0);
    if (memory < 0 || ftruncate(memory, SHARED) != 0)
        stop("far: shared memory");
    shared = mmap(NULL, SHARED, PROT_READ | PROT_WRITE, MAP_SHARED, memory, 0);
    if (shared == MAP_FAILED || pipe2(to, O_CLOEXEC) != 0 || pipe2(from, O_CLOEXEC) != 0)
        stop("far: start");
    pid_t child = fork();
    if (child < 0)
        stop("far: fork");
    if (child == 0) {
        int kept = fcntl(memory, F_DUPFD, 10), in = fcntl(to[0], F_DUPFD, 10), out = fcntl(from[1], F_DUPFD, 10);
        dup2(in, 0);
        dup2(out, 1);
        dup2(kept, 3);
        close(in);
        close(out);
        close(kept);
        execl(EMULATOR, EMULATOR, SERVER, (char *)NULL);
        _exit(127);
    }
    close(to[0]);
    close(from[1]);
    close(memory);
    asks = to[1];
    answers = from[0];
}

struct slice {
    void *at;
    size_t length, size;
};

static uint32_t call(int kind, struct slice slices[AREAS], uint32_t budget, uint16_t word)
{
    unsigned char byte = 0;
    pthread_mutex_lock(&one_at_a_time);
    if (shared == NULL)
        start();
    struct call *call = (struct call *)shared;
    call->kind = (uint64_t)kind;
    call->budget = budget;
    call->word = word;
    for (int which = 0; which < AREAS; which++) {
        struct slice slice = slices[which];
        size_t bytes = slice.length * slice.size;
        if (bytes > (which == MEMORY ? MEMORY_AREA : SMALL_AREA)) {
            fprintf(stderr, "far: a slice of %zu bytes does not fit\n", bytes);
            abort();
        }
        call->length[which] = slice.length;
        if (bytes > 0)
            memcpy(area(shared, which), slice.at, bytes);
    }
    if (write(asks, &byte, 1) != 1 || read(answers, &byte, 1) != 1)
        stop("far: the server does not answer");
    for (int which = 0; which < AREAS; which++) {
        struct slice slice = slices[which];
        if (slice.length > 0 && !(kind == WRITE && which == FIELDS))
            memcpy(slice.at, area(shared, which), slice.length * slice.size);
    }
    uint32_t reply = (uint32_t)call->reply;
    pthread_mutex_unlock(&one_at_a_time);
    return reply;
}

uint32_t a400_fresh(uint16_t *record, size_t record_len)
{
    struct slice slices[AREAS] = {[RECORD] = {record, record_len, 2}};
    return call(FRESH, slices, 0, 0);
}

uint32_t a400_step(uint16_t *record, size_t record_len, uint16_t *pages, size_t pages_len, uint16_t *memory,
                   size_t memory_len)
{
    struct slice slices[AREAS] = {
        [RECORD] = {record, record_len, 2}, [PAGES] = {pages, pages_len, 2}, [MEMORY] = {memory, memory_len, 2}};
    return call(STEP, slices, 0, 0);
}

uint32_t a400_run(uint16_t *record, size_t record_len, uint16_t *pages, size_t pages_len, uint16_t *memory,
                  size_t memory_len, uint32_t budget, uint32_t *count, size_t count_len)
{
    struct slice slices[AREAS] = {[RECORD] = {record, record_len, 2},
                                  [PAGES] = {pages, pages_len, 2},
                                  [MEMORY] = {memory, memory_len, 2},
                                  [COUNT] = {count, count_len, 4}};
    return call(RUN, slices, budget, 0);
}

uint32_t a400_read(uint16_t word, uint16_t *fields, size_t fields_len)
{
    struct slice slices[AREAS] = {[FIELDS] = {fields, fields_len, 2}};
    return call(READ, slices, 0, word);
}

uint32_t a400_write(const uint16_t *fields, size_t fields_len, uint16_t *word, size_t word_len)
{
    struct slice slices[AREAS] = {[FIELDS] = {(void *)fields, fields_len, 2}, [WORD] = {word, word_len, 2}};
    return call(WRITE, slices, 0, 0);
}
