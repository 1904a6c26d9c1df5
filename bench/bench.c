/* Does one call on a heap, once by the library and once by the twin, and has valgrind's callgrind dump what it counted of
   each: first of nothing, so that it is known what counting takes, then of ours, then of the twin's. Both must answer
   alike and leave the same bytes.
     bench HEAP-FILE CALL ADDRESS SIZE      (a number that the call does not take is 0; initialise: SIZE is the end)
   As the twin's words are, so is the library: the console's, or the hand unit's. */
#include "twin.h"
#if TWIN_WORD == 8
#include "../include/jagwibodu.h"
#define OUR(call) jagwibodu_##call
#define OPEN(call, h, end) call(h, length, end)
#else
#include "../include/jagwibodu_hand.h"
#define OUR(call) jagwibodu_hand_##call
#define OPEN(call, h, end) call(h, length)
#endif

#include <stdint.h>
#include <stdio.h>
#include <stdlib.h>
#include <string.h>
#include <valgrind/callgrind.h>

#define LONGEST 1048576

static _Alignas(64) uint8_t image[LONGEST];
static _Alignas(64) uint8_t ours[LONGEST];
static _Alignas(64) uint8_t twins[LONGEST];
static size_t length;
static uint64_t our_answer, twin_answer;

static void fail(const char *why)
{
    fprintf(stderr, "bench: %s\n", why);
    exit(2);
}

static void load(const char *path)
{
    FILE *file = fopen(path, "rb");

    if (!file)
        fail("no such heap");
    length = fread(image, 1, LONGEST, file);
    fclose(file);
}

static void refresh(void)
{
    memcpy(ours, image, length);
    memcpy(twins, image, length);
}

/* Functions of their own, so that they take the same instructions at each place. */
static __attribute__((noinline)) void begin_count(void)
{
    CALLGRIND_ZERO_STATS;
}

static __attribute__((noinline)) void end_count(void)
{
    CALLGRIND_DUMP_STATS;
}

/* The compiler takes the answer as used before the count ends, at no instruction's cost. */
#define MEASURE(answer, call)                               \
    do {                                                    \
        begin_count();                                      \
        uint64_t counted = (call);                          \
        __asm__ volatile("" : "+r"(counted) : : "memory");  \
        end_count();                                        \
        (answer) = counted;                                 \
    } while (0)

/* The first round is not counted: in it the loader finds the functions of the C library. */
#define BOTH(our_call, twin_call)        \
    do {                                 \
        refresh();                       \
        our_answer = (our_call);         \
        twin_answer = (twin_call);       \
        refresh();                       \
        begin_count();                   \
        end_count();                     \
        MEASURE(our_answer, our_call);   \
        MEASURE(twin_answer, twin_call); \
    } while (0)

static void measure(const char *call, uint64_t address, uint64_t size)
{
    if (!strcmp(call, "initialise")) {
        BOTH(OPEN(OUR(initialise), ours, size), OPEN(twin_initialise, twins, size));
        return;
    }
    if (!strcmp(call, "check")) {
        BOTH(OUR(check)(ours, length), twin_check(twins, length));
        return;
    }
    if (!strcmp(call, "allocate")) {
        BOTH(OUR(allocate)(ours, length, size), twin_allocate(twins, length, size));
        return;
    }
    if (!strcmp(call, "resize")) {
        BOTH(OUR(resize)(ours, length, address, size), twin_resize(twins, length, address, size));
        return;
    }
    if (!strcmp(call, "resize_in_place")) {
        BOTH(OUR(resize_in_place)(ours, length, address, size), twin_resize_in_place(twins, length, address, size));
        return;
    }
    if (!strcmp(call, "move")) {
        BOTH(OUR(move)(ours, length, address, size), twin_move(twins, length, address, size));
        return;
    }
    if (!strcmp(call, "free")) {
        BOTH(OUR(free)(ours, length, address), twin_free(twins, length, address));
        return;
    }
    if (!strcmp(call, "sweep")) {
        BOTH(OUR(sweep)(ours, length), twin_sweep(twins, length));
        return;
    }
    fail("no such call");
}

int main(int count, char **words)
{
    if (count != 5)
        fail("HEAP-FILE CALL ADDRESS SIZE");
    load(words[1]);
    measure(words[2], strtoul(words[3], 0, 10), strtoul(words[4], 0, 10));
    if (our_answer != twin_answer || memcmp(ours, twins, length) != 0)
        fail("ours and the twin differ");
    printf("%lu\n", our_answer);
    return 0;
}
