/* Runs a stream of commands from standard input against the library's heap calls and writes, for each
   call, its answer and every changed range of bytes, also outside the lent buffer. With HAND_UNIT the
   calls are those of the hand unit.

   Commands, all numbers 8-byte little-endian words:
     S shift length BYTES   the lent buffer is now these bytes, at an address that is "shift" past a multiple of 8;
                            outside it all bytes are 0 where "shift" is odd, and else FILL, until a call changes them
     P offset count BYTES   writes into the buffer
     I end                  initialise; of the hand unit, which does not grow, I alone
     C                      check
     A size                 allocate
     R address size         resize
     H address size         resize in place ("here")
     M address size         move
     F address              free
     W                      sweep
   Answer to each call: its own answer, and for each range its offset from the buffer's start (as a signed
   number), its length and its new bytes, which may have unchanged ones among them; a range of length 0
   comes last.
   At the end: of how many calls the stack was measured, the most bytes of it that one used, and the header's STACK. */
#ifdef HAND_UNIT
#include "../include/jagwibodu_hand.h"
#define CALL(name) jagwibodu_hand_##name
#define INITIALISE(heap, length, end) jagwibodu_hand_initialise(heap, length)
#define WITH_A_NUMBER "ARHMF" /* calls */
#define STACK JAGWIBODU_HAND_STACK
#define LONG 4096 /* bytes of a heap that is long for this unit */
#else
#include "../include/jagwibodu.h"
#define CALL(name) jagwibodu_##name
#define INITIALISE jagwibodu_initialise
#define WITH_A_NUMBER "IARHMF"
#define STACK JAGWIBODU_STACK
#define LONG 65536
#endif

#include <stdint.h>
#include <stdio.h>
#include <stdlib.h>
#include <string.h>

#define LONGEST 1048640 /* more than any heap may have */
#define GUARD 64
#define FILL 0xa5
#define STRETCH 4096 /* so many bytes are compared at once where nothing changed */

static _Alignas(8) uint8_t arena[GUARD + 8 + LONGEST + GUARD + 8];
static _Alignas(8) uint8_t shadow[sizeof arena];
static uint8_t *heap = arena + GUARD;
static uint64_t length;

static void fail(const char *why)
{
    fprintf(stderr, "driver: %s\n", why);
    exit(2);
}

static void read_bytes(uint8_t *to, uint64_t count)
{
    if (fread(to, 1, count, stdin) != count)
        fail("a command is cut short");
}

static uint64_t read_word(void)
{
    uint64_t word;
    read_bytes((uint8_t *)&word, 8);
    return word;
}

static void write_word(uint64_t word)
{
    fwrite(&word, 1, 8, stdout);
}

/* The bytes that are watched: the buffer and a guard on either side. */
static size_t used_arena(void)
{
    return ((size_t)(heap - arena) + length + GUARD + 7) / 8 * 8;
}

static void set_heap(void)
{
    uint64_t shift = read_word();

    length = read_word();
    if (shift > 7 || length > LONGEST)
        fail("no such buffer");
    heap = arena + GUARD + shift;
    memset(arena, shift % 2 ? 0 : FILL, used_arena());
    read_bytes(heap, length);
    memcpy(shadow, arena, used_arena());
}

static void poke(void)
{
    uint64_t offset = read_word();
    uint64_t count = read_word();

    if (offset > length || count > length - offset)
        fail("a poke outside the buffer");
    read_bytes(heap + offset, count);
    memcpy(shadow + (heap - arena) + offset, heap + offset, count);
}

static int word_changed(size_t at)
{
    return memcmp(arena + at, shadow + at, 8) != 0;
}

/* Where the next changed word is from here on, or the end. */
static size_t next_change(size_t at, size_t end)
{
    while (end - at >= STRETCH && memcmp(arena + at, shadow + at, STRETCH) == 0)
        at += STRETCH;
    while (at < end && !word_changed(at))
        at += 8;
    return at;
}

/* Where the run of changed words that begins here ends. */
static size_t change_end(size_t at, size_t end)
{
    while (at < end && word_changed(at))
        at += 8;
    return at;
}

static void write_changes(void)
{
    size_t end = used_arena();
    size_t stop;

    for (size_t at = next_change(0, end); at < end; at = next_change(stop, end)) {
        stop = change_end(at, end);
        write_word((uint64_t)at - (uint64_t)(heap - arena));
        write_word(stop - at);
        fwrite(arena + at, 1, stop - at, stdout);
        memcpy(shadow + at, arena + at, stop - at);
    }
    write_word(0);
    write_word(0);
}

/* The stack that a call uses is measured: the stretch below the caller's frame is painted, the call is made, and the
   lowest word that then has another colour tells how deep it went. A call's frame stands where the frame of `paint`
   stood, since both are called from the same function. What is counted begins at that function's own frame, so it is a
   little more than the call used, and never less. */
#define PAINTED 65536
#define COLOUR 0x5c5c5c5c5c5c5c5cu

static uintptr_t lowest; /* where the lowest painted word is; 0 where nothing is painted */
static uint64_t measured;
static uint64_t deepest;

/* The words are volatile: else the compiler leaves out what nobody reads before the function returns. */
static __attribute__((noinline)) void paint(void)
{
    volatile uint64_t stretch[PAINTED / 8];

    for (size_t i = 0; i < PAINTED / 8; i++)
        stretch[i] = COLOUR;
    lowest = (uintptr_t)stretch;
}

/* How far below `frame` the call went, where the stack was painted. */
static __attribute__((noinline)) void measure(const uint8_t *frame)
{
    volatile uint64_t *at = (volatile uint64_t *)lowest;

    if (lowest == 0)
        return;
    while ((const uint8_t *)at < frame && *at == COLOUR)
        at++;
    lowest = 0;
    measured++;
    if ((uint64_t)(frame - (const uint8_t *)at) > deepest)
        deepest = (uint64_t)(frame - (const uint8_t *)at);
}

/* A function whose use of the stack is known shows that measuring works; then counting begins. */
#define KNOWN 8192

static __attribute__((noinline)) void use_known(void)
{
    volatile uint64_t stretch[KNOWN / 8];

    for (size_t i = 0; i < KNOWN / 8; i++)
        stretch[i] = 0;
    (void)stretch[0];
}

static __attribute__((noinline)) void try_measure(void)
{
    paint();
    use_known();
    measure(__builtin_frame_address(0));
    if (deepest < KNOWN || deepest > KNOWN + 256)
        fail("the stack is not measured right");
    measured = 0;
    deepest = 0;
}

/* Calls on long heaps need most stack, so all of them are measured, and of the others every eighth. */
static int is_measured(void)
{
    static uint64_t calls;

    return length > LONG || calls++ % 8 == 0;
}

/* Each answer is flushed, so that a call that never comes back is known by what is missing. */
static void answer(uint64_t result)
{
    write_word(result);
    write_changes();
    fflush(stdout);
}

static __attribute__((noinline)) uint64_t called(int command, uint64_t first, uint64_t second)
{
    uint64_t result = 0;

    if (is_measured())
        paint();
    switch (command) {
    case 'I':
        result = INITIALISE(heap, length, first);
        break;
    case 'C':
        result = CALL(check)(heap, length);
        break;
    case 'A':
        result = CALL(allocate)(heap, length, first);
        break;
    case 'R':
        result = CALL(resize)(heap, length, first, second);
        break;
    case 'H':
        result = CALL(resize_in_place)(heap, length, first, second);
        break;
    case 'M':
        result = CALL(move)(heap, length, first, second);
        break;
    case 'F':
        result = CALL(free)(heap, length, first);
        break;
    case 'W':
        result = CALL(sweep)(heap, length);
        break;
    default:
        fail("no such command");
    }
    measure(__builtin_frame_address(0));
    return result;
}

static void call(int command)
{
    uint64_t first = strchr(WITH_A_NUMBER, command) ? read_word() : 0;
    uint64_t second = strchr("RHM", command) ? read_word() : 0;

    answer(called(command, first, second));
}

int main(void)
{
    int command;

    try_measure();
    while ((command = getchar()) != EOF) {
        if (command == 'S')
            set_heap();
        else if (command == 'P')
            poke();
        else
            call(command);
    }
    write_word(measured);
    write_word(deepest);
    write_word(STACK);
    return 0;
}
