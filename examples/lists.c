/* Two lists of one day, on one heap that begins small and is opened once. After the first list all its records are
   freed, in another order than they were made, and one sweep brings the heap back: it is as if it had just been opened
   with the end that it has by now. This is shown beside a heap that is really opened anew. Two things do not come back:
   the heap stays as long as it has grown, and what the records held can still be read in the buffer.
   With the name of a file it writes the heap into it, straight after that sweep, for `show`. */
#include "jagwibodu.h"

#include <stdio.h>
#include <string.h>

/* The heap's own bytes, which stand before its first block, and those that a block has besides its record. */
enum { LENGTH = 65536, OWN = 312, TAGS = 16 };

enum { FORM, REMARK, READINGS, LETTER, DRAWING, RECORDS };

static uint8_t heap[LENGTH], other[LENGTH];
static const char remark[] = "right ear: electrode 8 outside the cochlea";

/* Where the heap in a buffer ends, as it says itself. */
static uint64_t end_of(const uint8_t *buffer)
{
    uint64_t end = 0;

    for (int i = 7; i >= 0; i--)
        end = end << 8 | buffer[JAGWIBODU_END_AT + i];
    return end;
}

/* Tells a call's answer and where the heap then ends, and gives the address. */
static uint64_t tell(const char *what, uint64_t answer)
{
    printf("  %s: %s", what, jagwibodu_refusal_name(JAGWIBODU_REFUSAL(answer)));
    if (JAGWIBODU_ADDRESS(answer) != 0)
        printf(", at %u", (unsigned)JAGWIBODU_ADDRESS(answer));
    printf("; the heap ends at %u\n", (unsigned)end_of(heap));
    return JAGWIBODU_ADDRESS(answer);
}

/* Makes the first list's records and writes into them; whether there was room for all. */
static int make_records(uint64_t *records)
{
    static const char *const names[RECORDS] = { "a form", "a remark", "readings", "a letter", "a drawing" };
    static const uint64_t sizes[RECORDS] = { 32, sizeof remark, 16, 300, 5000 };

    for (int i = 0; i < RECORDS; i++) {
        records[i] = tell(names[i], jagwibodu_allocate(heap, LENGTH, sizes[i]));
        if (records[i] == 0)
            return 0;
        memset(heap + records[i], '.', sizes[i]);
    }
    memcpy(heap + records[REMARK], remark, sizeof remark);
    return 1;
}

/* A record's address after a call that may have moved it; a refused one leaves it where it was. */
static void change(const char *what, uint64_t *record, uint64_t answer)
{
    uint64_t address = tell(what, answer);

    if (address != 0)
        *record = address;
}

static void change_records(uint64_t *records)
{
    change("the remark moves", &records[REMARK], jagwibodu_move(heap, LENGTH, records[REMARK], sizeof remark));
    change("more readings", &records[READINGS], jagwibodu_resize(heap, LENGTH, records[READINGS], 64));
    change("a longer letter", &records[LETTER], jagwibodu_resize(heap, LENGTH, records[LETTER], 700));
    change("a smaller drawing", &records[DRAWING], jagwibodu_resize_in_place(heap, LENGTH, records[DRAWING], 2000));
    tell("a film as long as the buffer", jagwibodu_allocate(heap, LENGTH, LENGTH));
}

static void free_records(const uint64_t *records)
{
    static const int order[RECORDS] = { LETTER, FORM, DRAWING, READINGS, REMARK };
    int freed = 0;

    for (int i = 0; i < RECORDS; i++)
        freed += JAGWIBODU_REFUSAL(jagwibodu_free(heap, LENGTH, records[order[i]])) == JAGWIBODU_GRANTED;
    printf("of its %d records %d are freed\n", RECORDS, freed);
}

static unsigned differing(const uint8_t *one, const uint8_t *another, size_t count)
{
    unsigned differ = 0;

    for (size_t i = 0; i < count; i++)
        differ += one[i] != another[i];
    return differ;
}

/* Opens a heap in the other buffer, over whatever it holds, with the end that the first heap has now. */
static void open_other(void)
{
    memset(other, 0, 8); /* else initialise may find a heap in it */
    jagwibodu_initialise(other, LENGTH, end_of(heap));
}

/* Opens a copy of the buffer anew: where no byte differs then, all that initialise writes stood there already. */
static void compare_with_copy(void)
{
    memcpy(other, heap, LENGTH);
    open_other();
    printf("  a copy is opened anew: %u of its %u bytes differ\n", differing(heap, other, LENGTH), (unsigned)LENGTH);
}

static void compare_with_opening(const uint8_t *opened)
{
    const size_t behind = JAGWIBODU_END_AT + 8;
    unsigned differ = differing(heap, opened, JAGWIBODU_END_AT);

    differ += differing(heap + behind, opened + behind, OWN - behind);
    printf("  of its first %u bytes %u have changed since it was opened, but for its end, which was %u and is %u\n",
           (unsigned)OWN, differ, (unsigned)end_of(opened), (unsigned)end_of(heap));
}

/* One free block fills the rest: it becomes one record, for which the heap need not grow, and is given back. */
static void take_all(void)
{
    uint64_t record = tell("a record of all the rest", jagwibodu_allocate(heap, LENGTH, end_of(heap) - OWN - TAGS));

    jagwibodu_free(heap, LENGTH, record);
}

/* Nothing is cleared: neither where it stood last, nor where it moved from. */
static void find_remark(void)
{
    printf("  the remark can still be read at");
    for (size_t i = 0; i + sizeof remark <= LENGTH; i++)
        if (memcmp(heap + i, remark, sizeof remark) == 0)
            printf(" %u", (unsigned)i);
    printf("\n");
}

/* The second list, with no opening before it, and the same in a cleared buffer that is opened for it. */
static void play_second_list(void)
{
    static const uint64_t sizes[] = { 2000, 8, 100, 300, 8, 9000, 128, 129 };

    memset(other, 0, LENGTH);
    open_other();
    for (size_t i = 0; i < sizeof sizes / sizeof *sizes; i++) {
        uint64_t here = jagwibodu_allocate(heap, LENGTH, sizes[i]);
        uint64_t there = jagwibodu_allocate(other, LENGTH, sizes[i]);

        printf("  %u bytes: at %u, and at %u in a heap that is opened for it\n", (unsigned)sizes[i],
               (unsigned)JAGWIBODU_ADDRESS(here), (unsigned)JAGWIBODU_ADDRESS(there));
    }
    printf("  the heaps end at %u and at %u\n", (unsigned)end_of(heap), (unsigned)end_of(other));
}

static int save(const char *path)
{
    FILE *file = fopen(path, "wb");
    int done = file != NULL && fwrite(heap, 1, LENGTH, file) == LENGTH;

    return file != NULL && fclose(file) == 0 && done;
}

int main(int count, char **words)
{
    static uint8_t opened[OWN];
    uint64_t records[RECORDS];

    jagwibodu_initialise(heap, LENGTH, JAGWIBODU_SHORTEST);
    memcpy(opened, heap, OWN);
    printf("the first list, in a heap that is opened with the end %u\n", (unsigned)end_of(heap));
    if (!make_records(records))
        return 1;
    change_records(records);
    free_records(records);
    compare_with_copy(); /* some do differ: its pages are still there */
    printf("a sweep gives back %u pages\n", (unsigned)JAGWIBODU_PAGES(jagwibodu_sweep(heap, LENGTH)));
    if (count > 1 && !save(words[1]))
        return 1;
    compare_with_copy();
    compare_with_opening(opened);
    take_all();
    find_remark();
    printf("the second list, in the same heap\n");
    play_second_list();
    return 0;
}
