/* The ward's case: a remark is shortened on a full heap. It is not refused, it stays where it is, and no byte changes;
   a size of its own class changes the length that is kept of it; only one that is to hold more than it can is refused. */
#include "jagwibodu.h"

#include <stdio.h>
#include <string.h>

enum { LENGTH = 10000 };

static uint8_t heap[LENGTH];
static const char remark_text[] = "electrode 8 outside the cochlea, the round window was opened twice";
static const char letter_text[300] = "Dear colleague, the right ear was operated on today.";

/* Takes all the room there is for records of this size. */
static void fill(uint64_t size)
{
    while (JAGWIBODU_REFUSAL(jagwibodu_allocate(heap, LENGTH, size)) == JAGWIBODU_GRANTED)
        continue;
}

static uint64_t new_record(const char *text, uint64_t size)
{
    uint64_t address = JAGWIBODU_ADDRESS(jagwibodu_allocate(heap, LENGTH, size));

    memcpy(heap + address, text, size);
    return address;
}

/* Asks for another size of a record, and tells what came of it. */
static void resize(const char *what, uint64_t record, uint64_t size)
{
    static uint8_t before[LENGTH];
    uint64_t answer;
    unsigned header = 0, others = 0;

    memcpy(before, heap, LENGTH);
    answer = jagwibodu_resize(heap, LENGTH, record, size);
    printf("%s to %u bytes: ", what, (unsigned)size);
    if (JAGWIBODU_REFUSAL(answer) != JAGWIBODU_GRANTED)
        printf("refused, %s", jagwibodu_refusal_name(JAGWIBODU_REFUSAL(answer)));
    else
        printf("granted, %s", JAGWIBODU_ADDRESS(answer) == record ? "where it was" : "elsewhere");
    for (size_t i = 0; i < LENGTH; i++)
        *(i < record && i + 8 >= record ? &header : &others) += before[i] != heap[i];
    if (header + others == 0)
        printf(", and no byte changed\n");
    else
        printf(", and %u bytes of its header changed, and %u others\n", header, others);
}

int main(void)
{
    uint64_t remark, letter;

    jagwibodu_initialise(heap, LENGTH, JAGWIBODU_END(LENGTH));
    remark = new_record(remark_text, sizeof remark_text);
    letter = new_record(letter_text, sizeof letter_text);
    fill(sizeof letter_text);
    fill(sizeof remark_text);
    printf("the heap is full, with a remark of %u bytes and a letter of %u\n", (unsigned)sizeof remark_text, (unsigned)sizeof letter_text);
    resize("remark", remark, 32); /* it would go to a page of smaller items, and there is no room for one */
    resize("remark", remark, 8);
    resize("remark", remark, 72); /* as many as it can hold: this length is kept from now on, in its header */
    resize("remark", remark, 73);
    resize("letter", letter, 128); /* so would this one */
    resize("letter", letter, 1000);
    printf("remark: %s\nletter: %s\n", (const char *)heap + remark, (const char *)heap + letter);
    return 0;
}
