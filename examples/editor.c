/* The form editor: it draws a remark straight from the heap, by a pointer that it holds. Before the remark gets longer
   the editor asks whether the record can stay. Where it cannot, the editor lets go of its pointer, moves the record and
   draws from the new place; and where there is no room to move to, it says so, and the remark is as it was. */
#include "jagwibodu.h"

#include <stdio.h>
#include <string.h>

enum { LENGTH = 10000, WIDTH = 60 };

static uint8_t heap[LENGTH];
static char report[2000];

static struct {
    uint64_t record;  /* the remark's address in the heap */
    const char *line; /* what the screen is drawn from: the record itself, or NULL while it may move */
} editor;

/* The end of the line, where the cursor is. */
static void draw(void)
{
    size_t length = strlen(editor.line);

    printf("  [%s]\n", length > WIDTH ? editor.line + length - WIDTH : editor.line);
}

/* From here on the remark is this record. */
static void take(uint64_t record)
{
    editor.record = record;
    editor.line = (const char *)heap + record;
}

static void open_remark(const char *text)
{
    take(JAGWIBODU_ADDRESS(jagwibodu_allocate(heap, LENGTH, strlen(text) + 1)));
    memcpy(heap + editor.record, text, strlen(text) + 1);
    printf("a remark at %u\n", (unsigned)editor.record);
    draw();
}

/* Gives the remark's record this size, where it stands or elsewhere; whether there was room. */
static int make_room(uint64_t size)
{
    uint64_t answer = jagwibodu_resize_in_place(heap, LENGTH, editor.record, size);

    if (JAGWIBODU_REFUSAL(answer) == JAGWIBODU_GRANTED) {
        printf("it stays at %u, and what is drawn stays right\n", (unsigned)JAGWIBODU_ADDRESS(answer));
        return 1;
    }
    editor.line = NULL;
    answer = jagwibodu_move(heap, LENGTH, editor.record, size);
    if (JAGWIBODU_REFUSAL(answer) == JAGWIBODU_GRANTED) {
        printf("it moves from %u to %u\n", (unsigned)editor.record, (unsigned)JAGWIBODU_ADDRESS(answer));
        take(JAGWIBODU_ADDRESS(answer));
        return 1;
    }
    printf("%s, the remark is as it was\n", jagwibodu_refusal_name(JAGWIBODU_REFUSAL(answer)));
    take(editor.record);
    return 0;
}

/* The remark gets longer by these words. */
static void type(const char *words)
{
    size_t old = strlen(editor.line);

    printf("%u characters more: ", (unsigned)strlen(words));
    if (make_room(old + strlen(words) + 1))
        memcpy(heap + editor.record + old, words, strlen(words) + 1);
    draw();
}

int main(void)
{
    jagwibodu_initialise(heap, LENGTH, JAGWIBODU_END(LENGTH));
    memset(report, '.', sizeof report - 1);
    open_remark("electrode 7");
    type(" + 8");
    type(" outside the cochlea"); /* to larger items */
    type("; the round window was opened twice, the array was drawn back by one contact and then went in without "
         "resistance; impedances of 1 to 6 are normal, 7 and 8 read as open, and did so again after rinsing; "
         "telemetry is repeated in recovery"); /* to a block */
    type("; X-ray ordered for tomorrow");
    type(report); /* pasted by mistake */
    type(", 8 o'clock");
    return 0;
}
