/* A console's host in small: one heap keeps the electrode insertion forms of a patient's two ears, with a remark and a
   list of readings that grows as they come in. The heap begins small and grows too, which is told, page by page. Every
   refusal is told, and what was refused is not there. With the name of a file it writes the heap into it, as it is with
   all forms, for `show`. */
#include "jagwibodu.h"

#include <stdio.h>
#include <string.h>

#ifndef LENGTH
#define LENGTH 65536
#endif

enum { ELECTRODES = 8, READING = ELECTRODES * sizeof(uint16_t) };

static uint8_t heap[LENGTH];

/* A form; what it refers to are addresses in the heap, 0 where there is none. */
struct form {
    char ear[8];
    uint64_t remark;
    uint64_t readings; /* ELECTRODES impedances in ohms for each reading */
    uint64_t count;
};

/* How many of the buffer's bytes are the heap's, as it says itself. */
static uint64_t end_of_heap(void)
{
    uint64_t end = 0;

    for (int i = 7; i >= 0; i--)
        end = end << 8 | heap[JAGWIBODU_END_AT + i];
    return end;
}

/* The address of an answer; 0, with a line, where the call was refused. A line too where the heap's end has moved. */
static uint64_t granted(const char *what, uint64_t answer)
{
    static uint64_t told;

    if (JAGWIBODU_REFUSAL(answer) != JAGWIBODU_GRANTED)
        printf("%s: refused, %s\n", what, jagwibodu_refusal_name(JAGWIBODU_REFUSAL(answer)));
    else if (end_of_heap() != told) {
        told = end_of_heap();
        printf("%s: the heap has %u of %u bytes\n", what, (unsigned)told, (unsigned)LENGTH);
    }
    return JAGWIBODU_ADDRESS(answer);
}

/* Records are copied out and in, so the buffer may stand anywhere in memory. */
static struct form load(uint64_t address)
{
    struct form form;

    memcpy(&form, heap + address, sizeof form);
    return form;
}

static void store(uint64_t address, struct form form)
{
    memcpy(heap + address, &form, sizeof form);
}

static uint64_t new_form(const char *ear)
{
    uint64_t address = granted("new form", jagwibodu_allocate(heap, LENGTH, sizeof(struct form)));
    struct form form;

    memset(&form, 0, sizeof form);
    strncpy(form.ear, ear, sizeof form.ear - 1);
    if (address != 0)
        store(address, form);
    return address;
}

static void set_remark(uint64_t at, const char *text)
{
    uint64_t address = at == 0 ? 0 : granted("remark", jagwibodu_allocate(heap, LENGTH, strlen(text) + 1));
    struct form form;

    if (address == 0)
        return;
    memcpy(heap + address, text, strlen(text) + 1);
    form = load(at);
    form.remark = address;
    store(at, form);
}

/* One reading more: the list is allocated with the first and resized with each later one. */
static void add_reading(uint64_t at, const uint16_t *ohms)
{
    struct form form;
    uint64_t list;

    if (at == 0)
        return;
    form = load(at);
    list = form.count == 0 ? granted("first reading", jagwibodu_allocate(heap, LENGTH, READING))
                           : granted("reading", jagwibodu_resize(heap, LENGTH, form.readings, (form.count + 1) * READING));
    if (list == 0)
        return; /* refused: the readings so far are as they were */
    memcpy(heap + list + form.count * READING, ohms, READING);
    form.readings = list;
    form.count++;
    store(at, form);
}

static void print_form(uint64_t at)
{
    struct form form;
    uint16_t ohms[ELECTRODES];

    if (at == 0) {
        printf("no form\n");
        return;
    }
    form = load(at);
    printf("%s ear: %s\n", form.ear, form.remark == 0 ? "(no remark)" : (const char *)(heap + form.remark));
    for (uint64_t reading = 0; reading < form.count; reading++) {
        memcpy(ohms, heap + form.readings + reading * READING, READING);
        printf("  reading %u:", (unsigned)reading + 1);
        for (int electrode = 0; electrode < ELECTRODES; electrode++)
            printf(" %u", (unsigned)ohms[electrode]);
        printf("\n");
    }
}

static void free_form(uint64_t at)
{
    struct form form;

    if (at == 0)
        return;
    form = load(at);
    if (form.readings != 0)
        granted("free readings", jagwibodu_free(heap, LENGTH, form.readings));
    if (form.remark != 0)
        granted("free remark", jagwibodu_free(heap, LENGTH, form.remark));
    granted("free form", jagwibodu_free(heap, LENGTH, at));
}

/* Checks what the buffer holds, and opens a heap where it holds none, the smallest that there is. */
static int open_heap(void)
{
    uint64_t answer = jagwibodu_check(heap, LENGTH);

    if (JAGWIBODU_REFUSAL(answer) == JAGWIBODU_NOT_OPENED)
        answer = jagwibodu_initialise(heap, LENGTH, JAGWIBODU_SHORTEST);
    granted("open", answer);
    return JAGWIBODU_REFUSAL(answer) == JAGWIBODU_GRANTED;
}

static int save(const char *path)
{
    FILE *file = fopen(path, "wb");
    int done = file != NULL && fwrite(heap, 1, LENGTH, file) == LENGTH;

    return file != NULL && fclose(file) == 0 && done;
}

int main(int count, char **words)
{
    uint64_t left, right;
    uint16_t ohms[ELECTRODES];

    if (!open_heap())
        return 1;
    left = new_form("left");
    right = new_form("right");
    set_remark(left, "all electrodes inserted");
    set_remark(right, "electrode 8 outside the cochlea");
    for (int reading = 0; reading < 3; reading++) {
        for (int electrode = 0; electrode < ELECTRODES; electrode++)
            ohms[electrode] = (uint16_t)(5000 + 100 * electrode + 10 * reading);
        add_reading(left, ohms);
        for (int electrode = 0; electrode < ELECTRODES; electrode++)
            ohms[electrode] = (uint16_t)(7000 + 100 * electrode + 10 * reading);
        add_reading(right, ohms);
    }
    print_form(left);
    print_form(right);
    printf("the heap is %s\n", JAGWIBODU_REFUSAL(jagwibodu_check(heap, LENGTH)) == JAGWIBODU_GRANTED ? "sound" : "damaged");
    if (count > 1 && !save(words[1]))
        return 1;
    free_form(left);
    free_form(right);
    printf("with no form left the heap has %u bytes\n", (unsigned)end_of_heap());
    granted("free the left form again", jagwibodu_free(heap, LENGTH, left));
    granted("open again", jagwibodu_initialise(heap, LENGTH, JAGWIBODU_SHORTEST));
    granted("a record as long as the buffer", jagwibodu_allocate(heap, LENGTH, LENGTH));
    heap[20]++;
    granted("a damaged heap", jagwibodu_allocate(heap, LENGTH, 8));
    memset(heap, 0, 8); /* to start anew */
    granted("open with more than there is", jagwibodu_initialise(heap, LENGTH, JAGWIBODU_END(LENGTH) + 8));
    granted("open with all that there is", jagwibodu_initialise(heap, LENGTH, JAGWIBODU_END(LENGTH)));
    return 0;
}
