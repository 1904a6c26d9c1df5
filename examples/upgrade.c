/* The console has a new program, which opens the heap that the old one left in the night. The old one kept records of
   129 to 256 bytes in pages; now each has a block of its own, and the classes of those pages are closed. The night's
   letters stay as they are, no new one joins them, and once the last is freed or moved a sweep gives their page back.
   It is given the names of three files: the heap of the night, which compare/former.py makes, and two into which it
   writes the heap, before that sweep and at the end; `show` tells of all three. */
#include "jagwibodu.h"

#include <stdio.h>
#include <string.h>

enum { LENGTH = 10000, LIST = 328, LETTERS = 5, DRAWING = 4000 };

static uint8_t heap[LENGTH];

/* The list of the letters' addresses, 0 where one is gone, is itself a record: the first in the heap. */
static uint64_t letter(int i)
{
    uint64_t address;

    memcpy(&address, heap + LIST + i * sizeof address, sizeof address);
    return address;
}

static void set_letter(int i, uint64_t address)
{
    memcpy(heap + LIST + i * sizeof address, &address, sizeof address);
}

static const char *text(int i)
{
    return (const char *)heap + letter(i);
}

static void print_letters(void)
{
    for (int i = 0; i < LETTERS; i++)
        if (letter(i) != 0)
            printf("  at %u, %u bytes: %.40s ..\n", (unsigned)letter(i), (unsigned)strlen(text(i)) + 1, text(i));
}

/* Tells a call's answer, and gives its address. */
static uint64_t tell(const char *what, uint64_t answer)
{
    printf("%s: %s", what, jagwibodu_refusal_name(JAGWIBODU_REFUSAL(answer)));
    if (JAGWIBODU_ADDRESS(answer) != 0)
        printf(", at %u", (unsigned)JAGWIBODU_ADDRESS(answer));
    printf("\n");
    return JAGWIBODU_ADDRESS(answer);
}

/* A size of the letter's own class: it can have it where it stands. */
static void sign(int i)
{
    size_t old = strlen(text(i));
    uint64_t address = tell("a letter is signed", jagwibodu_resize_in_place(heap, LENGTH, letter(i), old + sizeof " JS"));

    if (address != 0)
        memcpy(heap + address + old, " JS", sizeof " JS");
}

/* The letter's own size: it moves to a block. */
static void move(int i)
{
    uint64_t address = tell("a letter is moved", jagwibodu_move(heap, LENGTH, letter(i), strlen(text(i)) + 1));

    if (address != 0)
        set_letter(i, address);
}

static void give_back(int i)
{
    tell("a letter is given back", jagwibodu_free(heap, LENGTH, letter(i)));
    set_letter(i, 0);
}

static void sweep(void)
{
    printf("pages that a sweep gives back: %u\n", (unsigned)JAGWIBODU_PAGES(jagwibodu_sweep(heap, LENGTH)));
}

static void take_drawing(void)
{
    tell("a drawing", jagwibodu_allocate(heap, LENGTH, DRAWING));
}

/* Reads the heap from a file, or writes it into one; whether that could be done. */
static int load(const char *path)
{
    FILE *file = fopen(path, "rb");
    int done = file != NULL && fread(heap, 1, LENGTH, file) == LENGTH;

    return file != NULL && fclose(file) == 0 && done;
}

static int save(const char *path)
{
    FILE *file = fopen(path, "wb");
    int done = file != NULL && fwrite(heap, 1, LENGTH, file) == LENGTH;

    return file != NULL && fclose(file) == 0 && done;
}

int main(int count, char **words)
{
    uint64_t answer;

    if (count != 4 || !load(words[1])) {
        fprintf(stderr, "a heap of the night is wanted, and the names of two files to write\n");
        return 1;
    }
    answer = jagwibodu_check(heap, LENGTH);
    tell("the heap of the night", answer);
    if (JAGWIBODU_REFUSAL(answer) != JAGWIBODU_GRANTED)
        return 1;
    print_letters();
    take_drawing();
    tell("a new letter, as long as these", jagwibodu_allocate(heap, LENGTH, strlen(text(0)) + 1)); /* not in their page */
    sign(0);
    for (int i = 1; i < LETTERS - 1; i++)
        give_back(i);
    sweep(); /* two letters are still in their page */
    move(0);
    move(LETTERS - 1);
    if (!save(words[2]))
        return 1;
    sweep();
    take_drawing(); /* where the page was */
    print_letters();
    return !save(words[3]);
}
