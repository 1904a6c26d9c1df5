/* The handset takes over the forms: what the console's heap holds is copied, record by record, into a hand unit's heap,
   which is smaller and has words of 4 bytes. Both archives are linked, and neither's calls take the other's heap.
   With the name of a file it writes the handset's heap into it, for `show`. */
#include "jagwibodu.h"
#include "jagwibodu_hand.h"

#include <stdio.h>
#include <string.h>

enum { CONSOLE = 65536, HANDSET = 1024, FORMS = 4, TIME = 3, DRAWING = 560 };

static uint8_t console[CONSOLE], handset[HANDSET];
static const char letter[] = "Dear colleague, the right ear was operated on today. The round window was opened twice, "
                             "and then the array went in without resistance.";
static const char *const texts[FORMS] = { "left ear: all electrodes inserted", "right ear: electrode 8 outside the cochlea",
    letter, "8:00" };
static size_t written[FORMS], taken[FORMS];

/* Whether all could be written. */
static int write_on_console(void)
{
    jagwibodu_initialise(console, CONSOLE, JAGWIBODU_END(CONSOLE));
    for (int i = 0; i < FORMS; i++) {
        written[i] = JAGWIBODU_ADDRESS(jagwibodu_allocate(console, CONSOLE, strlen(texts[i]) + 1));
        if (written[i] == 0)
            return 0;
        strcpy((char *)console + written[i], texts[i]);
    }
    return 1;
}

/* Whether all could be taken over. */
static int take_over(void)
{
    jagwibodu_hand_initialise(handset, HANDSET);
    for (int i = 0; i < FORMS; i++) {
        const char *text = (const char *)console + written[i];

        taken[i] = JAGWIBODU_ADDRESS(jagwibodu_hand_allocate(handset, HANDSET, strlen(text) + 1));
        if (taken[i] == 0)
            return 0;
        strcpy((char *)handset + taken[i], text);
    }
    return 1;
}

static void tell(const char *what, uint64_t answer)
{
    printf("%s: %s\n", what, jagwibodu_refusal_name(JAGWIBODU_REFUSAL(answer)));
}

static void save(const char *path)
{
    FILE *file = fopen(path, "wb");

    if (file) {
        fwrite(handset, 1, HANDSET, file);
        fclose(file);
    }
}

int main(int count, char **words)
{
    if (!write_on_console() || !take_over())
        return 1;
    for (int i = 0; i < FORMS; i++)
        printf("at %u on the console, at %u on the handset: %s\n", (unsigned)written[i], (unsigned)taken[i], (char *)handset + taken[i]);
    tell("the handset's heap", jagwibodu_hand_check(handset, HANDSET));
    tell("the handset's heap, lent to the console's call", jagwibodu_check(handset, HANDSET));
    tell("the console's heap, lent to the handset's call", jagwibodu_hand_check(console, CONSOLE));
    tell("the time is given back", jagwibodu_hand_free(handset, HANDSET, taken[TIME]));
    tell("a drawing", jagwibodu_hand_allocate(handset, HANDSET, DRAWING));
    printf("a sweep gives back %u page\n", (unsigned)JAGWIBODU_PAGES(jagwibodu_hand_sweep(handset, HANDSET)));
    tell("a drawing", jagwibodu_hand_allocate(handset, HANDSET, DRAWING));
    if (count > 1)
        save(words[1]);
    return 0;
}
