/* The morning's start-up: thousands of tiny records are made and freed again, while the night's few stay. Each page that
   held tiny records is still kept for its size, so a large record finds no room, until one sweep gives these pages back.
   With the names of two files it writes the heap into them, before and after that sweep, for `show`. */
#include "jagwibodu.h"

#include <stdio.h>
#include <string.h>

enum { LENGTH = 65536, NIGHT = 3, MOST = 4096, X_RAY = 40000 };

static uint8_t heap[LENGTH];
static uint64_t night[NIGHT], tiny[MOST];
static const char *const night_texts[NIGHT] = { "8:00", "right ear: electrode 8 outside the cochlea",
    "Dear colleague, the right ear was operated on today. The round window was opened twice, the array was drawn back by "
    "one contact and then went in without resistance. Impedances of 1 to 6 are normal, 7 and 8 read as open, and did so "
    "again after rinsing. Telemetry is repeated in recovery, and an X-ray is ordered." };

static void make_night_records(void)
{
    for (int i = 0; i < NIGHT; i++) {
        size_t size = strlen(night_texts[i]) + 1;

        night[i] = JAGWIBODU_ADDRESS(jagwibodu_allocate(heap, LENGTH, size));
        memcpy(heap + night[i], night_texts[i], size);
    }
}

static int night_records_kept(void)
{
    int kept = 0;

    for (int i = 0; i < NIGHT; i++)
        kept += strcmp((const char *)heap + night[i], night_texts[i]) == 0;
    return kept;
}

/* Makes tiny records of a few sizes in turn until there is no room; answers how many. */
static int start_up(void)
{
    static const uint64_t sizes[] = { 4, 8, 13, 20 };
    int count = 0;

    while (count < MOST) {
        uint64_t answer = jagwibodu_allocate(heap, LENGTH, sizes[count % 4]);

        if (JAGWIBODU_REFUSAL(answer) != JAGWIBODU_GRANTED)
            break;
        tiny[count++] = JAGWIBODU_ADDRESS(answer);
    }
    return count;
}

static void free_tiny_records(int count)
{
    for (int i = 0; i < count; i++)
        jagwibodu_free(heap, LENGTH, tiny[i]);
}

static void take_x_ray(void)
{
    uint64_t answer = jagwibodu_allocate(heap, LENGTH, X_RAY);

    printf("an X-ray of %d bytes: %s\n", X_RAY, jagwibodu_refusal_name(JAGWIBODU_REFUSAL(answer)));
}

static void sweep(const char *which)
{
    uint64_t answer = jagwibodu_sweep(heap, LENGTH);

    printf("%s: %s, %u pages came back\n", which, jagwibodu_refusal_name(JAGWIBODU_REFUSAL(answer)),
           (unsigned)JAGWIBODU_PAGES(answer));
}

static int save(const char *path)
{
    FILE *file = fopen(path, "wb");
    int done = file != NULL && fwrite(heap, 1, LENGTH, file) == LENGTH;

    if (file == NULL || fclose(file) != 0 || !done) {
        fprintf(stderr, "%s cannot be written\n", path);
        return 0;
    }
    return 1;
}

int main(int count, char **words)
{
    int made, saving = count == 3;

    jagwibodu_initialise(heap, LENGTH, JAGWIBODU_END(LENGTH));
    make_night_records();
    made = start_up();
    free_tiny_records(made);
    printf("%d tiny records made and freed\n", made);
    take_x_ray();
    if (saving && !save(words[1]))
        return 1;
    sweep("a sweep");
    if (saving && !save(words[2]))
        return 1;
    sweep("a second one");
    take_x_ray();
    printf("of the %d records of the night %d are as they were\n", NIGHT, night_records_kept());
    return 0;
}
