#include "twin.h"

#include <stdbool.h>
#include <string.h>

enum kind { FREE = 0, VARIABLE = 2, PAGE = 3 };

/* What a word's size decides: the console's heap has words of 8 bytes, the hand unit's has words of 4. Of its classes the
   lowest are handed out, as many as are offered; the others are closed, and older heaps may still have pages of them. A
   heap that grows may end before its buffer does. */
#if TWIN_WORD == 8
typedef uint64_t word;
static const uint64_t MAGIC = 0x01636f6c6c617978;
enum { LONGEST = 1048576, CLASSES = 32, OFFERED = 16, SMALLEST_PAGE = 4112, WORD_SHIFT = 3, GROWS = true };

/* The items of a page of each class: 4,096 divided by the item's size, and one more. */
static const uint16_t page_items[CLASSES] = {
    257, 171, 129, 103, 86, 74, 65, 57,
    52, 47, 43, 40, 37, 35, 33, 31,
    29, 27, 26, 25, 24, 23, 22, 21,
    20, 19, 19, 18, 18, 17, 17, 16,
};

static uint64_t items_in_page(uint64_t class)
{
    return page_items[class];
}

/* A function of its own at run time too: so the compiler keeps its loop over a page's items in registers. */
#define LONG_LOOP __attribute__((noinline))
#elif TWIN_WORD == 4
typedef uint32_t word;
static const uint64_t MAGIC = 0x02636f6c6c617978;
enum { LONGEST = 65536, CLASSES = 16, OFFERED = 16, SMALLEST_PAGE = 32, WORD_SHIFT = 2, GROWS = false };

static uint64_t items_in_page(uint64_t class)
{
    (void)class;
    return 2;
}

/* For two items a call costs more than it spares. */
#define LONG_LOOP
#else
#error "TWIN_WORD: 8 or 4"
#endif

/* What follows from it. The magic number has 8 bytes in both heaps; all else that is stored is a word. */
enum {
    WORD = 1 << WORD_SHIFT,
    DATA_AREA_WORD = 8,
    INDEX_PAGE_WORD = DATA_AREA_WORD + WORD,
    FIRST_FREE = INDEX_PAGE_WORD + WORD,
    STORED_END = FIRST_FREE + WORD,
    INDEX_LOW_TAG = STORED_END + WORD,
    INDEX_PAGE = INDEX_LOW_TAG + WORD,
    INDEX_HIGH_TAG = INDEX_PAGE + WORD * CLASSES,
    DATA_AREA = INDEX_HIGH_TAG + WORD,
    INDEX_TAG = DATA_AREA - INDEX_LOW_TAG + PAGE,
    TAGS = 2 * WORD,
    LARGEST_SIZE = LONGEST,
    LARGEST_ITEM = 8 * OFFERED, /* that is handed out */
    SMALLEST_FREE = 4 * WORD,
    SMALLEST_VARIABLE = LARGEST_ITEM + 8 + TAGS,
    SHORTEST = DATA_AREA + SMALLEST_FREE,
    MOST_PAGES = (LONGEST - DATA_AREA) / SMALLEST_PAGE,
    NEXT_SHIFT = 4 + WORD_SHIFT, /* in a free item's header, above class and flags: the next one's offset in words */
    MAP_WORDS = LONGEST / WORD / 64,
    CHUNK = 128
};

enum refusal {
    GRANTED,
    BAD_LENGTH,
    NO_HEAP,
    NOT_SOUND,
    BAD_SIZE,
    BAD_ADDRESS,
    NO_ROOM,
    ALREADY,
    BAD_END
};

static uint64_t refuse(enum refusal number)
{
    return (uint64_t)number << 32;
}

static uint64_t get(const uint8_t *h, uint64_t position)
{
    word stored;
    memcpy(&stored, h + position, WORD);
    return stored;
}

static void put(uint8_t *h, uint64_t position, uint64_t number)
{
    word stored = (word)number;
    memcpy(h + position, &stored, WORD);
}

static bool has_magic(const uint8_t *h)
{
    uint64_t first;
    memcpy(&first, h, 8);
    return first == MAGIC;
}

/* The end of a buffer; and of the heap in it, which says itself how far it has grown. */
static uint64_t end_of(size_t n)
{
    return n & ~(uint64_t)7;
}

static uint64_t end_in(const uint8_t *h, size_t n)
{
    return GROWS ? get(h, STORED_END) : end_of(n);
}

/* Blocks. */

static uint64_t kind_of(uint64_t tag)
{
    return tag & 7;
}

static uint64_t size_of(uint64_t tag)
{
    return tag & ~(uint64_t)7;
}

static uint64_t need_of(uint64_t size)
{
    return ((size + 7) & ~(uint64_t)7) + TAGS;
}

static uint64_t next_of(const uint8_t *h, uint64_t block)
{
    return get(h, block + WORD);
}

static uint64_t previous_of(const uint8_t *h, uint64_t block)
{
    return get(h, block + size_of(get(h, block)) - 2 * WORD);
}

static void put_tags(uint8_t *h, uint64_t block, uint64_t size, uint64_t kind)
{
    put(h, block, size + kind);
    put(h, block + size - WORD, size + kind);
}

/* Items. */

static uint64_t class_of(uint64_t size)
{
    return (size - 1) / 8;
}

static uint64_t item_size(uint64_t class)
{
    return 8 * class + 8 + WORD;
}

static uint64_t class_in(uint64_t header)
{
    return header / 4 % CLASSES;
}

static uint64_t next_in(uint64_t header)
{
    return (header >> NEXT_SHIFT) * WORD;
}

static uint64_t free_header(uint64_t class, uint64_t next)
{
    return 16 * next + 4 * class + 1;
}

/* The size is 0 where it is not known, as in heaps from before it was kept. */
static uint64_t used_header(uint64_t class, uint64_t size)
{
    return 128 * size + 4 * class + 3;
}

static uint64_t asked_in(uint64_t header)
{
    return header / 128;
}

/* Whether a header that is so far above the one for the least size of a class is of a size of that class. The
   differences of many headers may be or-ed first. */
static bool same_class(uint64_t above)
{
    return above % 128 + above / 1024 == 0;
}

static uint64_t least_header(uint64_t class)
{
    return used_header(class, 8 * class + 1);
}

static uint64_t head_of(const uint8_t *h, uint64_t class)
{
    return get(h, INDEX_PAGE + WORD * class);
}

static void put_head(uint8_t *h, uint64_t class, uint64_t offset)
{
    put(h, INDEX_PAGE + WORD * class, offset);
}

/* The check. The map has a bit for each word from the index page on, so that a free item's header has the number of
   the next item's bit above class and flags. A bit that is set marks the free item whose header stands there; bit 0,
   the end of a list, has never a mark. The lists have to show as many marked items as there are: an item names one
   next item, so a list that ends shows none twice. */

struct marks {
    uint64_t count;
    uint64_t top; /* the bits below it are cleared; from it on there is no mark */
    uint64_t map[MAP_WORDS];
};

/* Low bits that ought to be 0 become the highest: one comparison refuses them and a number that is too large. */
static uint64_t rotate_right(uint64_t number, unsigned bits)
{
    return number >> bits | number << (64 - bits);
}

static uint64_t bit_of(uint64_t position)
{
    return (position - INDEX_PAGE) / WORD;
}

/* Blocks are eights of bytes long. */
static uint64_t words_in(uint64_t eights)
{
    return 8 / WORD * eights;
}

/* Whether a heap in a buffer of n bytes may end there. */
static bool may_end(size_t n, uint64_t end)
{
    if (!GROWS)
        return end == end_of(n);
    return rotate_right(end - SHORTEST, 3) <= (n - SHORTEST) / 8;
}

static bool fixed_words_right(const uint8_t *h, size_t n)
{
    return get(h, DATA_AREA_WORD) == DATA_AREA && get(h, INDEX_PAGE_WORD) == INDEX_PAGE && may_end(n, get(h, STORED_END))
        && get(h, INDEX_LOW_TAG) == INDEX_TAG && get(h, INDEX_HIGH_TAG) == INDEX_TAG;
}

/* Clears the map up to a bit and as far again, so that few pages have to. */
static void clear_to(struct marks *marks, uint64_t bit)
{
    uint64_t words = 2 * (bit / 64 + 1);

    if (words > MAP_WORDS)
        words = MAP_WORDS;
    memset(marks->map + marks->top / 64, 0, 8 * words - marks->top / 8);
    marks->top = 64 * words;
}

/* Whether each item in use of a page has a size of its class, or one that is not known. */
static bool sizes_right(const uint8_t *h, uint64_t page, uint64_t class)
{
    uint64_t position = page + WORD;

    for (uint64_t left = items_in_page(class); left != 0; left--) {
        uint64_t header = get(h, position);
        if (header & 2 && header != used_header(class, 0) && !same_class(header - least_header(class)))
            return false;
        position += item_size(class);
    }
    return true;
}

/* Whether a page of so many words is right; marks its free items, and counts them. What a free item's header has
   besides the next item, and one in use besides the size, is judged once, of all together; items in use are looked at
   one by one only where the size of some is not known, or wrong. */
static LONG_LOOP bool page_right(const uint8_t *h, uint64_t page, uint64_t words, struct marks *marks)
{
    uint64_t class = class_in(get(h, page + WORD));
    uint32_t step = item_size(class) / WORD;
    uint64_t need = items_in_page(class) * step;
    uint64_t bit = bit_of(page + WORD);
    uint64_t stop = bit + need;
    uint64_t count = marks->count;
    uint64_t wrong = 0;
    uint64_t above = 0;

    if (words - 2 - need > 3)
        return false;
    /* the sum of 32 bits keeps the compiler from counting the place beside the bit */
    for (; bit < stop; bit = (uint32_t)bit + step) {
        uint64_t header = get(h, INDEX_PAGE + WORD * bit);
        if (header & 2) {
            above |= header - least_header(class);
        } else {
            wrong |= header - free_header(class, 0);
            marks->map[(uint32_t)bit / 64] |= (uint64_t)1 << bit % 64;
            count++;
        }
    }
    marks->count = count;
    return wrong % (1 << NEXT_SHIFT) == 0 && (same_class(above) || sizes_right(h, page, class));
}

/* Whether a free block can stand behind the last one, where "link" has to name it. The tag before it tells whether it
   touches that; before the first block it is the index page's. */
static bool free_right(const uint8_t *h, uint64_t block, uint64_t eights, uint64_t previous, uint64_t link)
{
    return eights >= SMALLEST_FREE / 8 && get(h, link) == block && kind_of(get(h, block - WORD)) != FREE
        && get(h, block + 8 * eights - 2 * WORD) == previous;
}

/* Whether the blocks and the list of the free ones are right; marks the free items. For each kind one comparison tells
   whether the tag is of that kind and the block within the eights of bytes that are left. Blocks that are no pages have
   a loop of their own, so that the compiler keeps it in registers. */
static bool blocks_right(const uint8_t *h, uint64_t end, struct marks *marks)
{
    uint64_t position = DATA_AREA;
    uint64_t left = (end - DATA_AREA) / 8;
    uint64_t previous_free = 0;
    uint64_t link = FIRST_FREE;

    for (;;) {
        uint64_t tag, eights;
        for (;;) {
            if (left == 0)
                return get(h, link) == 0;
            tag = get(h, position);
            eights = rotate_right(tag - VARIABLE, 3);
            if (eights <= left) {
                if (eights < SMALLEST_VARIABLE / 8 || get(h, position + 8 * eights - WORD) != tag)
                    return false;
                position += 8 * eights;
                left -= eights;
                continue;
            }
            eights = rotate_right(tag - FREE, 3);
            if (eights > left)
                break;
            if (!free_right(h, position, eights, previous_free, link) || get(h, position + 8 * eights - WORD) != tag)
                return false;
            previous_free = position;
            link = position + WORD;
            position += 8 * eights;
            left -= eights;
        }
        eights = rotate_right(tag - PAGE, 3);
        if (eights > left || eights < SMALLEST_PAGE / 8 || get(h, position + 8 * eights - WORD) != tag)
            return false;
        if (bit_of(position) + words_in(eights) > marks->top)
            clear_to(marks, bit_of(position) + words_in(eights));
        if (!page_right(h, position, words_in(eights), marks))
            return false;
        position += 8 * eights;
        left -= eights;
    }
}

/* Whether the list of a class visits marked items of that class only, and no more than "count"; counts them down. */
static bool list_right(const uint8_t *h, uint64_t class, const struct marks *marks, uint64_t *count)
{
    uint64_t head = head_of(h, class);
    uint64_t free = free_header(class, 0);

    if (head == 0)
        return true;
    for (uint64_t bit = rotate_right(head, WORD_SHIFT); bit < marks->top;) {
        if (!(marks->map[(uint32_t)bit / 64] >> bit % 64 & 1))
            return bit == 0;
        if ((*count)-- == 0)
            return false;
        bit = rotate_right(get(h, INDEX_PAGE + WORD * bit) - free, NEXT_SHIFT);
    }
    return false;
}

/* Whether the lists visit each marked item once and nothing else. Most lists are empty: one test does for four. */
static bool lists_right(const uint8_t *h, const struct marks *marks)
{
    uint64_t count = marks->count;

    for (uint64_t four = 0; four < CLASSES; four += 4) {
        if ((head_of(h, four) | head_of(h, four + 1) | head_of(h, four + 2) | head_of(h, four + 3)) == 0)
            continue;
        for (uint64_t class = four; class < four + 4; class++)
            if (!list_right(h, class, marks, &count))
                return false;
    }
    return count == 0;
}

/* Whether all lists are empty, as they must be where there is no page. */
static bool no_lists(const uint8_t *h)
{
    uint64_t any = 0;

    for (uint64_t class = 0; class < CLASSES; class++)
        any |= head_of(h, class);
    return any == 0;
}

static bool is_sound(const uint8_t *h, size_t n)
{
    struct marks marks; /* the map is cleared where a page is met */

    marks.count = 0;
    marks.top = 0;
    if (!fixed_words_right(h, n) || !blocks_right(h, end_in(h, n), &marks))
        return false;
    return marks.top == 0 ? no_lists(h) : lists_right(h, &marks);
}

uint64_t twin_check(const uint8_t *h, size_t n)
{
    if (n < SHORTEST || n > LONGEST)
        return refuse(BAD_LENGTH);
    if (!has_magic(h))
        return refuse(NO_HEAP);
    return is_sound(h, n) ? GRANTED : refuse(NOT_SOUND);
}

/* The free list. */

static void link_free(uint8_t *h, uint64_t block, uint64_t size, uint64_t previous, uint64_t next)
{
    put_tags(h, block, size, FREE);
    put(h, block + WORD, next);
    put(h, block + size - 2 * WORD, previous);
    put(h, previous ? previous + WORD : FIRST_FREE, block);
    if (next)
        put(h, next + size_of(get(h, next)) - 2 * WORD, block);
}

static void unlink_free(uint8_t *h, uint64_t previous, uint64_t next)
{
    put(h, previous ? previous + WORD : FIRST_FREE, next);
    if (next)
        put(h, next + size_of(get(h, next)) - 2 * WORD, previous);
}

/* Makes a used block out of "whole" free bytes, whose free block stood between two others in the list. */
static void use(uint8_t *h, uint64_t block, uint64_t need, uint64_t whole, uint64_t kind, uint64_t previous,
                uint64_t next)
{
    uint64_t rest = whole - need;

    if (rest >= SMALLEST_FREE) {
        link_free(h, block + need, rest, previous, next);
        put_tags(h, block, need, kind);
    } else {
        unlink_free(h, previous, next);
        put_tags(h, block, whole, kind);
    }
}

/* Where no free block is large enough: the heap grows by a free one of exactly the need, or its last block is enlarged to
   that if it is free ("last" is the last free block, 0 if none), and becomes a used one; 0 if it would pass the buffer's
   end. A function of its own at run time too: so nobody else pays for it. */
static __attribute__((noinline)) uint64_t take_at_end(uint8_t *h, size_t n, uint64_t need, uint64_t kind, uint64_t last)
{
    uint64_t block = get(h, STORED_END);

    if (last != 0 && last + get(h, last) == block) {
        block = last;
        last = previous_of(h, block);
    }
    if (block + need > end_of(n))
        return 0;
    put(h, STORED_END, block + need);
    link_free(h, block, need, last, 0);
    use(h, block, need, need, kind, last, 0);
    return block;
}

/* The lowest free block that is large enough becomes a used one; 0 if there is none, and the heap cannot grow. */
static uint64_t take_block(uint8_t *h, size_t n, uint64_t need, uint64_t kind)
{
    uint64_t previous = 0;
    uint64_t block = get(h, FIRST_FREE);

    while (block != 0 && get(h, block) < need) {
        previous = block;
        block = next_of(h, block);
    }
    if (block == 0)
        return end_in(h, n) < end_of(n) ? take_at_end(h, n, need, kind, previous) : 0;
    use(h, block, need, get(h, block), kind, previous, next_of(h, block));
    return block;
}

/* Frees the bytes of a used block and joins them with free neighbours; "previous" is the last free block
   before them. Answers the free block that they are then in. */
static uint64_t release_block(uint8_t *h, uint64_t block, uint64_t size, uint64_t previous)
{
    uint64_t next = get(h, previous ? previous + WORD : FIRST_FREE);

    if (next == block + size) {
        size += get(h, next);
        next = next_of(h, next);
    }
    if (previous != 0 && previous + get(h, previous) == block) {
        size += block - previous;
        block = previous;
        previous = previous_of(h, block);
    }
    link_free(h, block, size, previous, next);
    return block;
}

/* Items. */

static bool make_page(uint8_t *h, size_t n, uint64_t class)
{
    uint64_t step = item_size(class);
    uint64_t items = items_in_page(class);
    uint64_t page = take_block(h, n, items * step + TAGS, PAGE);

    if (page == 0)
        return false;
    uint64_t first = page + WORD;
    uint64_t left = (items - 1) * step;
    uint64_t header = free_header(class, first + left - INDEX_PAGE);
    put_head(h, class, first - INDEX_PAGE);
    put(h, first + left, free_header(class, 0));
    while (left != 0) { /* downwards: four instructions an item */
        put(h, first + left - step, header);
        header -= free_header(class, step) - free_header(class, 0);
        left -= step;
    }
    return true;
}

static uint64_t take_item(uint8_t *h, size_t n, uint64_t size)
{
    uint64_t class = class_of(size);

    if (head_of(h, class) == 0 && !make_page(h, n, class))
        return 0;
    uint64_t item = head_of(h, class) + INDEX_PAGE;
    put_head(h, class, next_in(get(h, item)));
    put(h, item, used_header(class, size));
    return item + WORD;
}

static void release_item(uint8_t *h, uint64_t item, uint64_t class)
{
    put(h, item, free_header(class, head_of(h, class)));
    put_head(h, class, item - INDEX_PAGE);
}

/* Live payloads. */

struct live {
    bool found;
    bool is_item;
    uint64_t class;         /* of an item */
    uint64_t asked;         /* the size that it was asked for, 0 if not known */
    uint64_t block;         /* the block that the address is in */
    uint64_t size;          /* of that block */
    uint64_t previous_free; /* the last free block before it, 0 if none */
};

static void find_item(const uint8_t *h, struct live *live, uint64_t address)
{
    uint64_t class = class_in(get(h, live->block + WORD));
    uint64_t from_first = address - (live->block + 2 * WORD); /* huge if the address is before the first item's */
    uint64_t step = item_size(class);

    if (from_first % step != 0 || from_first / step >= items_in_page(class))
        return;
    uint64_t header = get(h, address - WORD);
    live->is_item = true;
    live->class = class;
    live->asked = asked_in(header);
    live->found = header % 128 == used_header(class, 0);
}

/* The list of the free blocks is in order of position: 0 if none is below the address. */
static uint64_t last_free_below(const uint8_t *h, uint64_t address)
{
    uint64_t previous = 0;

    for (uint64_t next = get(h, FIRST_FREE); next != 0 && next < address; next = next_of(h, next))
        previous = next;
    return previous;
}

/* The walk begins behind that block, so no free one is met. */
static struct live find(const uint8_t *h, uint64_t end, uint64_t address)
{
    struct live live = { false, false, 0, 0, DATA_AREA, 0, 0 };

    if (address < DATA_AREA || address >= end)
        return live;
    live.previous_free = last_free_below(h, address);
    if (live.previous_free != 0)
        live.block = live.previous_free + get(h, live.previous_free);
    if (address < live.block)
        return live;
    for (;;) {
        uint64_t tag = get(h, live.block);
        live.size = size_of(tag);
        if (address < live.block + live.size) {
            if (kind_of(tag) == VARIABLE)
                live.found = address == live.block + WORD;
            else if (kind_of(tag) == PAGE)
                find_item(h, &live, address);
            return live;
        }
        live.block += live.size;
    }
}

/* The rules. */

static uint64_t allocate(uint8_t *h, size_t n, uint64_t size)
{
    if (size <= LARGEST_ITEM)
        return take_item(h, n, size);
    uint64_t block = take_block(h, n, need_of(size), VARIABLE);
    return block ? block + WORD : 0;
}

static void release(uint8_t *h, const struct live *live, uint64_t address)
{
    if (live->is_item)
        release_item(h, address - WORD, live->class);
    else
        release_block(h, live->block, live->size, live->previous_free);
}

/* Whether the record can stay where it is; if so it is shrunk or grown, or an item has the new size in its header. */
static bool resize_in_place(uint8_t *h, const struct live *live, uint64_t address, uint64_t size)
{
    if (live->is_item) {
        if (class_of(size) != live->class)
            return false;
        put(h, address - WORD, used_header(live->class, size));
        return true;
    }
    if (size <= LARGEST_ITEM)
        return false;
    uint64_t need = need_of(size);
    if (need <= live->size) {
        if (live->size - need >= SMALLEST_FREE) {
            put_tags(h, live->block, need, VARIABLE);
            release_block(h, live->block + need, live->size - need, live->previous_free);
        }
        return true;
    }
    uint64_t previous = live->previous_free;
    uint64_t next = get(h, previous ? previous + WORD : FIRST_FREE);
    if (next != live->block + live->size || live->size + get(h, next) < need)
        return false;
    use(h, live->block, need, live->size + get(h, next), VARIABLE, previous, next_of(h, next));
    return true;
}

/* If the allocation took the free block before the old record, its rest or the one before it takes its place. */
static void mend_previous(const uint8_t *h, struct live *live, uint64_t one_before)
{
    uint64_t taken = live->previous_free;

    if (taken == 0 || kind_of(get(h, taken)) == FREE)
        return;
    uint64_t behind = taken + size_of(get(h, taken));
    live->previous_free = kind_of(get(h, behind)) == FREE ? behind : one_before;
}

/* In chunks: that takes fewer instructions than the C library's memcpy does. The last one may cover a part of the one before it. */
static void copy_chunk(uint8_t *to, const uint8_t *from)
{
    uint8_t chunk[CHUNK];

    memcpy(chunk, from, CHUNK);
    memcpy(to, chunk, CHUNK);
}

static void copy(uint8_t *to, const uint8_t *from, uint64_t size)
{
    if (size < CHUNK) {
        memcpy(to, from, size);
        return;
    }
    uint64_t last = size - CHUNK;
    for (uint64_t i = 0; i < last; i += CHUNK)
        copy_chunk(to + i, from + i);
    copy_chunk(to + last, from + last);
}

static uint64_t capacity_of(const struct live *live)
{
    return live->is_item ? 8 * live->class + 8 : live->size - TAGS;
}

/* How many of its bytes count. */
static uint64_t shown_of(const struct live *live)
{
    return live->is_item && live->asked ? live->asked : capacity_of(live);
}

static uint64_t move(uint8_t *h, size_t n, struct live *live, uint64_t address, uint64_t size)
{
    uint64_t shown = shown_of(live);
    uint64_t one_before = live->previous_free ? previous_of(h, live->previous_free) : 0;
    uint64_t new = allocate(h, n, size);

    if (new == 0)
        return 0;
    copy(h + new, h + address, shown < size ? shown : size);
    mend_previous(h, live, one_before);
    release(h, live, address);
    return new;
}

/* The sweep. */

static uint64_t live_items(const uint8_t *h, uint64_t page, uint64_t class)
{
    uint64_t item = page + WORD;
    uint64_t count = 0;

    for (uint64_t left = items_in_page(class); left != 0; left--) {
        count += get(h, item) / 2 % 2;
        item += item_size(class);
    }
    return count;
}

/* Frees the pages with no live item in one walk, which goes on behind the free block that each is then in; answers how
   many they were. */
static uint64_t give_back_pages(uint8_t *h, uint64_t end)
{
    uint64_t position = DATA_AREA;
    uint64_t previous_free = 0;
    uint64_t count = 0;

    while (position != end) {
        uint64_t tag = get(h, position);
        if (kind_of(tag) == PAGE && live_items(h, position, class_in(get(h, position + WORD))) == 0) {
            position = previous_free = release_block(h, position, size_of(tag), previous_free);
            tag = get(h, position);
            count++;
        } else if (kind_of(tag) == FREE) {
            previous_free = position;
        }
        position += size_of(tag);
    }
    return count;
}

struct page {
    uint32_t position;
    uint32_t live;
};

/* Notes the pages of a class, in rising position; answers how many they are. */
static uint64_t find_pages(const uint8_t *h, uint64_t end, uint64_t class, struct page *pages)
{
    uint64_t count = 0;
    uint64_t tag;

    for (uint64_t position = DATA_AREA; position != end; position += size_of(tag)) {
        tag = get(h, position);
        if (kind_of(tag) != PAGE || class_in(get(h, position + WORD)) != class)
            continue;
        pages[count].position = (uint32_t)position;
        pages[count].live = (uint32_t)live_items(h, position, class);
        count++;
    }
    return count;
}

/* Puts the free items of a page before those of a list, the last one first; answers the list's new head. */
static uint64_t link_items(uint8_t *h, uint64_t page, uint64_t class, uint64_t head)
{
    uint64_t item = page + WORD + items_in_page(class) * item_size(class);

    for (uint64_t left = items_in_page(class); left != 0; left--) {
        item -= item_size(class);
        if (get(h, item) & 2)
            continue;
        put(h, item, free_header(class, head));
        head = item - INDEX_PAGE;
    }
    return head;
}

/* The least number of live items from `live` on that a page has, below `most`; `most` where none has. */
static uint64_t next_live(const struct page *pages, uint64_t count, uint64_t live, uint64_t most)
{
    uint64_t next = most;

    for (uint64_t i = 0; i < count; i++)
        if (pages[i].live >= live && pages[i].live < next)
            next = pages[i].live;
    return next;
}

/* Links the list of a class from its end on: pages with fewest live items come first, and among equals the last. A
   function of its own at run time too: so the compiler keeps the loop over the classes short. */
static __attribute__((noinline)) void link_list(uint8_t *h, uint64_t end, uint64_t class, struct page *pages)
{
    uint64_t count = find_pages(h, end, class, pages);
    uint64_t head = 0;

    uint64_t most = items_in_page(class);
    for (uint64_t live = next_live(pages, count, 0, most); live < most; live = next_live(pages, count, live + 1, most))
        for (uint64_t i = count; i-- != 0;)
            if (pages[i].live == live)
                head = link_items(h, pages[i].position, class, head);
    put_head(h, class, head);
}

/* An empty list stays so: its class has no page with a free item. */
static void link_lists(uint8_t *h, uint64_t end)
{
    struct page pages[MOST_PAGES];

    for (uint64_t class = 0; class < CLASSES; class++)
        if (head_of(h, class) != 0)
            link_list(h, end, class, pages);
}

/* The calls. */

static uint64_t initialise(uint8_t *h, size_t n, uint64_t end)
{
    if (n < SHORTEST || n > LONGEST)
        return refuse(BAD_LENGTH);
    if (has_magic(h))
        return refuse(ALREADY);
    if (!may_end(n, end))
        return refuse(BAD_END);
    memcpy(h, &MAGIC, 8);
    put(h, DATA_AREA_WORD, DATA_AREA);
    put(h, INDEX_PAGE_WORD, INDEX_PAGE);
    put(h, STORED_END, end);
    put(h, INDEX_LOW_TAG, INDEX_TAG);
    memset(h + INDEX_PAGE, 0, WORD * CLASSES);
    put(h, INDEX_HIGH_TAG, INDEX_TAG);
    link_free(h, DATA_AREA, end - DATA_AREA, 0, 0);
    return GRANTED;
}

#if TWIN_WORD == 8
uint64_t twin_initialise(uint8_t *h, size_t n, uint64_t end)
{
    return initialise(h, n, end);
}
#else
uint64_t twin_initialise(uint8_t *h, size_t n)
{
    return initialise(h, n, end_of(n));
}
#endif

uint64_t twin_allocate(uint8_t *h, size_t n, uint64_t size)
{
    uint64_t refused = twin_check(h, n);

    if (refused)
        return refused;
    if (size == 0 || size > LARGEST_SIZE)
        return refuse(BAD_SIZE);
    uint64_t address = allocate(h, n, size);
    return address ? address : refuse(NO_ROOM);
}

/* Finds the record that is to have another size; answers why not, or 0. */
static inline uint64_t find_to_resize(const uint8_t *h, size_t n, uint64_t address, uint64_t size, struct live *live)
{
    uint64_t refused = twin_check(h, n);

    if (refused)
        return refused;
    if (size == 0 || size > LARGEST_SIZE)
        return refuse(BAD_SIZE);
    *live = find(h, end_in(h, n), address);
    return live->found ? GRANTED : refuse(BAD_ADDRESS);
}

uint64_t twin_resize_in_place(uint8_t *h, size_t n, uint64_t address, uint64_t size)
{
    struct live live;
    uint64_t refused = find_to_resize(h, n, address, size, &live);

    if (refused)
        return refused;
    return resize_in_place(h, &live, address, size) ? address : refuse(NO_ROOM);
}

uint64_t twin_move(uint8_t *h, size_t n, uint64_t address, uint64_t size)
{
    struct live live;
    uint64_t refused = find_to_resize(h, n, address, size, &live);

    if (refused)
        return refused;
    uint64_t new = move(h, n, &live, address, size);
    return new ? new : refuse(NO_ROOM);
}

/* The record as it is, where it holds the size already. */
static uint64_t keep(const uint8_t *h, size_t n, uint64_t address, uint64_t size)
{
    struct live live;
    uint64_t refused = find_to_resize(h, n, address, size, &live);

    if (refused)
        return refused;
    return size <= capacity_of(&live) ? address : refuse(NO_ROOM);
}

/* In place, or else elsewhere, or else as it is. */
uint64_t twin_resize(uint8_t *h, size_t n, uint64_t address, uint64_t size)
{
    uint64_t answer = twin_resize_in_place(h, n, address, size);

    if (answer == refuse(NO_ROOM))
        answer = twin_move(h, n, address, size);
    if (answer == refuse(NO_ROOM))
        answer = keep(h, n, address, size);
    return answer;
}

uint64_t twin_free(uint8_t *h, size_t n, uint64_t address)
{
    uint64_t refused = twin_check(h, n);

    if (refused)
        return refused;
    struct live live = find(h, end_in(h, n), address);
    if (!live.found)
        return refuse(BAD_ADDRESS);
    release(h, &live, address);
    return GRANTED;
}

uint64_t twin_sweep(uint8_t *h, size_t n)
{
    uint64_t refused = twin_check(h, n);

    if (refused)
        return refused;
    uint64_t count = give_back_pages(h, end_in(h, n));
    link_lists(h, end_in(h, n));
    return count;
}
