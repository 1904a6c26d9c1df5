"""Ways to damage a sound heap, and ways to change one that must leave it sound.

Each way takes a Patient and changes its bytes, or answers False where the heap
has nothing of the kind. Most change the abstract heap and lay it out anew, so
that all is consistent but for the one thing that is wrong. Where there are pages of
closed classes, every second patient is damaged in these.
"""

from typing import NamedTuple

from second import FREE, HAND, PAGE, SHAPES, VARIABLE, WIDE, Heap, State, end_of, free_header, sizes_of, used_header

WAYS = {shape: [] for shape in SHAPES.values()}  # (way, verdict): True stays sound, False becomes unsound, None as it happens
GROWING = [shape for shape in SHAPES.values() if shape.grows]


def way(stays_sound, shapes=SHAPES.values()):
    def add(function):
        for shape in shapes:
            WAYS[shape].append((function, stays_sound))
        return function
    return add


class Patient:
    """A heap to be damaged, with its abstract form."""

    def __init__(self, rng, shape, data):
        self.rng = rng
        self.shape = shape
        self.bits = 8 * shape.word
        self.data = bytearray(data)
        self.heap = Heap(self.data, shape)
        self.state = self.heap.state
        self.wants_closed = bool(shape.closed) and rng.random() < 0.5
        self.in_closed = False  # whether something of a closed class was chosen because of that

    def preferred(self, things, class_of_one):
        """Those of closed classes alone, where they are wanted and there are some."""
        closed = [thing for thing in things if class_of_one(thing) in self.shape.closed] if self.wants_closed else []
        self.in_closed |= bool(closed)
        return closed or things

    def get(self, position):
        return self.heap.word_at(position)

    def put(self, position, value):
        self.shape.words.pack_into(self.data, position, value % 2**self.bits)

    def spoil(self, position):
        """Puts another value at a position: near, far, huge or taken from elsewhere."""
        old, word, bits = self.get(position), self.shape.word, self.bits
        other = self.get(self.rng.randrange(len(self.data) // word) * word)
        values = (0, 8, old + 8, old - 8, old + 1, old ^ 4, old ^ 2, old + 2**(bits - 1), old + 2**(bits // 2), other,
                  2**bits - 8, 2**bits - self.shape.index_page, self.state.end, self.rng.getrandbits(bits),
                  1 << self.rng.randrange(bits))
        self.put(position, self.rng.choice([v for v in values if v % 2**bits != old]))

    def any_block(self, kind=None, smallest=0, before=None):
        """A random block of a kind and size; "before" is the kind of the block behind it."""
        state = self.state
        fits = [p for p in state.starts
                if kind in (None, state.blocks[p][0]) and state.blocks[p][1] >= smallest
                and (before is None or state.blocks.get(p + state.blocks[p][1], (None,))[0] == before)]
        fits = self.preferred(fits, state.page_class.get) if kind == PAGE else fits
        return self.rng.choice(fits) if fits else None

    def any_class(self, items=1):
        """A random class with at least so many free items."""
        fits = self.preferred([c for c in range(self.shape.classes) if len(self.state.lists[c]) >= items], lambda c: c)
        return self.rng.choice(fits) if fits else None

    def another_class(self, c):
        return (c + self.rng.randrange(1, self.shape.classes)) % self.shape.classes

    def any_used_item(self):
        fits = self.preferred(list(self.state.item_class), self.state.item_class.get)
        return self.rng.choice(fits) if fits else None

    def put_tags(self, position, size, kind):
        self.put(position, size + kind)
        self.put(position + size - self.shape.word, size + kind)

    def size_in(self, c):
        """A size of class c."""
        return self.rng.choice(sizes_of(c))

    def huge_bit(self):
        """A bit of the size in a header that no size of an item has."""
        return 2**self.rng.randint(self.shape.largest_capacity.bit_length(), self.bits - 8)

    def put_used(self, item, c, size):
        """Gives an item the header of one in use, of any class and for any size."""
        self.put(item, used_header(c, size))

    def put_next(self, item, offset):
        """Gives a free item another next offset."""
        self.put(item, 16 * offset + self.shape.free_item(self.get(item))[1])

    def split(self, position, first, second):
        """Puts two blocks, each a kind and a size, where one was, and lays out all."""
        self.state.remove_block(position)
        self.state.add_block(position, *first)
        self.state.add_block(position + first[1], *second)
        self.heap.lay_out_whole()

    def room(self):
        """How many bytes there are behind the end for the heap to grow."""
        return end_of(len(self.data)) - self.state.end

    def end_at(self, end):
        self.put(self.shape.stored_end, end)

    def end_elsewhere(self, ends):
        """Another end, one of these; none where there is no other."""
        ends = [end for end in ends if end != self.state.end]
        if not ends:
            return False
        self.end_at(self.rng.choice(ends))

    def link_blocks(self, order):
        """Links the free list through these blocks in this order, both ways."""
        self.put(self.shape.first_free, order[0] if order else 0)
        for before, block, after in zip([0] + order, order, order[1:] + [0]):
            self.put(self.state.next_link(block), after)
            self.put(self.state.previous_link(block), before)


# Fixed words and lengths.

@way(False)
def first_bytes(p):
    p.data[p.rng.randrange(8)] ^= 1 << p.rng.randrange(8)


@way(False)
def fixed_word(p):
    p.spoil(p.rng.choice([*p.shape.fixed_words]))


@way(True)
def length_with_the_same_end(p):
    """The buffer ends where the heap does, or less than 8 bytes behind that."""
    del p.data[p.state.end:]
    if len(p.data) < p.shape.longest:
        p.data += p.rng.randbytes(p.rng.randrange(8))


@way(False)
def buffer_that_ends_before_the_heap(p):
    """Often so little that only bytes which are 0 are missing of the last tag."""
    del p.data[p.state.end - p.rng.choice((1, 4, 5, 8, 8, 16)):]


@way(False)
def end_and_length_by_8(p):
    """Both agree, and the blocks do not."""
    del p.data[p.state.end:]
    if p.rng.random() < 0.5:
        p.data += p.rng.randbytes(8)
    else:
        del p.data[-8:]
    p.end_at(len(p.data))


def longer_buffer(p):
    """More bytes behind the end, which are nobody's."""
    p.data += p.rng.randbytes(min(p.shape.longest - len(p.data), p.rng.choice((8, 8, 16, p.rng.randint(8, 5000)))))
    return end_of(len(p.data)) > p.state.end


way(True, GROWING)(longer_buffer)  # which the heap may take
way(False, [HAND])(longer_buffer)  # here a heap takes its whole buffer


# The end, beside which all is right: of a heap that grows, as far as the buffer goes, and else only the buffer's.

@way(False)
def end_too_low(p):
    p.end_at(p.rng.choice((0, 8, p.shape.index_page, p.shape.data_area, p.shape.shortest - 8, p.shape.shortest - 8)))


@way(False)
def end_inside_a_word(p):
    p.end_at(p.rng.choice((p.state.end, p.state.end - 8, p.shape.shortest)) + p.rng.choice((1, 2, 4, 4, 7)))


@way(False)
def end_behind_the_buffer(p):
    end = end_of(len(p.data))
    p.end_at(p.rng.choice((end + 8, end + 8, end + 16, end + p.rng.randint(1, 7), 2 * end, p.shape.longest + 8)))


@way(False)
def huge_end(p):
    bits, end = p.bits, p.state.end
    p.end_at(p.rng.choice((end + 2**(bits - 1), end + 2**(bits // 2), 2**bits - 8, 2**bits - end, 2**(bits - 1))))


@way(False)
def end_in_a_block(p):
    """Where none begins."""
    return p.end_elsewhere([end for end in range(p.shape.shortest, p.state.end, 8) if end not in p.state.blocks])


def end_at_another_border(p):
    """Where nothing behind it is free, and so on a list, what is before it is a heap by itself; half of the time this is sought."""
    ends = [end for end in p.state.starts if end >= p.shape.shortest]
    last_free = max([*p.state.free, *(item for items in p.state.lists for item in items)], default=0)
    whole = [end for end in ends if end > last_free]
    return p.end_elsewhere(whole if whole and p.rng.random() < 0.5 else ends)


way(None, GROWING)(end_at_another_border)
way(False, [HAND])(end_at_another_border)


@way(None, GROWING)
def end_in_the_room(p):
    """Behind the last block, often where the buffer ends."""
    ends = range(p.state.end + 8, end_of(len(p.data)) + 1, 8)
    return p.end_elsewhere(p.rng.choice((ends, ends[-1:])))


@way(False, GROWING)
def last_block_up_to_the_buffers_end(p):
    """The blocks reach as far as the buffer, and the end does not."""
    if not p.room():
        return False
    block = p.state.starts[-1]
    kind, size = p.state.blocks[block]
    previous = p.get(p.state.previous_link(block))
    p.put_tags(block, size + p.room(), kind)
    if kind == FREE:
        p.put(block + size + p.room() - 2 * p.shape.word, previous)


def room_as_a_block(p, kind):
    """What is behind the end looks like a block that the heap does not know."""
    if p.room() < p.shape.smallest_variable:
        return False
    p.put_tags(p.state.end, p.room(), kind)


@way(True, GROWING)
def block_behind_the_end(p):
    """It even names the last free block."""
    if room_as_a_block(p, p.rng.choice((FREE, VARIABLE, PAGE))) is False:
        return False
    p.put(p.state.end + p.shape.word, 0)
    p.put(p.state.end + p.room() - 2 * p.shape.word, p.state.free[-1] if p.state.free else 0)


@way(False, GROWING)
def free_block_behind_the_end(p):
    """As above, and the free list names it too."""
    if room_as_a_block(p, FREE) is False:
        return False
    last = p.state.free[-1] if p.state.free else 0
    p.put(p.state.end + p.shape.word, 0)
    p.put(p.state.end + p.room() - 2 * p.shape.word, last)
    p.put(p.state.next_link(last) if last else p.shape.first_free, p.state.end)


@way(False, GROWING)
def free_item_behind_the_end(p):
    """A list ends with an item that is none of the heap's, in a page that is none of them."""
    c = p.rng.choice(p.preferred(range(p.shape.classes), lambda c: c))
    if room_as_a_block(p, PAGE) is False:
        return False
    item = p.state.end + p.shape.word
    p.put(item, free_header(c, 0))
    if p.state.lists[c]:
        p.put_next(p.state.lists[c][0], item - p.shape.index_page)
    else:
        p.put(p.shape.head(c), item - p.shape.index_page)


@way(True, GROWING)
def bytes_behind_the_end(p):
    if not p.room():
        return False
    p.data[p.state.end:] = p.rng.randbytes(len(p.data) - p.state.end)


@way(True, GROWING)
def blocks_given_up(p):
    """The heap ends where one of its blocks began; those behind stay as bytes, and nothing names them."""
    ends = [end for end in p.state.starts if end >= p.shape.shortest]
    if not ends:
        return False
    old, end = p.state, p.rng.choice(ends)
    p.heap.state = p.state = State(p.shape, end)
    for position in [position for position in old.starts if position < end]:
        p.state.add_block(position, *old.blocks[position])
    p.state.page_class = {page: c for page, c in old.page_class.items() if page < end}
    p.state.item_class = {item: c for item, c in old.item_class.items() if item < end}
    p.state.asked = {item: size for item, size in old.asked.items() if item < end}
    p.state.lists = [[item for item in items if item < end] for items in old.lists]
    p.heap.lay_out_whole()


@way(True, GROWING)
def block_added(p):
    """The heap has another block, up to the buffer's end or not that far."""
    kind = VARIABLE if p.state.is_free(p.state.starts[-1]) or p.rng.random() < 0.5 else FREE
    least = p.shape.smallest_free if kind == FREE else p.shape.smallest_variable
    if p.room() < least:
        return False
    size = p.rng.choice((least, p.room(), 8 * p.rng.randint(least // 8, p.room() // 8)))
    p.state.add_block(p.state.end, kind, size)
    p.state.end += size
    p.heap.lay_out_whole()


# Tags, sizes and kinds.

@way(False)
def one_tag(p):
    block = p.any_block()
    p.spoil(p.rng.choice((block, block + p.state.blocks[block][1] - p.shape.word)))


@way(False)
def one_tag_of_another_kind(p):
    block = p.any_block()
    kind, size = p.state.blocks[block]
    other = p.rng.choice([k for k in range(8) if k != kind])
    p.put(p.rng.choice((block, block + size - p.shape.word)), size + other)


@way(None)
def both_tags_of_another_kind(p):
    block = p.any_block()
    kind, size = p.state.blocks[block]
    p.put_tags(block, size, p.rng.choice([k for k in range(8) if k != kind]))


@way(False)
def low_tag_over_two_blocks(p):
    block = p.any_block()
    kind, size = p.state.blocks[block]
    behind = p.state.blocks.get(block + size)
    if not behind:
        return False
    p.put(block, size + behind[1] + kind)


@way(None)
def tags_over_two_blocks(p):
    block = p.any_block()
    kind, size = p.state.blocks[block]
    behind = p.state.blocks.get(block + size)
    if not behind:
        return False
    p.put_tags(block, size + behind[1], kind)


@way(False)
def last_block_ends_elsewhere(p):
    block = p.state.starts[-1]
    kind, size = p.state.blocks[block]
    size += p.rng.choice((*range(8 - p.shape.smallest_free, 0, 8), 8, 16))
    p.put(block, size + kind)
    if block + size <= len(p.data):
        p.put_tags(block, size, kind)


@way(False)
def wild_size(p):
    block = p.any_block()
    kind, size = p.state.blocks[block]
    too_small = range(0, p.shape.smallest_free, 8)
    wild = p.rng.choice((*too_small, p.state.end, p.state.end + 8 - block, 2**(p.bits - 1), 2**p.bits - 8, 2**p.bits - block))
    if wild == size:
        return False
    p.put(block, wild + kind)
    if wild in too_small and wild >= p.shape.tags:
        p.put_tags(block, wild, kind)


def start_in_a_variable_block(p, size):
    """The start of a free block, or of a variable one, becomes a variable block of this size; the rest stays what it was."""
    kinds = {FREE: p.shape.smallest_free, VARIABLE: p.shape.smallest_variable}
    blocks = [block for kind, least in kinds.items() if (block := p.any_block(kind, size + least)) is not None]
    if not blocks:
        return False
    block = p.rng.choice(blocks)
    kind, whole = p.state.blocks[block]
    p.split(block, (VARIABLE, size), (kind, whole - size))


@way(False)
def small_variable_block(p):
    least, tags = p.shape.smallest_variable, p.shape.tags
    return start_in_a_variable_block(p, p.rng.choice((
        least - 8, least - 8, least - 16, p.shape.smallest_free, tags, 8 * p.rng.randint(tags // 8, least // 8 - 1))))


@way(True)
def smallest_variable_block(p):
    return start_in_a_variable_block(p, p.shape.smallest_variable)


@way(True, [WIDE])
def variable_block_for_a_size_of_a_closed_class(p):
    """By the rule before there was none so small."""
    return start_in_a_variable_block(p, p.shape.block_size(p.size_in(p.rng.choice(p.shape.closed))))


def end_in_a_small_free_block(p, block, small):
    """The end of a block becomes a free block that is too small; its tags are right, even where a link should stand."""
    size = p.state.blocks[block][1]
    p.split(block, (VARIABLE, size - small), (FREE, small))
    p.put_tags(block + size - small, small, FREE)


@way(False)
def small_free_block(p):
    least = p.shape.smallest_variable + p.shape.smallest_free - 8
    block = p.any_block(VARIABLE, least) or p.any_block(FREE, least)
    if block is None:
        return False
    end_in_a_small_free_block(p, block, p.rng.choice((p.shape.smallest_free - 8, p.shape.smallest_free - 8, p.shape.tags)))


@way(False)
def lone_small_free_block(p):
    """Next and previous link are the same word, and here both are 0; or, where words are of 4 bytes, the tags."""
    for block in list(p.state.free):
        size = p.state.remove_block(block)[1]
        p.state.add_block(block, VARIABLE, size)
    small = p.shape.smallest_free - 8
    block = p.any_block(VARIABLE, p.shape.smallest_variable + small)
    if block is None or any(kind == VARIABLE and size < p.shape.smallest_variable for kind, size in p.state.blocks.values()):
        return False
    end_in_a_small_free_block(p, block, small)


def cut_a_free_block(p, kind, least):
    """The low part of a free block becomes a block of this kind and at least this size; the rest stays free."""
    block = p.any_block(FREE, least + p.shape.smallest_free)
    if block is None:
        return False
    size = p.state.blocks[block][1]
    low = 8 * p.rng.randint(least // 8, (size - p.shape.smallest_free) // 8)
    p.split(block, (kind, low), (FREE, size - low))


@way(False)
def touching_free_blocks(p):
    return cut_a_free_block(p, FREE, p.shape.smallest_free)


@way(True)
def variable_block_in_a_free_one(p):
    return cut_a_free_block(p, VARIABLE, p.shape.smallest_variable)


# Pages.

@way(None)
def page_of_another_length(p):
    page = p.any_block(PAGE, before=FREE) or p.any_block(PAGE, before=VARIABLE)
    if page is None:
        return False
    size = p.state.remove_block(page)[1]
    kind, rest = p.state.remove_block(page + size)
    more = p.rng.choice((-16, -8, 8, 16, 24, 32, 40))
    if rest - more < (p.shape.smallest_free if kind == FREE else p.shape.smallest_variable):
        return False
    p.state.add_block(page, PAGE, size + more)
    p.state.add_block(page + size + more, kind, rest - more)
    p.heap.lay_out_whole()


@way(True)
def page_in_a_free_block(p):
    c = p.rng.choice(p.preferred(range(p.shape.classes), lambda c: c))
    block = p.any_block(FREE, p.shape.page_size(c) + p.shape.smallest_free)
    if block is None:
        return False
    size = p.shape.page_size(c) + p.rng.choice(p.shape.spare)
    if p.state.blocks[block][1] - size < p.shape.smallest_free:
        return False
    p.state.page_class[block] = c
    p.state.item_class.update(dict.fromkeys(p.state.items_of_page(block), c))
    p.state.asked.update({item: p.size_in(c) for item in p.state.items_of_page(block) if p.rng.random() < 0.5})
    p.split(block, (PAGE, size), (FREE, p.state.blocks[block][1] - size))


@way(True)
def full_page_as_variable_block(p):
    page = p.any_block(PAGE, p.shape.smallest_variable)
    if page is None:
        return False
    items = set(p.state.items_of_page(page))
    c = p.state.page_class[page]
    p.state.lists[c] = [item for item in p.state.lists[c] if item not in items]
    size = p.state.remove_block(page)[1]
    p.state.add_block(page, VARIABLE, size)
    p.heap.lay_out_whole()


# The free list.

@way(False)
def first_free(p):
    p.spoil(p.shape.first_free)


@way(False)
def one_link(p):
    block = p.any_block(FREE)
    if block is None:
        return False
    p.spoil(p.rng.choice((p.state.next_link(block), p.state.previous_link(block))))


@way(False)
def links_swapped(p):
    block = p.any_block(FREE)
    if block is None or len(p.state.free) < 2:
        return False
    swap_words(p, p.state.next_link(block), p.state.previous_link(block))


@way(False)
def free_list_in_another_order(p):
    order = list(p.state.free)
    p.rng.shuffle(order)
    if order == p.state.free:
        return False
    p.link_blocks(order)


@way(False)
def free_block_left_out(p):
    if not p.state.free:
        return False
    order = list(p.state.free)
    order.remove(p.rng.choice(order))
    p.link_blocks(order)


@way(False)
def stranger_in_the_free_list(p):
    block = p.any_block(VARIABLE)
    if block is None:
        return False
    p.link_blocks(sorted(p.state.free + [block]))


@way(False)
def ring_of_free_blocks(p):
    block = p.any_block(FREE)
    if block is None:
        return False
    p.put(p.state.next_link(p.state.free[-1]), block)


# Item headers.

@way(False)
def item_of_another_class(p):
    page = p.any_block(PAGE)
    if page is None:
        return False
    item = p.rng.choice(p.state.items_of_page(page))
    p.put(item, p.get(item) ^ 4 * p.rng.randint(1, 31))  # where there are 16 classes, the highest bit may be a next offset's


@way(False)
def item_with_bad_flags(p):
    page = p.any_block(PAGE)
    if page is None:
        return False
    item = p.rng.choice(p.state.items_of_page(page))
    p.put(item, p.get(item) // 4 * 4 + p.rng.choice((0, 2)))


@way(False)
def item_right_for_another_class(p):
    """An item in use with a class and a size that fit each other, but not its page."""
    item = p.any_used_item()
    if item is None:
        return False
    other = p.another_class(p.state.item_class[item])
    p.put_used(item, other, p.size_in(other))


@way(False)
def free_item_as_used(p):
    c = p.any_class()
    if c is None:
        return False
    item = p.rng.choice(p.state.lists[c])
    p.put_used(item, c, p.rng.choice((p.get(item) // 128, 0, p.size_in(c))))


@way(False)
def used_item_as_free(p):
    item = p.any_used_item()
    if item is None:
        return False
    p.put(item, p.rng.choice((p.get(item) - 2, free_header(p.state.item_class[item], 0))))


# Sizes in the headers of items in use.

def resized_item(p, size_for):
    """Puts into the header of an item in use the size that its class leads to."""
    item = p.any_used_item()
    if item is None:
        return False
    c = p.state.item_class[item]
    p.put_used(item, c, size_for(c))


@way(True)
def size_not_known(p):
    return resized_item(p, lambda c: 0)


@way(True)
def size_at_an_end_of_its_class(p):
    return resized_item(p, lambda c: p.rng.choice((sizes_of(c)[0], sizes_of(c)[-1])))


@way(True)
def size_of_its_class(p):
    return resized_item(p, p.size_in)


@way(False)
def size_just_outside_its_class(p):
    def outside(c):
        below, above = sizes_of(c)[0] - 1, sizes_of(c)[-1] + 1
        return p.rng.choice((below, above)) or above  # 0 would be a size that is not known
    return resized_item(p, outside)


@way(False)
def size_of_another_class(p):
    return resized_item(p, lambda c: p.size_in(p.another_class(c)))


@way(False)
def huge_size(p):
    """A size of its class, or none, and a bit too many; or all bits."""
    return resized_item(p, lambda c: p.rng.choice((p.size_in(c) + p.huge_bit(), p.huge_bit(), 2**(p.bits - 7) - 1)))


@way(False)
def two_wrong_sizes(p):
    """Two items of a page have the same bit too many, or one is too large by what the other is too small."""
    pages = [[item for item in p.state.items_of_page(page) if item in p.state.item_class] for page in p.state.page_class]
    pages = p.preferred([used for used in pages if len(used) > 1], lambda used: p.state.item_class[used[0]])
    if not pages:
        return False
    one, other = p.rng.sample(p.rng.choice(pages), 2)
    c, wrong = p.state.item_class[one], p.huge_bit()
    p.put_used(one, c, p.size_in(c) + wrong)
    p.put_used(other, c, p.size_in(c) + p.rng.choice((-wrong, wrong)))


@way(True)
def older_heap(p):
    """No size is known, as before (iv)."""
    if not p.state.asked:
        return False
    p.state.asked.clear()
    p.heap.lay_out_whole()


# Item lists.

@way(False)
def head_elsewhere(p):
    p.spoil(p.shape.head(p.rng.choice(p.preferred(range(p.shape.classes), lambda c: c))))


@way(False)
def head_off_by_bytes(p):
    c = p.any_class()
    if c is None:
        return False
    head = p.shape.head(c)
    p.put(head, p.get(head) + p.rng.choice((1, 4, 7, 2**(p.bits - 1), 2**(p.bits - 4), 2**(p.bits // 2))))


@way(False)
def heads_swapped(p):
    c = p.any_class()
    if c is None:
        return False
    swap_words(p, p.shape.head(c), p.shape.head(p.another_class(c)))


@way(False)
def next_elsewhere(p):
    c = p.any_class()
    if c is None:
        return False
    item = p.rng.choice(p.state.lists[c])
    old, word, end, beyond = p.shape.free_item(p.get(item))[0], p.shape.word, p.state.end - p.shape.index_page, 2**(p.bits - 4)
    offsets = (0, word, old + word, end - word, end, p.state.end, beyond - word, beyond - p.shape.index_page, beyond // 2,
               2**(p.bits // 2) + old)
    p.put_next(item, p.rng.choice([o for o in offsets if o != old]))


@way(False)
def ring_of_items(p):
    c = p.any_class()
    if c is None:
        return False
    items = p.state.lists[c]
    p.put_next(items[0], p.rng.choice(items) - p.shape.index_page)


@way(False)
def list_ends_early(p):
    c = p.any_class(2)
    if c is None:
        return False
    p.put_next(p.rng.choice(p.state.lists[c][1:]), 0)


@way(False)
def item_left_out(p):
    c = p.any_class()
    if c is None:
        return False
    p.state.lists[c].remove(p.rng.choice(p.state.lists[c]))
    p.heap.lay_out_whole()


@way(False)
def lists_joined(p):
    """The end of one list leads into another: the second class's items are seen twice."""
    c = p.any_class()
    others = [d for d in range(p.shape.classes) if p.state.lists[d] and d != c]
    if not others:
        return False
    other = p.rng.choice(others)
    p.put_next(p.state.lists[c][0], p.rng.choice(p.state.lists[other]) - p.shape.index_page)


@way(False)
def list_moved_behind_another(p):
    """As above, but the second class's own head is 0, so each item is seen once."""
    if lists_joined(p) is False:
        return False
    p.put(p.shape.head(p.any_class()), 0)


@way(False)
def used_item_on_a_list(p):
    c, item = p.any_class(), p.any_used_item()
    if c is None or item is None:
        return False
    p.put_next(p.state.lists[c][0], item - p.shape.index_page)


@way(False)
def forged_item_in_a_payload(p):
    """A live payload holds what looks like a free item and stands first on the list."""
    c, block = p.any_class(), p.any_block(VARIABLE)
    if c is None or block is None:
        return False
    item = block + p.shape.word * p.rng.randint(1, 4)
    head = p.shape.head(c)
    p.put(item, free_header(c, p.get(head)))
    p.put(head, item - p.shape.index_page)


@way(False)
def item_with_the_class_of_its_list(p):
    """An item is right on another class's list, but its page is of its old class."""
    c = p.any_class()
    if c is None:
        return False
    items = p.state.lists[c]
    item = items.pop(p.rng.randrange(len(items)))
    if item in [page + p.shape.word for page in p.state.page_class]:
        return False
    p.state.lists[p.another_class(c)].append(item)
    p.heap.lay_out_whole()


@way(False)
def head_inside_a_header(p):
    """The only free item's header looks like a free item's again when it is read a few bytes on."""
    c = p.any_class()
    if c is None:
        return False
    items = p.state.lists[c]
    item = p.rng.choice(items)
    p.state.item_class.update(dict.fromkeys(items, c))
    p.state.item_class.pop(item)
    p.state.lists[c] = [item]
    p.heap.lay_out_whole()
    shift = p.rng.randint(1, p.shape.word - 1)
    p.put(item, free_header(c, 0) * (1 + 256**shift))
    p.put(item + p.shape.word, 0)
    p.put(p.shape.head(c), item - p.shape.index_page + shift)


@way(True)
def list_in_another_order(p):
    c = p.any_class(2)
    if c is None:
        return False
    p.rng.shuffle(p.state.lists[c])
    p.heap.lay_out_whole()


# Changes without a plan.

@way(None)
def bits_flipped(p):
    for _ in range(p.rng.randint(1, 4)):
        p.data[p.rng.randrange(len(p.data))] ^= 1 << p.rng.randrange(8)


@way(None)
def bytes_changed(p):
    at = p.rng.randrange(len(p.data))
    content = p.rng.randbytes(min(p.rng.randint(1, 24), len(p.data) - at))
    p.data[at:at + len(content)] = content


def named_words(p):
    """The positions of some words that mean something."""
    state, word = p.state, p.shape.word
    block = p.any_block()
    size = state.blocks[block][1]
    found = [*sorted([p.shape.first_free, p.shape.stored_end, *p.shape.fixed_words]),
             p.shape.head(p.rng.randrange(p.shape.classes)), block, block + size - word, block + word, block + size - 2 * word]
    if state.page_class:
        found += p.rng.choices(state.items_of_page(p.rng.choice(list(state.page_class))), k=4)
    return found


def swap_words(p, a, b):
    one, other = p.get(a), p.get(b)
    p.put(a, other)
    p.put(b, one)


@way(None)
def named_word_changed(p):
    at = p.rng.choice(named_words(p))
    p.rng.choice((p.spoil, lambda a: p.put(a, p.get(a) ^ 1 << p.rng.randrange(p.bits))))(at)


@way(None)
def named_words_swapped(p):
    swap_words(p, p.rng.choice(named_words(p)), p.rng.choice(named_words(p)))


@way(True)
def bytes_that_may_be_anything(p):
    """Every payload, every free interior, all spare bytes of pages and all behind the end."""
    kept = bytes(p.data)
    state, word, start = p.state, p.shape.word, p.shape.data_area
    p.data[start:] = p.rng.randbytes(len(p.data) - start)
    for position, (kind, size) in state.blocks.items():
        words = [position, position + size - word]
        if kind == FREE:
            words += [state.next_link(position), state.previous_link(position)]
        elif kind == PAGE:
            words += state.items_of_page(position)
        for at in words:
            p.data[at:at + word] = kept[at:at + word]


# Where it matters that words have 4 bytes: what would be right, or not there, if they had 8.

@way(False, [HAND])
def first_bytes_of_the_console(p):
    p.data[:8] = WIDE.magic


@way(False, [HAND])
def used_item_of_a_class_of_the_console(p):
    """The class of an item in use has room for 32, and here there are 16."""
    item = p.any_used_item()
    if item is None:
        return False
    p.put(item, p.get(item) + 4 * p.shape.classes)


@way(False, [HAND])
def next_inside_a_word(p):
    c = p.any_class()
    if c is None:
        return False
    item = p.rng.choice(p.state.lists[c])
    p.put_next(item, p.shape.free_item(p.get(item))[0] + p.rng.choice((1, 2, 2, 3)))


@way(False, [HAND])
def next_in_multiples_of_8(p):
    """Of an item that stands 4 above a multiple of 8 from the index page, the lower multiple is the next offset."""
    fits = [item for items in p.state.lists for item in items if p.shape.free_item(p.get(item))[0] % 8]
    if not fits:
        return False
    item = p.rng.choice(fits)
    p.put_next(item, p.shape.free_item(p.get(item))[0] - 4)


def end_as_free_block_of_8(p, block):
    """The last 8 bytes of a block are nothing but the two tags of a free one, which is on no list."""
    if block is None:
        return False
    kind, size = p.state.blocks[block]
    p.put_tags(block, size - 8, kind)
    p.put_tags(block + size - 8, 8, FREE)


@way(False, [HAND])
def rest_of_8(p):
    return end_as_free_block_of_8(p, p.any_block(VARIABLE, p.shape.smallest_variable + 8))


@way(False, [HAND])
def spare_bytes_as_a_free_block(p):
    fits = [page for page, c in p.state.page_class.items() if p.state.blocks[page][1] > p.shape.page_size(c)]
    return end_as_free_block_of_8(p, p.rng.choice(fits) if fits else None)


@way(None, [HAND])
def neighbouring_words_swapped(p):
    at = p.rng.choice(named_words(p))
    swap_words(p, at, at + p.shape.word if at + 2 * p.shape.word <= len(p.data) else at - p.shape.word)


class Damage(NamedTuple):
    way: str
    data: bytes
    stays_sound: bool | None  # what the verdict must be; none: as it happens
    in_closed: bool  # whether the way was led to something of a closed class


def damaged(rng, shape, data, verdict=None):
    """A sound heap after one of the ways, or of those with this verdict."""
    ways = [(function, stays_sound) for function, stays_sound in WAYS[shape] if verdict in (None, stays_sound)]
    while True:
        function, stays_sound = rng.choice(ways)
        patient = Patient(rng, shape, data)
        if function(patient) is not False:
            return Damage(function.__name__, bytes(patient.data), stays_sound, patient.in_closed)
