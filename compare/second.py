#!/usr/bin/env python3
"""A second, independent program for the heap of document 01, as document 02 changes it, in both of its shapes.

It keeps the heap as an abstract thing: blocks in order, pages with items, one
list of free items for each class. The rules work on that. After each rule the
parts that it changed are laid out over the old bytes, so every byte that no
rule names stays as it was.

Run alone, it checks the figures of 01 and 02 and prints how many there were.
"""

import bisect
import pickle
import struct
from collections.abc import Callable
from dataclasses import dataclass, replace
from functools import cached_property

FREE, VARIABLE, PAGE = 0, 2, 3
ITEM_FREE, ITEM_IN_USE = 1, 3

GRANTED, BAD_LENGTH, NO_HEAP, NOT_SOUND, BAD_SIZE, BAD_ADDRESS, NO_ROOM, ALREADY, BAD_END = range(9)

END_OF_WALK = ("end", 0, 0)


# What is the same for every shape: sizes of blocks and of payloads are multiples of 8, and a class has 8 sizes.

def round_up(size):
    return (size + 7) // 8 * 8


def end_of(length):
    """The end of a buffer: no heap in it ends behind that."""
    return length // 8 * 8


def class_of(size):
    return (size - 1) // 8


def sizes_of(c):
    return range(8 * c + 1, 8 * c + 9)


def item_capacity(c):
    return 8 * c + 8


def used_header(c, size):
    """The header of an item in use; size 0, of older heaps, means that it is not known."""
    return 128 * size + 4 * c + ITEM_IN_USE


def free_header(c, following):
    """The header of a free item; "following" is the offset of the next one, 0 if none."""
    return 16 * following + 4 * c + ITEM_FREE


@dataclass(frozen=True)
class Shape:
    """The numbers in which one unit's heap differs from another's, and what follows from them."""
    name: str
    magic: bytes  # the first bytes of a heap
    word: int  # bytes of a stored number
    classes: int
    offered: int  # of so many classes, the lowest, items are handed out; the others are closed
    items_that_fit: Callable[[int], int]  # how many items a page has, by what one of them takes
    longest: int  # bytes of the longest heap; so much is the largest size, too
    grows: bool  # whether a heap may end before its buffer does, and grow: document 02, (v)

    def __reduce__(self):
        return self.name.upper()  # for another process the shape's own name is enough

    # The header: the first bytes, four words, and the block of the index page.

    @cached_property
    def first_free(self):
        return len(self.magic) + 2 * self.word

    @cached_property
    def stored_end(self):
        return self.first_free + self.word

    @cached_property
    def index_block(self):
        return self.stored_end + self.word

    @cached_property
    def index_page(self):
        return self.index_block + self.word

    @cached_property
    def data_area(self):
        return self.head(self.classes) + self.word

    def head(self, c):
        """The position of the word with the offset of the first free item of class c; behind the last is the high tag."""
        return self.index_page + self.word * c

    @cached_property
    def index_tag(self):
        return self.data_area - self.index_block + PAGE

    @cached_property
    def fixed_words(self):
        """The words that never change, by their positions."""
        return {len(self.magic): self.data_area, len(self.magic) + self.word: self.index_page,
                self.index_block: self.index_tag, self.head(self.classes): self.index_tag}

    # Blocks and items.

    @cached_property
    def tags(self):
        return 2 * self.word

    @cached_property
    def smallest_free(self):
        return self.tags + 2 * self.word  # two links

    @cached_property
    def closed(self):
        """The classes of which pages may still be there, and no item is handed out: document 02, (xi)."""
        return range(self.offered, self.classes)

    @cached_property
    def largest_item(self):
        """The largest item that is handed out; above it there are blocks."""
        return item_capacity(self.offered - 1)

    @cached_property
    def largest_capacity(self):
        """What the largest item holds, of a closed class or not."""
        return item_capacity(self.classes - 1)

    @cached_property
    def smallest_variable(self):
        return self.block_size(self.largest_item + 1)

    @cached_property
    def smallest_page(self):
        return min(map(self.page_size, range(self.classes)))

    @cached_property
    def spare(self):
        """How many bytes of a page its items may leave unused: fewer than a free block has."""
        return range(0, self.smallest_free, 8)

    def block_size(self, size):
        """How many bytes a block for a payload of this size needs."""
        return round_up(size) + self.tags

    def item_size(self, c):
        return self.word + item_capacity(c)

    def items_in_page(self, c):
        return self.items_that_fit(self.item_size(c))

    def page_size(self, c):
        """How many bytes a page of class c needs."""
        return self.block_size(self.items_in_page(c) * self.item_size(c))

    # Lengths and sizes that are not refused.

    @cached_property
    def shortest(self):
        return self.data_area + self.smallest_free

    @cached_property
    def largest_size(self):
        return self.longest

    def may_end(self, length, end):
        """Whether a heap in a buffer of this length may have this end."""
        least = self.shortest if self.grows else end_of(length)
        return least <= end <= end_of(length) and end % 8 == 0

    # Words.

    @cached_property
    def words(self):
        return struct.Struct({4: "<I", 8: "<Q"}[self.word])

    def word_at(self, data, position):
        return self.words.unpack_from(data, position)[0]

    def free_item(self, header):
        """The offset of the next item in a free item's header, a multiple of the word's bytes, and the header without it."""
        words, rest = divmod(header, 16 * self.word)
        return words * self.word, rest


WIDE = Shape(name="wide", magic=bytes.fromhex("7879616c6c6f6301"), word=8, classes=32, offered=16,
             items_that_fit=lambda item: 4096 // item + 1, longest=1048576, grows=True)
HAND = Shape(name="hand", magic=bytes.fromhex("7879616c6c6f6302"), word=4, classes=16, offered=16,
             items_that_fit=lambda item: 2, longest=65536, grows=False)
SHAPES = {shape.name: shape for shape in (WIDE, HAND)}

# The console's heap under the rule before (xi), which makes old heaps: no shape of its own, its bytes are read as WIDE.
BEFORE = replace(WIDE, name="before", offered=WIDE.classes)
# The same under the rule before (v), which is the rule for a heap's own bytes up to its end.
FULL = replace(WIDE, name="full", grows=False)


def shape_of(data):
    """The shape that the first bytes tell; what is no hand unit's heap is read as the console's."""
    return HAND if data[:8] == HAND.magic else WIDE


class Unsound(Exception):
    """Says which sentence of "A sound heap" does not hold."""


def require(condition, what):
    if not condition:
        raise Unsound(what)


class State:
    """The abstract heap. It knows nothing of bytes."""

    def __init__(self, shape, end):
        self.shape = shape
        self.end = end  # of the heap, as it is stored; the buffer may be longer
        self.starts = []  # positions of all blocks, rising
        self.blocks = {}  # position -> (kind, size)
        self.page_class = {}  # position of a page -> class
        self.free = []  # positions of the free blocks, rising
        self.lists = [[] for _ in range(shape.classes)]  # item positions, the first item last
        self.item_class = {}  # position of an item in use -> class
        self.asked = {}  # position of an item in use -> the size that was asked for, where that is known

    def __eq__(self, other):
        return self.__dict__ == other.__dict__

    def add_block(self, position, kind, size):
        bisect.insort(self.starts, position)
        self.blocks[position] = (kind, size)
        if kind == FREE:
            bisect.insort(self.free, position)

    def remove_block(self, position):
        del self.starts[bisect.bisect_left(self.starts, position)]
        kind, size = self.blocks.pop(position)
        if kind == FREE:
            del self.free[bisect.bisect_left(self.free, position)]
        return kind, size

    def block_before(self, position):
        """The block that ends at this position, or none."""
        index = bisect.bisect_left(self.starts, position)
        return self.starts[index - 1] if index else None

    def is_free(self, position):
        return self.blocks.get(position, (None, 0))[0] == FREE

    def free_neighbours(self, position):
        """The free blocks before and after this free one, 0 where none."""
        index = bisect.bisect_left(self.free, position)
        before = self.free[index - 1] if index else 0
        after = self.free[index + 1] if index + 1 < len(self.free) else 0
        return before, after

    def next_link(self, position):
        """Where a free block's link to the next one stands."""
        return position + self.shape.word

    def previous_link(self, position):
        return position + self.blocks[position][1] - 2 * self.shape.word

    def lowest_fit(self, size):
        return next((p for p in self.free if self.blocks[p][1] >= size), None)

    def items_of_page(self, position):
        c, first = self.page_class[position], position + self.shape.word
        step = self.shape.item_size(c)
        return range(first, first + self.shape.items_in_page(c) * step, step)

    def held_in(self, page):
        """How many items of a page are in use."""
        return sum(item in self.item_class for item in self.items_of_page(page))

    def capacity(self, address):
        """How many bytes the payload at a live address holds, or none."""
        position = address - self.shape.word
        if position in self.item_class:
            return item_capacity(self.item_class[position])
        kind, size = self.blocks.get(position, (None, 0))
        return size - self.shape.tags if kind == VARIABLE else None

    def shown(self, address):
        """How many of these bytes a look-up shows: as many as were asked for, where that is known."""
        return self.asked.get(address - self.shape.word) or self.capacity(address)

    def live_addresses(self):
        variable = [p for p in self.starts if self.blocks[p][0] == VARIABLE]
        return [p + self.shape.word for p in (*variable, *self.item_class)]


def read_fixed_words(data, shape):
    require(data.startswith(shape.magic), "first bytes")
    for position, value in shape.fixed_words.items():
        require(shape.word_at(data, position) == value, f"fixed word at {position}")


def read_block(data, state, position):
    """The kind and the size of the block at a position."""
    shape = state.shape
    require(position + shape.tags <= state.end, "block runs past the end")
    tag = shape.word_at(data, position)
    kind, size = tag % 8, tag - tag % 8
    require(kind in (FREE, VARIABLE, PAGE), "kind")
    smallest = {FREE: shape.smallest_free, VARIABLE: shape.smallest_variable, PAGE: shape.smallest_page}[kind]
    require(size >= smallest, "size too small")
    require(position + size <= state.end, "block runs past the end")
    require(shape.word_at(data, position + size - shape.word) == tag, "tags differ")
    return kind, size


def read_page(data, state, position, size, next_item):
    """Notes a page's class and items; next_item gets its free items."""
    shape = state.shape
    c = shape.word_at(data, position + shape.word) // 4 % shape.classes
    state.page_class[position] = c
    require(size - shape.page_size(c) in shape.spare, "page's size")
    in_use, free, sizes = used_header(c, 0), free_header(c, 0), sizes_of(c)
    for item in state.items_of_page(position):
        header = shape.word_at(data, item)
        asked, low = divmod(header, 128)
        if low == in_use:
            require(asked == 0 or asked in sizes, "item's size")
            state.item_class[item] = c
            if asked:
                state.asked[item] = asked
        else:
            following, rest = shape.free_item(header)
            require(rest == free, "item's class or flags")
            next_item[item] = (c, following)


def read_blocks(data, state):
    next_item = {}
    position, after_free = state.shape.data_area, False
    while position != state.end:
        kind, size = read_block(data, state, position)
        require(not (after_free and kind == FREE), "two free blocks touch")
        after_free = kind == FREE
        state.starts.append(position)
        state.blocks[position] = (kind, size)
        if kind == FREE:
            state.free.append(position)
        elif kind == PAGE:
            read_page(data, state, position, size, next_item)
        position += size
    return next_item


def read_free_list(data, state):
    shape = state.shape
    first = state.free[0] if state.free else 0
    require(shape.word_at(data, shape.first_free) == first, "first free block")
    for position in state.free:
        before, after = state.free_neighbours(position)
        require(shape.word_at(data, state.next_link(position)) == after, "next link")
        require(shape.word_at(data, state.previous_link(position)) == before, "previous link")


def read_item_lists(data, state, next_item):
    """Each list takes its items out of next_item, so a second visit finds nothing."""
    shape = state.shape
    for c in range(shape.classes):
        offset = shape.word_at(data, shape.head(c))
        while offset != 0:
            item = offset + shape.index_page
            require(next_item.get(item, (None, 0))[0] == c, "list visits no fresh free item of its class")
            offset = next_item.pop(item)[1]
            state.lists[c].append(item)
        state.lists[c].reverse()
    require(not next_item, "a free item is on no list")


def read_heap(data, shape):
    """The abstract heap of a buffer's bytes; raises Unsound if there is none."""
    require(shape.shortest <= len(data) <= shape.longest, "length")
    read_fixed_words(data, shape)
    end = shape.word_at(data, shape.stored_end)
    require(shape.may_end(len(data), end), "end")
    data, state = data[:end], State(shape, end)  # what is behind the end is no part of the heap
    next_item = read_blocks(data, state)
    read_free_list(data, state)
    read_item_lists(data, state, next_item)
    return state


class Heap:
    """The calls of 01, as 02 changes them, on a lent bytearray; the console's unless another shape is told.

    The abstract heap is kept between calls. Whoever changes bytes other than
    those that may be anything must call decode afterwards. "writes" gathers
    (position, bytes) of all that the calls change; its reader may clear it.
    "kept" counts the resizes that found no room and left their record as it is, "grown" how often the heap grew.
    """

    def __init__(self, data, shape=WIDE):
        self.data = data
        self.shape = shape
        self.writes = []
        self.kept = 0
        self.grown = 0
        self.decode()

    def decode(self):
        """Reads the bytes anew and settles the refusal that any call but initialise begins with."""
        self.state = None
        self._forget_changes()
        if not self.shape.shortest <= len(self.data) <= self.shape.longest:
            self.verdict = BAD_LENGTH
        elif not self.data.startswith(self.shape.magic):
            self.verdict = NO_HEAP
        else:
            try:
                self.state = read_heap(self.data, self.shape)
                self.verdict = GRANTED
            except Unsound:
                self.verdict = NOT_SOUND

    # The calls. Each answers first the refusal number, then what it gives.

    def initialise(self, end=None):
        """Only of a shape that grows an end can be asked for; where it is not, the heap takes the whole buffer."""
        assert end is None or self.shape.grows
        if self.verdict == BAD_LENGTH:
            return BAD_LENGTH, 0
        if self.data.startswith(self.shape.magic):
            return ALREADY, 0
        end = end_of(len(self.data)) if end is None else end
        if not self.shape.may_end(len(self.data), end):
            return BAD_END, 0
        self.state = State(self.shape, end)
        self.verdict = GRANTED
        self._write(0, self.shape.magic)
        for position, value in self.shape.fixed_words.items():
            self._put(position, value)
        for c in range(self.shape.classes):
            self._changed_list(c, 0)
        self._add_free(self.shape.data_area, end - self.shape.data_area)
        self._lay_out_changes()
        return GRANTED, 0

    def check(self):
        return self.verdict, 0

    def allocate(self, size):
        refusal = self.verdict or self._refuse_size(size)
        return (refusal, 0) if refusal else self._give(self._allocate(size))

    def resize(self, address, size):
        """The rule of 01 with (i) of 02, as it was before (vii): not made of the two calls below."""
        refusal = self._refuse_resize(address, size)
        if refusal:
            return refusal, 0
        return self._give(self._stay(address, size) or self._move(address, size) or self._keep(address, size))

    def resize_in_place(self, address, size):
        refusal = self._refuse_resize(address, size)
        return (refusal, 0) if refusal else self._give(self._stay(address, size))

    def move(self, address, size):
        refusal = self._refuse_resize(address, size)
        return (refusal, 0) if refusal else self._give(self._move(address, size))

    def free(self, address):
        refusal = self.verdict or self._refuse_address(address)
        if refusal:
            return refusal, 0
        self._free(address)
        self._lay_out_changes()
        return GRANTED, 0

    def sweep(self):
        """The refusal and how many pages are given back: document 02, (ii)."""
        if self.verdict:
            return self.verdict, 0
        empty = [page for page in self.state.starts if page in self.state.page_class and not self.state.held_in(page)]
        for page in empty:  # each is a free of its own, so its tags and links are really written
            self._give_back(page)
            self._lay_out_changes()
        self._link_anew()
        self._lay_out_changes()
        return GRANTED, len(empty)

    def statistics(self):
        """The refusal, the six numbers and the table of classes."""
        table = [[0, 0, 0] for _ in range(self.shape.classes)]
        if self.verdict:
            return self.verdict, (0,) * 6, table
        state = self.state
        for c in state.page_class.values():
            table[c][0] += 1
        for c in state.item_class.values():
            table[c][1] += 1
        for c, items in enumerate(state.lists):
            table[c][2] = len(items)
        free_sizes = [state.blocks[p][1] for p in state.free]
        variable = sum(kind == VARIABLE for kind, _ in state.blocks.values())
        six = (sum(free_sizes), len(free_sizes), max(free_sizes, default=0), variable,
               len(state.page_class), len(state.item_class))
        return GRANTED, six, table

    def step(self, position):
        """The refusal, (what, position, size, ...) and where the walk then stands."""
        if self.verdict or position not in self.state.blocks:
            return self.verdict, END_OF_WALK, position
        kind, size = self.state.blocks[position]
        if kind == FREE:
            before, after = self.state.free_neighbours(position)
            answer = ("free", position, size, after, before)
        elif kind == PAGE:
            answer = ("page", position, size, self.state.page_class[position])
        else:
            answer = ("variable", position, size)
        return GRANTED, answer, position + size

    def look_up(self, address):
        """The refusal and the part of the lent heap, an empty one if refused."""
        refusal = self.verdict or self._refuse_address(address)
        length = 0 if refusal else self.state.shown(address)
        start = 0 if refusal else address
        return refusal, memoryview(self.data)[start:start + length]

    def word_at(self, position):
        return self.shape.word_at(self.data, position)

    def put(self, position, value):
        """No call: a word written by hand, and what the check then says."""
        self.shape.words.pack_into(self.data, position, value)
        self.decode()
        return self.check()

    def do(self, name, *numbers):
        """A step of a figure: a call, or a word put by hand."""
        return getattr(self, name)(*numbers)

    # Refusals that depend on what was asked, and the answer where there are none.

    def _refuse_size(self, size):
        return GRANTED if 1 <= size <= self.shape.largest_size else BAD_SIZE

    def _refuse_address(self, address):
        return BAD_ADDRESS if self.state.capacity(address) is None else GRANTED

    def _refuse_resize(self, address, size):
        return self.verdict or self._refuse_size(size) or self._refuse_address(address)

    def _give(self, address):
        """Lays out what the rules changed, and answers the address that they gave; 6 where they gave none."""
        self._lay_out_changes()
        return (GRANTED, address) if address else (NO_ROOM, 0)

    # The rules, on the abstract heap alone.

    def _allocate(self, size):
        """The new payload's address, or none if there is no room."""
        if size > self.shape.largest_item:
            position = self._take_block(self.shape.block_size(size), VARIABLE)
            return position and position + self.shape.word
        c = class_of(size)
        if not self.state.lists[c] and not self._make_page(c):
            return None
        item = self.state.lists[c].pop()
        self.state.item_class[item] = c
        self._changed_list(c, 0)
        self._ask(item, size)
        return item + self.shape.word

    def _ask(self, item, size):
        """Notes in an item in use for how many bytes it is: document 02, (iv)."""
        self.state.asked[item] = size
        self.changed_items.add(item)

    def _make_page(self, c):
        position = self._take_block(self.shape.page_size(c), PAGE)
        if position is None:
            return False
        self.state.page_class[position] = c
        items = list(self.state.items_of_page(position))
        self.state.lists[c] = items[::-1]
        self._changed_list(c, len(items))
        return True

    def _take_block(self, size, kind):
        position = self.state.lowest_fit(size)
        if position is None and self._grow(size):
            position = self.state.lowest_fit(size)
        if position is not None:
            whole = self._remove_free(position)
            self._use(position, size, whole, kind)
        return position

    def _grow(self, size):
        """Whether the heap can end in a free block of this size; if so it then does, and the block is really written."""
        state = self.state
        last_is_free = state.is_free(state.starts[-1])
        position = state.starts[-1] if last_is_free else state.end
        if not self.shape.may_end(len(self.data), position + size):
            return False
        if last_is_free:
            self._remove_free(position)
        self._add_free(position, size)
        state.end = position + size
        self._lay_out_changes()
        self.grown += 1
        return True

    def _use(self, position, size, whole, kind):
        """Makes a block of what is free from a position on; what remains stays free where it can be a block."""
        rest = whole - size
        if rest >= self.shape.smallest_free:
            self._add_free(position + size, rest)
        else:
            size = whole
        self.state.add_block(position, kind, size)
        self.changed_blocks.add(position)

    def _free(self, address):
        position = address - self.shape.word
        if position in self.state.item_class:
            c = self.state.item_class.pop(position)
            self.state.asked.pop(position, None)
            self.state.lists[c].append(position)
            self._changed_list(c, 1)
        else:
            _, size = self.state.remove_block(position)
            self._release(position, size)

    def _release(self, position, size):
        """Makes a stretch free that belongs to no block; joins it with free neighbours."""
        left, right = self.state.block_before(position), position + size
        if self.state.is_free(right):
            size += self._remove_free(right)
        if left is not None and self.state.is_free(left):
            size += self._remove_free(left)
            position = left
        self._add_free(position, size)

    def _give_back(self, page):
        """Frees a page as a block; what its items have on their list is left to those who link that anew."""
        del self.state.page_class[page]
        _, size = self.state.remove_block(page)
        self._release(page, size)

    def _link_anew(self):
        """Makes the list of every class from its pages: the fullest first, then the lowest; items rise within a page."""
        state = self.state
        state.lists = [[] for _ in state.lists]
        for page in sorted(state.page_class, key=lambda page: (-state.held_in(page), page)):
            state.lists[state.page_class[page]] += [item for item in state.items_of_page(page) if item not in state.item_class]
        for c, items in enumerate(state.lists):
            items.reverse()
            self._changed_list(c, len(items))

    def _stay(self, address, size):
        """The address again, if what is there can stay; if so it then has the size."""
        return address if self._resize_item(address, size) or self._resize_block(address, size) else None

    def _resize_item(self, address, size):
        """Whether the address is an item that stays; if so it is then for this size."""
        item = address - self.shape.word
        if self.state.item_class.get(item) != class_of(size):
            return False
        self._ask(item, size)
        return True

    def _resize_block(self, address, size):
        """Whether the address is a block that stays; if so it is shrunk or grown."""
        position = address - self.shape.word
        if size <= self.shape.largest_item or position in self.state.item_class:
            return False
        wanted = self.shape.block_size(size)
        _, old = self.state.blocks[position]
        if wanted <= old:
            if old - wanted >= self.shape.smallest_free:
                self.state.blocks[position] = (VARIABLE, wanted)
                self.changed_blocks.add(position)
                self._release(position + wanted, old - wanted)
            return True
        right = position + old
        if not self.state.is_free(right) or old + self.state.blocks[right][1] < wanted:
            return False
        self.state.remove_block(position)
        self._use(position, wanted, old + self._remove_free(right), VARIABLE)
        return True

    def _move(self, address, size):
        """Allocate, copy, free: three heaps, one after the other."""
        count = min(self.state.shown(address), size)
        new = self._allocate(size)
        if not new:
            return None
        self._lay_out_changes()
        self._write(new, bytes(self.data[address:address + count]))
        self._free(address)
        return new

    def _keep(self, address, size):
        """The address again, if what is there holds the size already: document 02, (i)."""
        if size > self.state.capacity(address):
            return None
        self.kept += 1
        return address

    # Changes of the free list, with all the blocks whose links they change.

    def _add_free(self, position, size):
        self.state.add_block(position, FREE, size)
        self.changed_blocks.update((position, *self.state.free_neighbours(position)))

    def _remove_free(self, position):
        """Takes a free block out and answers its size."""
        self.changed_blocks.update(self.state.free_neighbours(position))
        return self.state.remove_block(position)[1]

    # Laying out.

    def _forget_changes(self):
        self.changed_blocks = set()  # positions; 0 and blocks that are gone do not matter
        self.changed_lists = {}  # class -> how many of its first items have new headers
        self.changed_items = set()  # items that are now in use, or for another size

    def _changed_list(self, c, count):
        self.changed_lists[c] = max(count, self.changed_lists.get(c, 0))

    def _lay_out_changes(self):
        for position in self.changed_blocks:
            if position in self.state.blocks:
                self._lay_out_block(position)
        if self.changed_blocks:
            self._put(self.shape.first_free, self.state.free[0] if self.state.free else 0)
            self._put(self.shape.stored_end, self.state.end)
        for c, count in self.changed_lists.items():
            self._lay_out_list(c, count)
        for item in self.changed_items:
            self._put(item, used_header(self.state.item_class[item], self.state.asked.get(item, 0)))
        self._forget_changes()

    def lay_out_whole(self):
        """Writes every named word that is not fixed; changes nothing if the bytes are right."""
        self.changed_blocks.update(self.state.starts)
        for c, items in enumerate(self.state.lists):
            self._changed_list(c, len(items))
        self.changed_items.update(self.state.item_class)
        self._lay_out_changes()

    def _lay_out_block(self, position):
        kind, size = self.state.blocks[position]
        self._put(position, size + kind)
        self._put(position + size - self.shape.word, size + kind)
        if kind == FREE:
            before, after = self.state.free_neighbours(position)
            self._put(self.state.next_link(position), after)
            self._put(self.state.previous_link(position), before)

    def _lay_out_list(self, c, count):
        """Writes the head of a list and the headers of its first items."""
        items, origin = self.state.lists[c], self.shape.index_page  # of all item offsets
        self._put(self.shape.head(c), items[-1] - origin if items else 0)
        for index in range(max(0, len(items) - count), len(items)):
            self._put(items[index], free_header(c, items[index - 1] - origin if index else 0))

    def _put(self, position, value):
        self._write(position, self.shape.words.pack(value))

    def _write(self, position, content):
        if self.data[position:position + len(content)] != content:
            self.data[position:position + len(content)] = content
            self.writes.append((position, content))


RECORD_CALLS = ("initialise", "allocate", "resize", "free", "statistics")  # by a record's kind
RECORD_NUMBERS = (1, 1, 2, 1, 0)  # how many numbers its body has


def records_of(content):
    """The kind and the numbers of each record of a call list; none where it must stop."""
    at = 0
    while at < len(content):
        kind = content[at]
        count = RECORD_NUMBERS[kind] if kind < len(RECORD_NUMBERS) else None
        if count is None or at + 1 + 4 * count > len(content):
            yield None
            return
        yield kind, struct.unpack_from(f"<{count}I", content, at + 1)
        at += 1 + 4 * count


def call_list(content):
    """The output of the call-list program for these records."""
    heap, lines = Heap(bytearray(65536)), []
    for number, record in enumerate(records_of(content)):
        if record is None:
            return lines + ["stop"]
        kind, body = record
        name = RECORD_CALLS[kind]
        if name == "initialise":
            heap, refusal = call_list_initialise(heap, body[0])
            lines.append(f"{number} {refusal} 0")
        elif name == "statistics":
            refusal, six, _ = heap.statistics()
            lines.append(" ".join(map(str, (number, refusal, *six))))
        else:
            refusal, address = getattr(heap, name)(*body)
            lines.append(f"{number} {refusal} {address}")
    return lines


def call_list_initialise(heap, length):
    """The heap that counts from here on, and the refusal; the buffer is always the same one."""
    if not WIDE.shortest <= length <= 65536:
        return heap, BAD_LENGTH
    if heap.data.startswith(WIDE.magic):
        return heap, ALREADY
    fresh = Heap(heap.data[:length])
    return fresh, fresh.initialise()[0]


# The call-list example of 01, and what it prints; the program knows the console's heap alone.
EXAMPLE = bytes.fromhex("00 10270000 01 2c010000 01 10000000 03 40010000 03 40010000 04")
EXAMPLE_LINES = ["0 0 0", "1 0 320", "2 0 648", "3 0 0", "4 5 0", "5 0 5568 2 5248 0 1 1"]


def example_calls():
    """The example's records and lines as calls of a figure; for C there are no statistics."""
    for (kind, body), line in zip(records_of(EXAMPLE), EXAMPLE_LINES):
        name = RECORD_CALLS[kind]
        numbers = () if name == "initialise" else body
        if name != "statistics":
            yield name, *numbers, *map(int, line.split()[1:])


OPENED = ("initialise", 0, 0)  # in the whole buffer

# The console's. 300 and 16 on a fresh heap, as in 01, and then 13: what (iv) is told of
REMARK = [OPENED, ("allocate", 300, 0, 320), ("allocate", 16, 0, 648), ("allocate", 13, 0, 672)]
# what stands in its 16 bytes; the last three are stale
STALE = [("put", 672, 0x2222222222222222, 0, 0), ("put", 680, 0x3333333333333333, 0, 0)]

# Class 15: of a full page at 312 all records but the last are freed, and a page at 4,544 has three: what (ii) is told of
TWO_PAGES = [OPENED] + [("allocate", 128, 0, a) for a in (*range(328, 4409, 136), *range(4560, 4833, 136))] + [
    ("free", a, 0, 0) for a in range(328, 4273, 136)]

# By the rule before, a page of class 31 at 312 with records of 256 and 250 bytes and 14 free items: what (xi) is told of
OLD_RECORDS = [OPENED, ("allocate", 256, 0, 328), ("allocate", 250, 0, 592)]
OLD_PAGE = (10000, OLD_RECORDS)
OLD_PAGE_ALONE = (4552, OLD_RECORDS)
# what stands in the 256 bytes of the second, at their end; the last six are stale
OLD_STALE = [("put", 832, 0x4444444444444444, 0, 0), ("put", 840, 0x5555555555555555, 0, 0)]

# As small as it may begin; then 300, 16 and a move, for each of which it grows: what (v) is told of
SMALL = ("initialise", 344, 0, 0)
GROWN = [SMALL, ("allocate", 300, 0, 320), ("allocate", 16, 0, 648), ("resize", 320, 400, 0, 4760)]
# what stands where it grows: in the payload of 300 first, second, third and last but one, in its far tag, and behind it
STALE_GROWN = [("put", p, 0x6666666666666666, 2, 0) for p in (320, 328, 336, 344, 616, 624, 632)]
# three blocks of 320 bytes, of which the first is freed, and then the last too; and what stands behind them
THREE_BLOCKS = [SMALL] + [("allocate", 300, 0, a) for a in (320, 640, 960)] + [("free", 320, 0, 0)]
LAST_FREE = THREE_BLOCKS + [("free", 960, 0, 0)]
STALE_BEHIND = [("put", p, 0x7777777777777777, 0, 0) for p in range(1272, 1713, 8)]
# records of four kinds, of which one is shrunk and one moved, on a fresh heap or a small one, freed in another order, and a sweep:
# what (xii) is told of; and then all words before the blocks, but for the end
RECORDS = [("allocate", 256, 0, 320), ("allocate", 1, 0, 600), ("allocate", 24, 0, 4728), ("allocate", 300, 0, 8864),
           ("resize", 320, 200, 0, 320), ("move", 600, 8, 0, 616)]
ALL_FREED = [("free", a, 0, 0) for a in (8864, 616, 320, 4728)] + [("sweep", 0, 2)]
FRESH_WORDS = {0: 0x01636f6c6c617978, 8: 312, 16: 48, 24: 312, 40: 275} | dict.fromkeys(range(48, 304, 8), 0) | {304: 275}
# ends that no heap in a buffer of 10,007 bytes may have
BAD_ENDS = (0, 8, 312, 336, 340, 343, 345, 348, 9999, 10001, 10004, 10007, 10008, 1048576, 2**32 + 344, 2**63 + 344, 2**64 - 8,
            2**64 - 1)

# The hand unit's. Two items of class 0
HAND_ITEMS = [OPENED, ("allocate", 1, 0, 104), ("allocate", 8, 0, 116)]

# 300, 16 and 13; and what stands in the 16 bytes of the last
HAND_REMARK = [OPENED, ("allocate", 300, 0, 100), ("allocate", 16, 0, 416), ("allocate", 13, 0, 436)]
HAND_STALE = [("put", p, value, 0, 0) for p, value in zip(range(436, 452, 4), 2 * [0x22222222] + 2 * [0x33333333])]

# 300 and 16, and the first is freed again: a hole of 312 bytes; and a block of 608
HAND_HOLE = HAND_REMARK[:3] + [("free", 100, 0, 0)]
HAND_BLOCK = [OPENED, ("allocate", 600, 0, 100)]

# What (xii) is told of, in 1,000 bytes
HAND_RECORDS = [("allocate", 256, 0, 100), ("allocate", 1, 0, 368), ("allocate", 24, 0, 400), ("allocate", 300, 0, 460),
                ("resize", 100, 200, 0, 100), ("move", 368, 8, 0, 380)]
HAND_ALL_FREED = [("free", a, 0, 0) for a in (460, 380, 100, 400)] + [("sweep", 0, 2)]
HAND_FRESH_WORDS = {0: 0x6c617978, 4: 0x02636f6c, 8: 96, 12: 28, 16: 96, 24: 75} | dict.fromkeys(range(28, 92, 4), 0) | {92: 75}

# Class 0: of two pages the first records are freed, and of a third the only one
HAND_PAGES = [OPENED] + [("allocate", 1, 0, a) for a in (104, 116, 136, 148, 168)] + [("free", a, 0, 0) for a in (104, 136, 168)]

# Figures of 01 and 02 that are run, on this program and, by compare.py, on the library of the shape: the length of a
# buffer of zeros, or that and calls by the rule before, which make an old heap of it; calls, and words put by hand, with
# their refusals and addresses; words by the positions where they then stand; and, of this program alone, how many bytes
# a look-up then shows, by the address. Those of the rule before are of this program alone.
FIGURES = {BEFORE: {
    "largest-item": (4552, [OPENED, ("allocate", 256, 0, 328)],
                     {24: 0, 296: 536, 312: 4243, 320: 32895, 584: 12925, 4544: 4243}, {328: 256}),
    "block-of-280": (10000, [OPENED, ("allocate", 257, 0, 320)], {312: 282}, {320: 264}),
    "block-of-272": (584, [OPENED, ("allocate", 256, 6, 0), ("put", 312, 274, 3, 0), ("put", 576, 274, 3, 0),
                           ("put", 24, 0, 3, 0)], {}, {320: 0}),
    "block-moved": (10000, [OPENED, ("allocate", 300, 0, 320), ("resize_in_place", 320, 256, 6, 0),
                            ("resize_in_place", 320, 257, 0, 320), ("move", 320, 257, 0, 600)],
                    {24: 312, 312: 280, 320: 872, 592: 282, 872: 9128}, {600: 264}),
    "item-moved": (10000, OLD_RECORDS + [("move", 592, 256, 0, 856)], {296: 536, 584: 17149, 848: 32895}, {592: 0, 856: 256}),
}, WIDE: {
    "largest-item": (10000, [OPENED, ("allocate", 128, 0, 328)], {24: 4544, 168: 408, 312: 4235, 320: 16447}, {328: 128}),
    "block-of-152": (10000, [OPENED, ("allocate", 129, 0, 320)], {24: 464, 312: 154, 456: 154, 464: 9536}, {320: 136}),
    "block-of-272": (584, [OPENED, ("allocate", 257, 6, 0), ("allocate", 256, 0, 320)], {24: 0, 312: 274, 576: 274}, {320: 256}),
    "block-of-280": (10000, [OPENED, ("allocate", 257, 0, 320)], {312: 282}, {320: 264}),
    "block-of-152-is-sound": (464, [OPENED, ("put", 312, 154, 3, 0), ("put", 456, 154, 3, 0), ("put", 24, 0, 0, 0),
                                    ("check", 0, 0), ("free", 320, 0, 0)], {24: 312, 312: 152}, {}),
    "block-of-144-is-not": (456, [OPENED, ("put", 312, 146, 3, 0), ("put", 448, 146, 3, 0), ("put", 24, 0, 3, 0),
                                  ("check", 3, 0), ("free", 320, 3, 0)], {24: 0, 312: 146}, {320: 0}),
    "page-at-312": (10000, [OPENED, ("allocate", 16, 0, 328), ("free", 48, 5, 0), ("free", 320, 5, 0)],
                    {312: 4123}, {320: 0, 328: 16}),
    "call-list": (10000, list(example_calls()), {}, {}),
    "smaller-size": (1000, [OPENED, ("allocate", 300, 0, 320), ("resize", 320, 20, 0, 320),
                            ("resize", 320, 304, 0, 320), ("resize", 320, 900, 6, 0),
                            ("resize_in_place", 320, 20, 6, 0), ("move", 320, 20, 6, 0)],
                     {24: 632, 312: 322, 632: 368}, {320: 304}),
    "item-moved": (10000, [OPENED, ("allocate", 16, 0, 328), ("resize_in_place", 328, 9, 0, 328),
                           ("resize_in_place", 328, 8, 6, 0), ("resize_in_place", 328, 17, 6, 0),
                           ("move", 328, 16, 0, 352)],
                   {56: 272, 320: 5125, 344: 2055}, {328: 0, 352: 16}),
    "block-moved": (10000, [OPENED, ("allocate", 300, 0, 320), ("resize_in_place", 320, 128, 6, 0),
                            ("resize_in_place", 320, 129, 0, 320), ("move", 320, 129, 0, 472)],
                    {24: 312, 312: 152, 320: 616, 464: 154, 616: 9384}, {472: 136}),
    "block-grown-to-256": (10000, [OPENED, ("allocate", 129, 0, 320), ("resize_in_place", 320, 256, 0, 320)],
                           {24: 584, 312: 274, 576: 274, 584: 9416}, {320: 256}),
    "block-shrunk-to-225": (10000, [OPENED, ("allocate", 256, 0, 320), ("resize_in_place", 320, 225, 0, 320)],
                            {24: 584, 312: 274, 584: 9416}, {320: 256}),
    "block-shrunk-to-224": (10000, [OPENED, ("allocate", 256, 0, 320), ("resize_in_place", 320, 224, 0, 320)],
                            {24: 552, 312: 242, 544: 242, 552: 9448}, {320: 224}),
    "size-kept": (10000, REMARK, {640: 2055, 664: 1671}, {320: 304, 648: 16, 672: 13}),
    "size-in-place": (10000, REMARK + [("resize_in_place", 672, 9, 0, 672)], {664: 1159}, {672: 9}),
    "size-moved": (10000, REMARK + STALE + [("move", 672, 16, 0, 696)],
                   {688: 2055, 696: 0x2222222222222222, 704: 0x3333333333}, {696: 16}),
    "older-item": (10000, REMARK + [("put", 664, 7, 0, 0)], {664: 7}, {648: 16, 672: 16}),
    "older-item-resized": (10000, REMARK + [("put", 664, 7, 0, 0), ("resize_in_place", 672, 16, 0, 672)],
                           {664: 2055}, {672: 16}),
    "older-item-moved": (10000, REMARK + STALE + [("put", 664, 7, 0, 0), ("move", 672, 16, 0, 696)],
                         {688: 2055, 696: 0x2222222222222222, 704: 0x3333333333333333}, {696: 16}),
    "size-of-8": (10000, REMARK + [("put", 664, 128 * 8 + 7, 3, 0), ("free", 672, 3, 0)], {}, {672: 0}),
    "size-of-17": (10000, REMARK + [("put", 664, 128 * 17 + 7, 3, 0), ("free", 672, 3, 0)], {}, {672: 0}),
    "size-kept-where-the-item-is": (4800, [OPENED, ("allocate", 30, 0, 328), ("resize", 328, 5, 0, 328)],
                                    {320: 3855}, {328: 30}),
    "older-item-where-it-is": (4800, [OPENED, ("allocate", 30, 0, 328), ("put", 320, 15, 0, 0), ("resize", 328, 5, 0, 328)],
                               {320: 15}, {328: 32}),
    "last-freed-first": (10000, TWO_PAGES + [("allocate", 128, 0, 4272)], {}, {}),
    "fuller-page-first": (10000, TWO_PAGES + [("sweep", 0, 0), ("allocate", 128, 0, 4968)], {168: 5048, 5096: 83005}, {4968: 128}),
    "page-given-back": (10000, TWO_PAGES + [("sweep", 0, 0), ("allocate", 128, 0, 4968), ("free", 4408, 0, 0),
                                            ("sweep", 0, 1), ("sweep", 0, 0)],
                        {24: 312, 168: 5048, 312: 4232, 320: 8776, 4528: 0, 4536: 4232, 4544: 4235, 8776: 1224},
                        {4408: 0, 4560: 128}),
    "touching-pages": (10000, TWO_PAGES + [("free", a, 0, 0) for a in (4408, 4560, 4696, 4832)] + [
        ("sweep", 0, 2), ("sweep", 0, 0), ("allocate", 9672, 0, 320)],
                       {24: 0, 168: 0, 312: 9690, 4528: 0, 4536: 4232, 4544: 4235, 8768: 4235, 9984: 0, 9992: 9690},
                       {320: 9672, 4560: 0}),
    "old-page": (OLD_PAGE, [("check", 0, 0)], {296: 800, 312: 4243, 320: 32895, 584: 32127, 848: 17149, 4280: 125},
                 {328: 256, 592: 250, 856: 0}),
    "old-item-freed": (OLD_PAGE, [("free", 592, 0, 0), ("free", 592, 5, 0)], {296: 536, 584: 12925}, {328: 256, 592: 0}),
    "old-item-in-place": (OLD_PAGE, [("resize_in_place", 592, 248, 6, 0), ("resize_in_place", 592, 257, 6, 0),
                                     ("resize_in_place", 592, 249, 0, 592), ("resize", 328, 251, 0, 328)],
                          {24: 4552, 296: 800, 320: 32255, 584: 31999}, {328: 251, 592: 249}),
    "old-item-moved": (OLD_PAGE, OLD_STALE + [("move", 592, 256, 0, 4560)],
                       {24: 4824, 296: 536, 584: 12925, 4552: 274, 4800: 0x4444444444444444, 4808: 0x5555, 4816: 274, 4824: 5176},
                       {592: 0, 4560: 256}),
    "old-item-without-a-size-moved": (OLD_PAGE, OLD_STALE + [("put", 584, 127, 0, 0), ("move", 592, 249, 0, 4560)],
                                      {296: 536, 4552: 274, 4800: 0x4444444444444444, 4808: 0x55}, {592: 0, 4560: 256}),
    "old-item-to-a-closed-class": (OLD_PAGE, [("resize", 592, 248, 0, 4560)], {296: 536, 584: 12925, 4552: 266, 4808: 266},
                                   {4560: 248}),
    "old-item-to-an-offered-class": (OLD_PAGE, [("resize", 592, 128, 0, 4568)], {296: 536, 584: 12925, 4552: 4235, 4560: 16447},
                                     {4568: 128}),
    "old-item-to-257": (OLD_PAGE, [("resize", 592, 257, 0, 4560)], {296: 536, 584: 12925, 4552: 282}, {4560: 264}),
    "free-items-wait": (OLD_PAGE, [("free", 592, 0, 0), ("allocate", 250, 0, 4560), ("allocate", 129, 0, 4832)],
                        {24: 4976, 296: 536, 584: 12925, 848: 17149, 4552: 274, 4824: 154}, {592: 0, 4560: 256, 4832: 136}),
    "free-items-wait-without-room": (OLD_PAGE_ALONE, [("allocate", 256, 6, 0), ("move", 592, 256, 6, 0), ("resize", 592, 257, 6, 0),
                                                      ("resize", 592, 249, 0, 592), ("resize", 328, 200, 0, 328)],
                                     {24: 0, 296: 800, 320: 32895, 584: 31999}, {328: 256, 592: 249}),
    "old-page-linked-anew": ((10000, OLD_RECORDS + [("allocate", 253, 0, 856)]), [
        ("free", 328, 0, 0), ("free", 592, 0, 0), ("sweep", 0, 0), ("sweep", 0, 0)],
                             {24: 4552, 296: 272, 312: 4243, 320: 8701, 584: 17149, 4280: 125}, {328: 0, 592: 0, 856: 253}),
    "old-page-given-back": (OLD_PAGE, [("free", 592, 0, 0), ("free", 328, 0, 0), ("sweep", 0, 1), ("sweep", 0, 0),
                                       ("allocate", 256, 0, 320)],
                            {24: 584, 296: 0, 312: 274, 4544: 4243, 4552: 5448, 584: 9416, 9992: 9416}, {320: 256}),
    "begins-small": (10000, GROWN[:1], {24: 312, 32: 344, 312: 32, 320: 0, 328: 0, 336: 32, 344: 0}, {}),
    "grows-for-a-block": (10000, GROWN[:2], {24: 0, 32: 632, 312: 322, 624: 322}, {320: 304}),
    "grows-for-a-page": (10000, GROWN[:3] + [("allocate", 16, 0, 672)],
                         {24: 0, 32: 4752, 56: 640, 632: 4123, 640: 2055, 664: 2055, 688: 10629, 4744: 4123}, {648: 16, 672: 16}),
    "grows-for-a-move": (10000, GROWN, {24: 312, 32: 5168, 312: 320, 624: 320, 4752: 418, 5160: 418}, {320: 0, 4760: 400}),
    "grows-for-a-move-to-the-same-size": (10000, GROWN[:2] + [("move", 320, 300, 0, 640)], {24: 312, 32: 952, 312: 320, 632: 322},
                                          {320: 0, 640: 304}),
    "grows-to-the-end": (1000, [SMALL, ("allocate", 672, 0, 320), ("allocate", 257, 6, 0), ("allocate", 1, 6, 0)],
                         {24: 0, 32: 1000, 312: 690, 992: 690}, {320: 672}),
    "grows-no-further": (1000, [SMALL, ("allocate", 673, 6, 0), ("allocate", 1, 6, 0)], {24: 312, 32: 344, 312: 32, 336: 32}, {}),
    "grows-to-the-end-behind-a-block": (960, GROWN[:2] + [("allocate", 313, 6, 0), ("allocate", 312, 0, 640)],
                                        {24: 0, 32: 960, 632: 330, 952: 330}, {640: 312}),
    "grows-to-the-end-for-a-page": (4439, [SMALL, ("allocate", 16, 0, 328)], {24: 0, 32: 4432, 312: 4123, 4424: 4123}, {328: 16}),
    "grows-no-further-for-a-page": (4431, [SMALL, ("allocate", 16, 6, 0)], {24: 312, 32: 344, 312: 32}, {}),
    "stale-words-of-growth": (10000, STALE_GROWN + GROWN[:2],
                              {312: 322, 320: 0, 328: 0, 336: 32, 344: 0x6666666666666666, 616: 0, 624: 322,
                               632: 0x6666666666666666}, {320: 304}),
    "free-block-before-growth": (10000, THREE_BLOCKS + STALE_BEHIND + [("allocate", 400, 0, 1280)],
                                 {24: 312, 32: 1688, 320: 0, 616: 0, 1272: 418, 1280: 0, 1288: 0x7777777777777777, 1672: 312,
                                  1680: 418, 1688: 0x7777777777777777}, {1280: 400}),
    "last-block-enlarged": (10000, LAST_FREE + STALE_BEHIND + [("allocate", 400, 0, 960)],
                            {24: 312, 32: 1368, 320: 0, 616: 0, 952: 418, 960: 0, 1256: 312, 1264: 320, 1272: 0x7777777777777777,
                             1352: 312, 1360: 418, 1368: 0x7777777777777777}, {960: 400}),
    "last-block-enlarged-to-the-end": (1368, LAST_FREE + [("allocate", 401, 6, 0), ("allocate", 16, 6, 0),
                                                          ("allocate", 400, 0, 960)],
                                       {24: 312, 32: 1368, 320: 0, 952: 418, 1360: 418}, {960: 400}),
    "last-block-is-large-enough": (10000, LAST_FREE + [("free", 640, 0, 0), ("allocate", 944, 0, 320)],
                                   {24: 0, 32: 1272, 312: 962, 1264: 962}, {320: 944}),
    "free-block-and-item-before-growth": (10000, GROWN + [("allocate", 300, 0, 320), ("allocate", 9, 0, 672), ("free", 672, 0, 0),
                                                          ("move", 648, 9, 0, 672)], {24: 0, 32: 5168, 312: 322}, {320: 304}),
    "in-place-never-grows": (10000, GROWN[:2] + [("resize_in_place", 320, 304, 0, 320), ("resize_in_place", 320, 305, 6, 0),
                                                 ("allocate", 300, 0, 640), ("free", 640, 0, 0),
                                                 ("resize_in_place", 320, 625, 6, 0), ("resize_in_place", 320, 624, 0, 320)],
                             {24: 0, 32: 952, 312: 642}, {320: 624}),
    "moved-where-it-could-not-stay": (10000, THREE_BLOCKS[:3] + [("free", 640, 0, 0), ("resize", 320, 625, 0, 640)],
                                      {24: 312, 32: 1280, 312: 320, 632: 650, 1272: 650}, {640: 632}),
    "moved-where-it-could-be-kept": (10000, GROWN[:2] + [("resize", 320, 20, 0, 648)], {24: 312, 32: 4776, 312: 320, 632: 4147},
                                     {320: 0, 648: 20}),
    "kept-where-it-cannot-grow": (1000, [SMALL, ("allocate", 600, 0, 320), ("resize_in_place", 320, 20, 6, 0),
                                         ("move", 320, 20, 6, 0), ("resize", 320, 20, 0, 320), ("resize", 320, 609, 6, 0)],
                                  {24: 0, 32: 928}, {320: 600}),
    "end-stays": (10000, GROWN + [("free", a, 0, 0) for a in (4760, 648)] + [("sweep", 0, 1), ("sweep", 0, 0)],
                  {24: 312, 32: 5168, 312: 4856, 5160: 4856, 5168: 0}, {}),
    "begins-between": (10007, [("initialise", 9992, 0, 0), ("allocate", 9673, 6, 0), ("allocate", 9665, 0, 320),
                               ("allocate", 129, 6, 0)],
                       {24: 0, 32: 10000, 312: 9690, 9992: 9690}, {320: 9672}),
    "bad-ends": (10007, [("initialise", end, 8, 0) for end in BAD_ENDS] + [
        ("check", 2, 0), OPENED, *(("initialise", end, 7, 0) for end in (344, 10000, *BAD_ENDS))], {32: 10000}, {}),
    "bad-end-and-length": (343, [("initialise", end, 1, 0) for end in (0, 336, 343, 344)], {}, {}),
    "shortest-end": (351, [("initialise", end, 8, 0) for end in (336, 345, 351, 352)] + [SMALL, ("allocate", 129, 6, 0)],
                     {32: 344}, {}),
    "another-end": (10000, THREE_BLOCKS[:3] + [
        ("put", 32, end, 3, 0) for end in (0, 312, 336, 344, 628, 944, 960, 10000, 10008, 2**64 - 8)] + [
        ("put", 32, 632, 0, 0), ("free", 640, 5, 0), ("allocate", 301, 0, 640)], {24: 0, 32: 952}, {640: 304}),
    "old-page-and-growth": ((10000, [SMALL] + OLD_RECORDS[1:]), [("allocate", 256, 0, 4560), ("move", 592, 250, 0, 4832)],
                            {24: 0, 32: 5096, 296: 536, 584: 12925, 4552: 274, 4824: 274}, {592: 0, 4832: 256}),
    "everything-back": (10000, [OPENED] + RECORDS + ALL_FREED,
                        FRESH_WORDS | {32: 10000, 312: 9688, 320: 0, 9984: 0, 9992: 9688}, {}),
    "everything-back-of-a-heap-that-grew": (10000, [SMALL] + RECORDS + ALL_FREED,
                                            FRESH_WORDS | {32: 9176, 312: 8864, 320: 0, 9160: 0, 9168: 8864, 9176: 0}, {}),
    "sweep-of-no-heap": (10000, [("sweep", 2, 0)], {}, {}),
    "sweep-of-a-damaged-heap": (10000, TWO_PAGES + [("put", 312, 4227, 3, 0), ("sweep", 3, 0)], {}, {}),
}, HAND: {
    "too-short": (111, [("initialise", 1, 0), ("check", 1, 0)], {}, {}),
    "shortest": (112, [OPENED, ("allocate", 1, 6, 0)],
                 {8: 96, 12: 28, 16: 96, 20: 112, 24: 75, 92: 75, 96: 16, 100: 0, 104: 0, 108: 16}, {}),
    "one-item": (128, [OPENED, ("allocate", 1, 0, 104)],
                 {16: 0, 28: 84, 96: 35, 100: 131, 112: 1, 124: 35}, {104: 1, 116: 0}),
    "two-items": (128, HAND_ITEMS + [("allocate", 8, 6, 0)], {28: 0, 112: 1027}, {104: 1, 116: 8}),
    "largest-item": (1000, [OPENED, ("allocate", 128, 0, 104)],
                     {16: 368, 88: 204, 96: 275, 100: 16447, 232: 61, 364: 275, 368: 632}, {104: 128}),
    "block-of-144": (1000, [OPENED, ("allocate", 129, 0, 100), ("allocate", 65537, 4, 0), ("allocate", 65536, 6, 0)],
                     {16: 240, 96: 146, 236: 146, 240: 760, 996: 760}, {100: 136}),
    "longest": (65536, [OPENED, ("allocate", 65440, 6, 0), ("allocate", 65432, 0, 100)],
                {16: 0, 20: 65536, 96: 65442, 65532: 65442}, {100: 65432}),
    "too-long": (65537, [("initialise", 1, 0), ("check", 1, 0)], {}, {}),
    "next-at-a-multiple-of-8": (1000, HAND_ITEMS + [("free", 104, 0, 0), ("free", 116, 0, 0)], {28: 84, 100: 1, 112: 1153}, {}),
    "next-at-a-multiple-of-4": (1000, HAND_ITEMS + [("free", 116, 0, 0), ("free", 104, 0, 0)], {28: 72, 100: 1345, 112: 1}, {}),
    "next-at-half-a-word": (1000, [OPENED, ("allocate", 1, 0, 104), ("put", 112, 33, 3, 0), ("put", 112, 65, 3, 0),
                                   ("put", 112, 1, 0, 0)], {}, {}),
    "class-16": (1000, [OPENED, ("allocate", 5, 0, 104), ("put", 100, 643 + 64, 3, 0), ("free", 104, 3, 0),
                        ("put", 100, 3 + 64, 3, 0), ("put", 100, 3, 0, 0)], {}, {104: 8}),
    "rest-of-16": (1000, HAND_HOLE + [("allocate", 288, 0, 100)], {16: 392, 96: 298, 392: 16, 396: 456, 400: 0, 404: 16}, {}),
    "rest-of-8": (1000, HAND_HOLE + [("allocate", 289, 0, 100)], {16: 456, 96: 314, 404: 314}, {100: 304}),
    "hole": (1000, HAND_HOLE + [("free", 100, 5, 0), ("free", 412, 5, 0), ("free", 28, 5, 0)],
             {16: 96, 32: 404, 96: 312, 100: 456, 408: 51, 412: 2055, 432: 5, 456: 544}, {416: 16}),
    "shrunk-by-8": (1000, HAND_BLOCK + [("resize", 100, 592, 0, 100)], {16: 704, 96: 610, 704: 296}, {100: 600}),
    "shrunk-by-16": (1000, HAND_BLOCK + [("resize", 100, 584, 0, 100)], {16: 688, 96: 594, 688: 312}, {100: 584}),
    "grown": (1000, HAND_BLOCK + [("resize", 100, 700, 0, 100)], {16: 808, 96: 714, 808: 192}, {100: 704}),
    "grown-over-8": (1000, HAND_BLOCK + [("resize_in_place", 100, 888, 0, 100)], {16: 0, 96: 906, 996: 906}, {100: 896}),
    "smaller-size": (500, [OPENED, ("allocate", 380, 0, 100), ("resize", 100, 20, 0, 100), ("resize", 100, 392, 0, 100),
                           ("resize", 100, 393, 6, 0), ("resize_in_place", 100, 20, 6, 0), ("move", 100, 20, 6, 0)],
                     {16: 0, 20: 496, 96: 402, 492: 402}, {100: 392}),
    "block-moved": (1000, HAND_REMARK[:2] + [("resize_in_place", 100, 128, 6, 0), ("resize_in_place", 100, 129, 0, 100),
                                             ("move", 100, 129, 0, 244)],
                    {16: 96, 96: 144, 100: 384, 240: 146, 384: 616}, {244: 136}),
    "size-kept": (1000, HAND_REMARK, {412: 2055, 432: 1671}, {100: 304, 416: 16, 436: 13}),
    "size-in-place": (1000, HAND_REMARK + [("resize_in_place", 436, 9, 0, 436), ("resize_in_place", 436, 8, 6, 0)],
                      {432: 1159}, {436: 9}),
    "size-moved": (1000, HAND_REMARK + HAND_STALE + [("move", 436, 16, 0, 464)],
                   {32: 404, 432: 7237, 460: 2055, 464: 0x22222222, 468: 0x22222222, 472: 0x33333333, 476: 0x33, 480: 5},
                   {436: 0, 464: 16}),
    "older-item-moved": (1000, HAND_REMARK + HAND_STALE + [("put", 432, 7, 0, 0), ("move", 436, 16, 0, 464)],
                         {460: 2055, 472: 0x33333333, 476: 0x33333333}, {464: 16}),
    "size-of-8": (1000, HAND_REMARK + [("put", 432, 128 * 8 + 7, 3, 0), ("put", 432, 128 * 17 + 7, 3, 0)], {}, {436: 0}),
    "page-given-back": (1000, HAND_PAGES + [("sweep", 0, 1), ("sweep", 0, 0)],
                        {16: 160, 28: 72, 100: 1665, 132: 1, 160: 840, 188: 35, 996: 840}, {104: 0, 116: 1, 148: 1}),
    "lower-page-first": (1000, HAND_PAGES + [("sweep", 0, 1)] + [("allocate", 1, 0, a) for a in (104, 136, 168)], {}, {}),
    "everything-back": (1000, [OPENED] + HAND_RECORDS + HAND_ALL_FREED,
                        HAND_FRESH_WORDS | {20: 1000, 96: 904, 100: 0, 992: 0, 996: 904}, {}),
    "sweep-of-no-heap": (1000, [("sweep", 2, 0)], {}, {}),
    "sweep-of-a-damaged-heap": (1000, HAND_PAGES + [("put", 160, 43, 3, 0), ("sweep", 3, 0)], {}, {}),
    "another-end": (1000, [OPENED, ("allocate", 300, 0, 100), ("allocate", 584, 0, 412), ("put", 20, 408, 3, 0),
                           ("put", 20, 1008, 3, 0), ("put", 20, 1000, 0, 0), ("allocate", 1, 6, 0)], {16: 0, 20: 1000}, {412: 584}),
    "first-bytes-of-the-console": (1000, [OPENED, ("put", 4, 0x01636f6c, 2, 0), ("free", 100, 2, 0), OPENED], {4: 0x02636f6c}, {}),
}}


def answers(steps, do):
    """What each step answers, beside what it should."""
    for name, *numbers, refusal, address in steps:
        yield do(name, *numbers), (refusal, address)


def start_of(shape, figure):
    """The bytes that a figure begins with."""
    start, *_ = FIGURES[shape][figure]
    if isinstance(start, int):
        return bytes(start)
    length, steps = start
    heap = Heap(bytearray(length), BEFORE)
    for got, wanted in answers(steps, heap.do):
        assert got == wanted, f"{figure}: {got} instead of {wanted} by the rule before"
    return bytes(heap.data)


def played(figure, heap, do):
    """What each step of a figure answers, each word is then and each look-up shows, beside what 01 and 02 say."""
    _, steps, words, shown = FIGURES[heap.shape][figure]
    yield from answers(steps, do)
    for position, value in words.items():
        yield heap.word_at(position), value
    for address, length in shown.items():
        yield len(heap.look_up(address)[1]), length


class SelfTest:
    """The figures, each counted once."""

    def __init__(self):
        self.count = 0

    def same(self, got, wanted):
        self.count += 1
        assert got == wanted, f"figure {self.count}: {got} instead of {wanted}"

    def fresh(self, length, shape=WIDE):
        heap = Heap(bytearray(length), shape)
        self.same(heap.initialise(), (GRANTED, 0))
        return heap

    def blocks(self, heap):
        """All blocks as a walk from the data area shows them."""
        position, seen = heap.shape.data_area, []
        while True:
            refusal, answer, position = heap.step(position)
            assert refusal == GRANTED == Heap(heap.data, heap.shape).verdict
            if answer == END_OF_WALK:
                return seen
            seen.append(answer)

    def shapes(self):
        """What follows from the few numbers of a shape is what the documents tell."""
        for shape, index_page, data_area, tag, free, variable, spare, shortest in (
                (WIDE, 48, 312, 275, 32, 152, (0, 8, 16, 24), 344), (BEFORE, 48, 312, 275, 32, 280, (0, 8, 16, 24), 344),
                (HAND, 28, 96, 75, 16, 144, (0, 8), 112)):
            self.same((shape.index_page, shape.data_area), (index_page, data_area))
            self.same([*shape.fixed_words.values()], [data_area, index_page, tag, tag])
            self.same((shape.smallest_free, shape.smallest_variable, tuple(shape.spare)), (free, variable, spare))
            self.same((shape.shortest, shape.largest_size), (shortest, shape.longest))
        self.same([*WIDE.fixed_words, WIDE.first_free, WIDE.stored_end], [8, 16, 40, 304, 24, 32])
        self.same([*HAND.fixed_words, HAND.first_free, HAND.stored_end], [8, 12, 24, 92, 16, 20])
        for shape, ends in ((WIDE, [*range(344, 1001, 8)]), (BEFORE, [*range(344, 1001, 8)]), (HAND, [1000])):
            self.same([end for end in range(1100) if shape.may_end(1007, end)], ends)
        self.same([WIDE.items_in_page(c) for c in (0, 1, 15, 31)], [257, 171, 31, 16])
        self.same([(HAND.items_in_page(c), HAND.item_size(c)) for c in (0, 15)], [(2, 12), (2, 132)])
        self.same([shape.smallest_page for shape in (WIDE, BEFORE, HAND)], [4120, 4120, 32])
        self.same([shape.largest_item for shape in (WIDE, BEFORE, HAND)], [128, 256, 128])
        self.same([shape.largest_capacity for shape in (WIDE, BEFORE, HAND)], [256, 256, 128])
        self.same([[*shape.closed] for shape in (WIDE, BEFORE, HAND)], [[*range(16, 32)], [], []])
        self.same(shape_of(start_of(WIDE, "old-page")), WIDE)
        self.same([pickle.loads(pickle.dumps(shape)) is shape for shape in (WIDE, BEFORE, HAND)], 3 * [True])

    def short_heaps(self):
        self.same(Heap(bytearray(343)).initialise(), (BAD_LENGTH, 0))
        heap = self.fresh(344)
        self.same(self.blocks(heap), [("free", 312, 32, 0, 0)])
        self.same(heap.allocate(1), (NO_ROOM, 0))
        self.same(self.blocks(self.fresh(112, HAND)), [("free", 96, 16, 0, 0)])
        self.same(self.fresh(351).word_at(32), 344)
        for shape, size, length in (
                (WIDE, 256, 584), (WIDE, 129, 464), (WIDE, 128, 4544), (WIDE, 1, 4440), (BEFORE, 256, 4552), (BEFORE, 1, 4440),
                (HAND, 128, 368), (HAND, 1, 128)):
            self.same(self.fresh(length, shape).allocate(size)[0], GRANTED)
            self.same(self.fresh(length - 1, shape).allocate(size), (NO_ROOM, 0))

    def heap_with_two(self):
        """H, allocate 300, allocate 16."""
        heap = self.fresh(10000)
        self.same(self.blocks(heap), [("free", 312, 9688, 0, 0)])
        self.same(heap.allocate(300), (GRANTED, 320))
        self.same(heap.word_at(312), 322)
        self.same(self.blocks(heap)[1], ("free", 632, 9368, 0, 0))
        self.same(heap.allocate(16), (GRANTED, 648))
        self.same(self.blocks(heap)[1:], [("page", 632, 4120, 1), ("free", 4752, 5248, 0, 0)])
        for position, value in ((632, 4123), (640, 2055), (56, 616), (664, 10245)):
            self.same(heap.word_at(position), value)
        return heap

    def hand_heap_with_two(self):
        """The same two on a hand unit's heap of 1,000 bytes."""
        heap = self.fresh(1000, HAND)
        self.same(self.blocks(heap), [("free", 96, 904, 0, 0)])
        self.same((heap.allocate(300), heap.allocate(16)), ((GRANTED, 100), (GRANTED, 416)))
        self.same(self.blocks(heap), [("variable", 96, 312), ("page", 408, 48, 1), ("free", 456, 544, 0, 0)])
        self.same(heap.statistics(), (GRANTED, (544, 1, 544, 1, 1, 1), [[0, 0, 0], [1, 1, 1]] + 14 * [[0, 0, 0]]))
        return heap

    def old_heap_with_two(self):
        """The old page with records of 256 and 250 bytes, under the new rule."""
        heap = Heap(bytearray(start_of(WIDE, "old-page")))
        self.same(self.blocks(heap), [("page", 312, 4240, 31), ("free", 4552, 5448, 0, 0)])
        self.same(heap.statistics(), (GRANTED, (5448, 1, 5448, 0, 1, 2), 31 * [[0, 0, 0]] + [[1, 2, 14]]))
        return heap

    def blocks_in_a_hole(self):
        for size, rest in ((264, ("free", 592, 40, 4752, 0)), (272, ("free", 600, 32, 4752, 0)), (273, None)):
            heap = self.heap_with_two()
            self.same(heap.free(320), (GRANTED, 0))
            self.same((heap.word_at(24), heap.word_at(320)), (312, 4752))
            self.same(heap.allocate(size), (GRANTED, 320))
            if rest:
                self.same(self.blocks(heap)[1], rest)
            else:
                self.same(heap.word_at(312), 322)

    def item_freed_twice(self):
        heap = self.heap_with_two()
        self.same(heap.free(648), (GRANTED, 0))
        self.same((heap.word_at(640), heap.word_at(56)), (9861, 592))
        self.same(heap.free(648), (BAD_ADDRESS, 0))

    def resizes(self):
        for size, rest in ((570, None), (568, ("free", 896, 9104, 0, 0)), (700, ("free", 1032, 8968, 0, 0))):
            heap = self.fresh(10000)
            self.same(heap.allocate(600), (GRANTED, 320))
            before = bytes(heap.data)
            self.same(heap.resize(320, size), (GRANTED, 320))
            if rest:
                self.same(self.blocks(heap)[1], rest)
            else:
                self.same(bytes(heap.data), before)

    def resizes_without_change(self):
        """What is granted in place and asks for nothing new, and what is refused, leave every byte."""
        heap = self.heap_with_two()
        before = bytes(heap.data)
        for address, size, refusal in ((648, 16, GRANTED), (648, 17, NO_ROOM), (320, 303, GRANTED), (320, 305, NO_ROOM)):
            self.same(heap.resize_in_place(address, size), (refusal, 0 if refusal else address))
        self.same(heap.move(648, 10000), (NO_ROOM, 0))
        self.same(bytes(heap.data), before)

    def resized_in_two(self, heap, address, size):
        """What the callers of resize do since (vii): in place, else by a move, else as it is; and the bytes then."""
        heap = Heap(bytearray(heap.data), heap.shape)
        answer = heap.resize_in_place(address, size)
        if answer[0] == NO_ROOM:
            answer = heap.move(address, size)
        if answer[0] == NO_ROOM and size <= heap.state.capacity(address):
            answer = GRANTED, address
        return answer, heap.data

    def resized_at_once(self, heap, address, size):
        heap = Heap(bytearray(heap.data), heap.shape)
        return heap.resize(address, size), heap.data

    def resizes_in_two(self):
        """The two ways agree for every size that matters, on a heap with room, one with an older item, one with little room,
        and an old one with room and without."""
        cases = []
        for with_two, first, second, tight_length in (
                (self.heap_with_two, 320, 648, 1000), (self.hand_heap_with_two, 100, 416, 410)):
            roomy, older = with_two(), with_two()
            shape = roomy.shape
            tight = self.fresh(tight_length, shape)
            self.same(older.put(second - shape.word, used_header(class_of(16), 0)), (GRANTED, 0))
            self.same(tight.allocate(300), (GRANTED, first))
            cases += [(roomy, first), (roomy, second), (roomy, second + 8), (older, second), (tight, first)]
        old, tight = self.old_heap_with_two(), Heap(bytearray(start_of(WIDE, "free-items-wait-without-room")))
        for heap, address in (*cases, (old, 328), (old, 592), (old, 856), (tight, 592)):
            sizes = (*range(700), 5240, heap.shape.largest_size, heap.shape.largest_size + 1)
            differing = [size for size in sizes if self.resized_in_two(heap, address, size)
                         != self.resized_at_once(heap, address, size)]
            self.same(differing, [])

    def grown_by_hand(self, heap, size):
        """An allocation by the rule before (v) on the heap's own bytes; where these have no room, a free block of the need is put
        at their end first, word by word. The answer, and the buffer's bytes then."""
        end, need = heap.word_at(32), WIDE.page_size(class_of(size)) if size <= 128 else WIDE.block_size(size)
        own = Heap(heap.data[:end], FULL)
        answer = own.allocate(size)
        if answer[0] == NO_ROOM:
            link, previous = 24, 0
            while heap.word_at(link) and heap.word_at(link) + heap.word_at(heap.word_at(link)) != end:
                previous = heap.word_at(link)
                link = previous + 8
            block = heap.word_at(link) or end
            if block + need > len(heap.data):
                return answer, heap.data
            own.data = heap.data[:block + need]
            for position, value in ((block, need), (block + 8, 0), (block + need - 16, previous), (block + need - 8, need),
                                    (link, block), (32, block + need)):
                FULL.words.pack_into(own.data, position, value)
            own.decode()
            answer = own.allocate(size)
        return answer, own.data + heap.data[len(own.data):]

    def grown_at_once(self, heap, size):
        heap = Heap(bytearray(heap.data))
        return heap.allocate(size), heap.data

    def grows_as_by_hand(self):
        """With and without free blocks, pages and a free last block, in buffers with and without room."""
        figures = ("begins-small", "grows-for-a-block", "grows-for-a-page", "grows-for-a-move", "free-block-before-growth",
                   "end-stays", "moved-where-it-could-not-stay", "in-place-never-grows", "another-end", "old-page-and-growth")
        for figure in figures:
            heap = Heap(bytearray(start_of(WIDE, figure)))
            self.same([got for got, wanted in played(figure, heap, heap.do) if got != wanted], [])
            for room in (0, 8, 136, 300, 4200, len(heap.data) - heap.state.end):
                tight = Heap(heap.data[:heap.state.end + room])
                sizes = (*range(1, 130, 32), *range(129, 450, 16), *range(max(1, room - 24), room + 2, 3), 4840, 4841, 5000)
                differing = [size for size in sizes if self.grown_by_hand(tight, size) != self.grown_at_once(tight, size)]
                self.same(differing, [])

    def five_pages(self, shape, size):
        """A heap with five pages of a class, of which the first records are freed, and the free items as a sweep links them:
        those of pages with most live items first, of the lower of two equal ones before the other's."""
        heap = self.fresh(30000, shape)
        count = shape.items_in_page(class_of(size))
        pages = [[heap.allocate(size)[1] for _ in range(count)] for _ in range(5)]
        for page, live in zip(pages, (2, 5, 2, count, 5)):
            for address in page[:count - live]:
                heap.free(address)
        return heap, [address for page, live in ((1, 5), (4, 5), (0, 2), (2, 2)) for address in pages[page][:count - live]]

    def sweeps(self):
        """A sweep's lists are used up in their order; a second sweep changes nothing."""
        for shape, size in ((WIDE, 128), (BEFORE, 256)):
            heap, wanted = self.five_pages(shape, size)
            self.same(heap.sweep(), (GRANTED, 0))
            before = bytes(heap.data)
            self.same(heap.sweep(), (GRANTED, 0))
            self.same(bytes(heap.data), before)
            self.same([heap.allocate(size)[1] for _ in wanted], wanted)

    def old_sweeps(self):
        """Pages of a closed class are swept as they were by the rule before, and leave when their last record is freed."""
        before, free_items = self.five_pages(BEFORE, 256)
        heap = Heap(bytearray(before.data))
        self.same((heap.sweep(), before.sweep()), ((GRANTED, 0), (GRANTED, 0)))
        self.same(heap.data, before.data)
        self.same([item + 8 for item in heap.state.lists[31]], free_items[::-1])
        block = heap.allocate(256)[1]
        for address in set(heap.state.live_addresses()) - {block}:
            self.same(heap.free(address), (GRANTED, 0))
        self.same(heap.sweep(), (GRANTED, 5))
        self.same(heap.statistics()[1:], ((29416, 2, 21200, 1, 0, 0), 32 * [[0, 0, 0]]))

    def figures(self):
        """Those that are run on the libraries too; answers the heaps that they leave."""
        heaps = {}
        for shape, figures in FIGURES.items():
            for figure in figures:
                heap = heaps[shape, figure] = Heap(bytearray(start_of(shape, figure)), shape)
                for got, wanted in played(figure, heap, heap.do):
                    self.same(got, wanted)
        return heaps

    def still_sound(self, heaps):
        """All that the figures of the rule before leave is sound, even the block of 272 that this rule refused."""
        for heap in (heap for (shape, _), heap in heaps.items() if shape == BEFORE):
            self.same(Heap(heap.data).verdict, GRANTED)

    def reading(self):
        heaps = self.figures()
        self.still_sound(heaps)
        self.same(self.blocks(heaps[WIDE, "block-of-152"])[0], ("variable", 312, 152))
        heap = heaps[WIDE, "page-at-312"]
        self.same(heap.statistics()[2][1], [1, 1, 170])
        self.same(heap.initialise(), (ALREADY, 0))

    def call_lists(self):
        self.same(call_list(EXAMPLE), EXAMPLE_LINES)
        self.same(call_list(b"\x04\x09"), ["0 2 0 0 0 0 0 0", "stop"])

    def run(self):
        self.shapes()
        self.short_heaps()
        self.heap_with_two()
        self.blocks_in_a_hole()
        self.item_freed_twice()
        self.resizes()
        self.resizes_without_change()
        self.resizes_in_two()
        self.grows_as_by_hand()
        self.sweeps()
        self.old_sweeps()
        self.reading()
        self.call_lists()
        return self.count


if __name__ == "__main__":
    print(f"second: {SelfTest().run()} checks of the figures of documents 01 and 02 agree")
