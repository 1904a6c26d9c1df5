"""Random runs of calls, recorded as commands for the driver with the second program's answers."""

import struct
from collections import Counter
from typing import NamedTuple

from second import (ALREADY, BAD_LENGTH, BEFORE, FREE, GRANTED, HAND, ITEM_FREE, ITEM_IN_USE, NO_ROOM, PAGE, SHAPES, VARIABLE, WIDE,
                    Heap, Shape, State, class_of, end_of, free_header, sizes_of, used_header)

NUMBER = struct.Struct("<Q")  # in commands; the heap's words are the shape's
CALLS = {"initialise": b"I", "check": b"C", "allocate": b"A", "resize": b"R", "resize_in_place": b"H", "move": b"M",
         "free": b"F", "sweep": b"W"}
RESIZES = ("resize", "resize_in_place", "move")  # the forms that a resize has
CALLS_OF_A_PAIR = 250
GUARD_FILL = b"\xa5"


def near_overflow(bits):
    return 2**(bits - 1), 2**bits - 24, 2**bits - 8, 2**bits - 1


def bad_sizes(shape):
    """None, too much, and what may become little in the numbers of a call or in the words of the heap."""
    sizes = (0, shape.largest_size + 1, 2**32, 2**32 + 16, *near_overflow(64), *near_overflow(8 * shape.word))
    return tuple(dict.fromkeys(sizes))


def edge_sizes(shape):
    """Around the largest item, and the largest of a closed class."""
    around = (-9, -8, -7, -1, 0, 1, 2, 7, 8, 9, 16, 17, 24)
    items = dict.fromkeys((shape.largest_item, shape.largest_capacity))
    return 1, 7, 8, 9, 16, 17, *(item + more for item in items for more in around), shape.largest_size


def before(shape):
    """A shape by the rule before (xi), under which no class was closed."""
    return BEFORE if shape == WIDE else shape


def bad_lengths(shape):
    """Too short and too long, and what is not too long for another shape."""
    others = [other.longest for other in SHAPES.values() if other.longest > shape.longest]
    return (0, 1, 8, shape.index_page - 1, shape.data_area, shape.shortest - 1,
            shape.longest + 1, shape.longest + 8, shape.longest + 24, *others)


# How likely the least end is, a small one, any, one near the buffer's, or that: of a heap that shall grow, and of one with blocks.
FRESH_ENDS, INVENTED_ENDS = (30, 20, 20, 10, 20), (2, 8, 30, 15, 45)


def good_end(rng, shape, length, likely=FRESH_ENDS):
    """An end to ask for in a buffer of this length; none where the heap does not grow."""
    if not shape.grows:
        return None
    least = shape.shortest // 8
    most = max(least, length // 8)
    near = min(40, most - least)
    ends = least, least + rng.randint(0, near), rng.randint(least, most), most - rng.randint(0, near), most
    return 8 * rng.choices(ends, likely)[0]


def bad_end(rng, shape, length):
    """The same, but too low, too high, no multiple of 8, or huge."""
    end, good = end_of(length), good_end(rng, shape, length)
    if good is None:
        return None
    return rng.choice((0, 8, shape.data_area, shape.shortest - 8, shape.shortest - 4, shape.shortest - 1,
                       end + 8, end + 8, end + 16, end + rng.randint(1, 7), shape.longest + 8,
                       good + rng.randint(1, 7), good + 4, good + 2**32, good + 2**63, 2**64 - good, *near_overflow(64)))


class Habits(NamedTuple):
    """How long the heaps of random runs are, and the blocks in them: what is little for one shape is much for the other.
    Lengths are ranges, from and to."""
    tiny: tuple  # no page has room, or few
    first_page: tuple  # a page of some classes has room
    played: tuple  # other ranges for heaps that many calls are played on
    short: tuple  # heaps that are damaged or read are short, usual, which most of them are, or long
    usual: tuple
    long: tuple
    swept: tuple  # heaps that are swept above all
    grown: tuple  # buffers in which heaps grow above all; none where they do not
    paired: tuple  # heaps whose runs are run on a longer one too
    longer: int  # at most by so much
    block: int  # most blocks are for sizes up to this
    invented_block: int  # in a heap that no calls made, blocks have up to so many bytes


HABITS = {
    WIDE: Habits(tiny=(WIDE.shortest, 700), first_page=(4430, 4570),
                 played=((5000, 20000), (20000, 131072), (131072, WIDE.longest)),
                 short=(WIDE.shortest, 4600), usual=(4600, 30000), long=(150000, WIDE.longest),
                 swept=(5000, 60000), grown=((600, 2000), (4440, 6000), (4600, 16000)),
                 paired=(4600, 40000), longer=30000, block=2000, invented_block=2400),
    HAND: Habits(tiny=(HAND.shortest, 200), first_page=(120, 380),
                 played=((200, 1500), (1500, 10000), (10000, HAND.longest)),
                 short=(HAND.shortest, 400), usual=(400, 4000), long=(15000, HAND.longest),
                 swept=(400, 6000), grown=(), paired=(400, 4000), longer=4000, block=600, invented_block=800),
}
HABITS[BEFORE] = HABITS[WIDE]


class Record(NamedTuple):
    """A live record."""
    shape: Shape
    c: int | None  # an item's class; none of a block
    capacity: int
    asked: int  # for how many bytes an item is, 0 where that is not known; of a block 0

    def is_closed(self):
        return self.c in self.shape.closed

    def is_for(self, size):
        """Whether it is of the kind, and the class, that the size has."""
        return size > self.shape.largest_item if self.c is None else self.c == class_of(size)

    def what(self):
        if self.c is None:
            return "a block"
        return "an item" if self.asked else "an older item"


def what_came(refusal, size, old, new, moved):
    """What a resize of any form did, by the size that was asked for and the record before and after."""
    if refusal == NO_ROOM:
        return "6 for more than it holds" if size > old.capacity else "6 for what it holds already"
    if refusal:
        return f"refused with {refusal}"
    if not moved:
        return what_stayed(size, old, new)
    if old.c != new.c:
        return "to another class or kind"
    return "from block to block" if new.c is None else "within its class"


def what_stayed(size, old, new):
    """How a record stayed at its address."""
    if old.capacity != new.capacity:
        return "shrunk or grown"
    if old.asked != new.asked:
        return f"{old.what()} has another size"
    return f"{old.what()} is left as it was" if old.is_for(size) else f"{old.what()} is kept"


def what_came_of_closed(size, old, new, moved):
    """The same of an item of a closed class; new is none where it is refused for want of room."""
    own = "a size of its own" if old.is_for(size) else "another size"
    if new is None:
        return f"6 for an item of a closed class and {own}"
    if not moved:
        return f"an item of a closed class {'stays' if old.is_for(size) else 'is kept'}"
    return f"an item of a closed class goes to {'a block' if new.c is None else 'an item'} for {own}"


def what_came_of_block(old, new):
    """How a block stayed for a size of a closed class."""
    change = "is left" if old.capacity == new.capacity else "shrinks" if old.capacity > new.capacity else "grows"
    return f"a block {change} for a size of a closed class"


class Growth(NamedTuple):
    """How a heap has to grow, if nothing is free for a size."""
    block: int  # where the free block then stands
    need: int
    for_page: bool
    enlarges: bool  # the last block, which is free
    behind_free: bool  # whether another free block comes before it
    beyond: int  # by how much it would pass the buffer's end, or less than 0

    def what_came(self):
        """Of a heap that grew so."""
        how, what = "the last block is enlarged" if self.enlarges else "a block is added", "page" if self.for_page else "block"
        yield f"{how} for a {what}"
        if self.behind_free:
            yield f"{how} behind other free ones"
        if self.beyond == 0:
            yield f"exactly to the buffer's end for a {what}"


def where_given_back(state):
    """How the pages that a sweep of this heap gives back stand."""
    behind = {page: page + state.blocks[page][1] for page in state.page_class if not state.held_in(page)}
    if behind:
        yield "a page is given back"
    if any(state.page_class[page] in state.shape.closed for page in behind):
        yield "a page of a closed class is given back"
    if any(position in behind for position in behind.values()):
        yield "touching pages are given back"
    if any(state.is_free(state.block_before(page)) and state.is_free(position) for page, position in behind.items()):
        yield "a page between free blocks is given back"
    if state.end in behind.values():
        yield "the last block is given back"


def how_linked_anew(state, old_lists):
    """What a sweep that left this heap made of the lists that were there before, of the pages that stay."""
    changed = [c for c in range(state.shape.classes) if state.lists[c] != old_lists[c]]
    if len(changed) > 1:
        yield "lists of several classes change"
    if any(c in state.shape.closed and state.lists[c] for c in changed):
        yield "a page of a closed class stays, linked anew"
    for c in changed:
        was, now = ([*dict.fromkeys(map(state.block_before, reversed(items)))] for items in (old_lists[c], state.lists[c]))
        if len(now) < sum(d == c for d in state.page_class.values()):
            yield "a full page stays out of a list"
        for first, second in zip(now, now[1:]):  # pages in their new order
            if first > second:
                yield "a fuller page comes before a lower one"
            if was.index(first) > was.index(second):
                equal = state.held_in(first) == state.held_in(second)
                yield "equal pages change places" if equal else "unequal pages change places"


def what_came_before(run, opened):
    """What there was, since a step that opened the heap, of which nothing may be left when everything comes back."""
    calls = [step for step in run.steps[opened + 1:] if step.name != "poke"]
    resized = [step for step in calls if step.name in RESIZES and step.answer >> 32 == GRANTED]
    if any(step.answer != step.arguments[0] for step in resized):
        yield "a record was moved"
    if any(step.answer == step.arguments[0] and step.writes for step in resized):
        yield "a record was resized in place"
    if run.heap.kept:
        yield "a record was kept"
    if any(step.name == "sweep" and step.writes for step in calls):
        yield "the heap was swept before"
    yield from (f"refused with {refusal}" for refusal in {step.answer >> 32 for step in calls} - {GRANTED})
    if run.shape.grows:
        least, most = (run.steps[opened].arguments == (end,) for end in (run.shape.shortest, run.buffer_end()))
        yield f"began with {'the least end' if least else 'the whole buffer' if most else 'an end between'}"
        if run.heap.grown:
            yield "the heap grew"
        if run.met["bytes behind the end are written"]:
            yield "bytes behind the end were written"


def what_is_freed(run, order):
    """What is special about the order in which all that is live is freed."""
    rising, kinds = sorted(order), {run.record(address).c is None for address in order}
    if not order:
        yield "nothing is live"
    if len(order) > 1:
        yield f"freed in {'rising' if order == rising else 'falling' if order == rising[::-1] else 'mixed'} order"
    if True in kinds:
        yield "blocks of their own are freed"
    if len(kinds) > 1:
        yield "blocks and items are freed"


def what_is_swept(state):
    """How many pages the last sweep gives back, of a heap in which nothing is live."""
    pages = [*state.page_class.values()]
    yield f"{'several pages are' if len(pages) > 1 else 'one page is' if pages else 'no page is'} given back"
    if len({*pages}) < len(pages):
        yield "several pages of a class are given back"
    if len({*pages}) > 1:
        yield "pages of several classes are given back"


def what_is_old(state):
    """What a heap has of closed classes."""
    closed = {page: c for page, c in state.page_class.items() if c in state.shape.closed}
    for page in closed:
        held, items = state.held_in(page), len(state.items_of_page(page))
        yield f"{'an empty' if held == 0 else 'a full' if held == items else 'a half-full'} page of a closed class"
    if len(closed) == 1:
        yield "a single page of a closed class"
    if len(closed) > len({*closed.values()}):
        yield "several pages of a closed class"
    if len({*closed.values()}) > 1:
        yield "pages of several closed classes"
    if closed and len(closed) < len(state.page_class):
        yield "pages of closed and of offered classes"
    if closed and state.free and any(kind == VARIABLE for kind, _ in state.blocks.values()):
        yield "pages of closed classes, blocks and free blocks"
    if any(c in state.shape.closed and item not in state.asked for item, c in state.item_class.items()):
        yield "an older item of a closed class"


class Step(NamedTuple):
    """A call, and what the second program answered and changed; or "poke", a position, the bytes that go there, and none."""
    name: str
    arguments: tuple
    answer: int
    writes: list


class Run:
    """One lent buffer and what is done to it, in order.

    "met" counts what an old heap has of closed classes, what came of allocations for their sizes and of each form of resize,
    what was freed, and what sweeps met.
    """

    def __init__(self, shape, label, start, shift, origin):
        self.shape = shape
        self.label = label
        self.around = b"\x00" if shift % 2 else GUARD_FILL  # what the bytes outside the buffer are
        self.origin = origin  # what the bytes at the start are, in a word
        self.start = bytes(start)
        self.heap = Heap(bytearray(start), shape)
        if origin in ("sound heap", "old heap") and self.heap.verdict != GRANTED:
            raise SystemExit(f"compare: {label}: the second program refuses a {origin}")
        self.old_pages = self.pages_of_closed_classes()
        self.steps = []
        self.left = {}  # what the library left, by the indices of the steps after which it shall be noted: compare.py does
        self.fresh = None  # of a run after which everything came back: the run that opens a heap with the same end
        self.calls = 0
        self.met = Counter(f"old heap: {case}" for case in set(what_is_old(self.heap.state) if origin == "old heap" else ()))
        self.commands = bytearray(struct.pack("<cQQ", b"S", shift, len(start)) + self.start)

    def pages_of_closed_classes(self):
        state = self.heap.state
        return {(page, c) for page, c in state.page_class.items() if c in self.shape.closed} if state else set()

    def buffer_end(self):
        return end_of(len(self.heap.data))

    def may_grow(self):
        """Whether there is a heap, and room behind its end."""
        return self.heap.state is not None and self.heap.state.end < self.buffer_end()

    def call(self, name, *arguments):
        """Lets the second program answer, and the library be asked."""
        refusal, address = getattr(self.heap, name)(*arguments)
        writes, self.heap.writes = self.heap.writes, []
        self.commands += CALLS[name] + b"".join(map(NUMBER.pack, arguments))
        self.steps.append(Step(name, arguments, refusal << 32 | address, writes))
        self.calls += 1
        return refusal, address

    def do(self, name, *arguments):
        """A step of a figure: a call, or a word put by hand."""
        if name == "initialise":
            return self.initialise(*arguments)
        if name != "put":
            return self.call(name, *arguments)
        position, value = arguments
        self.poke_word(position, value)
        return self.heap.put(position, value)

    def initialise(self, end=None):
        """Asks for an end where the shape grows, for the buffer's if none is told; and counts what came of it."""
        if not self.shape.grows:
            return self.call("initialise")
        end = self.buffer_end() if end is None else end
        refusal, _ = answer = self.call("initialise", end)
        if refusal:
            bad = "" if self.shape.may_end(len(self.heap.data), end) else " and a bad end"
            self.met[f"initialise: refused with {refusal}{bad * (refusal in (BAD_LENGTH, ALREADY))}"] += 1
        else:
            least, most = end == self.shape.shortest, end == self.buffer_end()
            self.met[f"initialise: {'the least end' if least else 'the end of the buffer' if most else 'an end between'}"] += 1
            self.met["initialise: room to grow, and the length is no multiple of 8"] += not most and len(self.heap.data) % 8 > 0
        return answer

    def growth(self, size):
        """How the heap has to grow if nothing is free for a size; none where there is no heap, or no end to ask for."""
        state, shape = self.heap.state, self.shape
        if not state or not shape.grows:
            return None
        enlarges = state.is_free(state.starts[-1])
        block = state.starts[-1] if enlarges else state.end
        for_page = size <= shape.largest_item
        need = shape.page_size(class_of(size)) if for_page else shape.block_size(size)
        return Growth(block, need, for_page, enlarges, len(state.free) > enlarges, block + need - self.buffer_end())

    def count_growth(self, name, growth, had, refusal):
        """Counts how the heap grew by a call, before which it had grown so often and had to grow so; or why it did not."""
        if self.heap.grown > had:
            self.met.update(f"{name} grows: {case}" for case in growth.what_came())
            self.met["an old heap grows"] += bool(self.old_pages)
        elif growth and refusal == NO_ROOM and self.may_grow() and growth.beyond > 0:
            what = "page" if growth.for_page else "block"
            self.met[f"{name}: 6 with some room to grow"] += 1
            self.met[f"{name}: 6 for want of 8 bytes to grow, for a {what}"] += growth.beyond == 8

    def last_block(self, address, size):
        """Whether the record is a block that could stay and have this size, if only the heap's end moved."""
        state, position = self.heap.state, address - self.shape.word
        if self.record(address) is None or position not in state.blocks or size <= self.shape.largest_item:
            return False
        behind = position + state.blocks[position][1]
        if state.is_free(behind):
            behind += state.blocks[behind][1]
        return behind == state.end < position + self.shape.block_size(size) <= self.buffer_end()

    def record(self, address):
        """The record at an address; none where there is none, or no heap."""
        state = self.heap.state
        capacity, position = state.capacity(address) if state else None, address - self.shape.word
        return capacity and Record(self.shape, state.item_class.get(position), capacity, state.asked.get(position, 0))

    def waits(self, size):
        """Whether this size is of a closed class of which free items wait."""
        state, c = self.heap.state, class_of(size)
        return bool(state and c in self.shape.closed and state.lists[c])

    def allocate(self, size):
        """Allocates, and counts where free items of the size's class wait, and where the heap grows."""
        waits, growth, had = self.waits(size), self.growth(size), self.heap.grown
        refusal, address = self.call("allocate", size)
        self.count_growth("allocate", growth, had, refusal)
        self.met["allocate: 6 where free items wait" if refusal else "allocate: a block where free items wait"] += waits
        return refusal, address

    def resize(self, form, address, size):
        """Calls one of the forms of resize and counts what came of it."""
        old, waits, is_last = self.record(address), self.waits(size), self.last_block(address, size)
        growth, had = self.growth(size), self.heap.grown
        refusal, new = self.call(form, address, size)
        record, moved = self.record(new), new != address
        self.count_growth(form, growth, had, refusal if form != "resize_in_place" else GRANTED)
        if is_last:
            came = "6" if refusal else "moves" if moved else "is kept"
            self.met[f"{form}: a block that only a higher end would let stay: {came}"] += 1
        self.met[f"{form}: {what_came(refusal, size, old, record, moved)}"] += 1
        if old and old.is_closed() and refusal in (GRANTED, NO_ROOM):
            self.met[f"{form}: {what_came_of_closed(size, old, record, moved)}"] += 1
        if refusal:
            return refusal, new
        if moved:
            self.count_copy(form, old, address, new, size)
            self.met[f"{form}: to a block where free items wait"] += waits
        elif old.c is None and class_of(size) in self.shape.closed:
            self.met[f"{form}: {what_came_of_block(old, record)}"] += 1
        return refusal, new

    def count_copy(self, form, old, address, new, size):
        """Counts what was moved, and where it left stale bytes that a copy of the capacity would have taken."""
        data, stale = self.heap.data, range(old.asked, min(old.capacity, size))
        self.met[f"{form}: of {old.what()}"] += 1
        self.met[f"{form}: stale bytes stay behind"] += old.asked > 0 and any(data[address + i] != data[new + i] for i in stale)

    def free(self, address):
        """Frees, and counts what was there."""
        old, is_last = self.record(address), self.may_grow() and address == self.heap.state.starts[-1] + self.shape.word
        refusal, _ = self.call("free", address)
        self.met["free: the last block, and there is room to grow"] += not refusal and is_last
        self.met[f"free: refused with {refusal}" if refusal else f"free: {old.what()}"] += 1
        self.met["free: an item of a closed class"] += not refusal and old.is_closed()
        return refusal

    def sweep(self):
        """Sweeps, and counts each case that it met once."""
        state = self.heap.state
        cases, old_lists = set(where_given_back(state) if state else ()), state and state.lists
        if cases and self.may_grow():
            of_growth = cases & {"a page is given back", "the last block is given back"}
            cases |= {f"{case}, and there is room to grow" for case in of_growth}
        if cases and self.heap.grown:
            cases.add("a page of a heap that grew is given back")
        had_closed = bool(self.pages_of_closed_classes())
        refusal, pages = self.call("sweep")
        self.met["sweeps"] += 1
        changed = bool(self.steps[-1].writes)
        if refusal:
            cases.add(f"refused with {refusal}")
        else:
            cases.update(how_linked_anew(state, old_lists))
            if had_closed and not self.pages_of_closed_classes():
                cases.add("the last page of a closed class is given back")
            if not pages:
                cases.add("0, and lists change" if changed else "0, and no byte changes")
        self.met.update(f"sweep: {case}" for case in cases)
        return refusal, pages, changed

    def sweep_twice(self):
        """The second time there is nothing left to do."""
        refusal, _, _ = self.sweep()
        if self.sweep() != (refusal, 0, False):
            raise SystemExit(f"compare: {self.label}: the second program finds work for a second sweep")

    def forget(self, items):
        """Sets the headers of these items in use back to those of an older heap, which kept no size."""
        for item in items:
            del self.heap.state.asked[item]
            self.poke_word(item, used_header(self.heap.state.item_class[item], 0))

    def poke(self, position, content):
        """Writes bytes from outside; the caller sees to decoding where it is needed."""
        self.met["bytes behind the end are written"] += self.may_grow() and position >= self.heap.state.end
        self.heap.data[position:position + len(content)] = content
        self.commands += struct.pack("<cQQ", b"P", position, len(content)) + content
        self.steps.append(Step("poke", position, content, None))

    def poke_word(self, position, value):
        self.poke(position, self.shape.words.pack(value))


def random_length(rng, shape):
    """A length that may be lent, with all the borders that 01 names well hit, and those where a small block just fits."""
    habits = HABITS[shape]
    blocks = [shape.block_size(size) for size in edge_sizes(shape) if shape.largest_item < size < shape.largest_size]
    small = shape.data_area + rng.choice(blocks)
    ranges = (habits.tiny, (small - 8, small), habits.first_page, *habits.played, (shape.longest - 8, shape.longest))
    return rng.randint(*rng.choices(ranges, (12, 3, 15, 35, 20, 8, 5))[0])


def old_length(rng, shape):
    """The length of an old heap: there is room for a page, most often for some."""
    habits = HABITS[shape]
    return rng.randint(*rng.choices((habits.first_page, *habits.played), (5, 75, 18, 2))[0])


def garbage(rng, shape, length):
    """What a lent buffer may hold before it is initialised; where the heap may grow, that may be what looks like blocks."""
    if shape.grows and shape.shortest <= length <= HABITS[shape].usual[1] and rng.random() < 0.15:
        return bytes(8) + invented_heap(rng, shape, length)[8:]
    kind = rng.randrange(5)
    if kind == 0:
        return bytes(length)
    if kind == 1:
        return b"\xff" * length
    content = rng.randbytes(length)
    if kind == 2:
        content = (shape.magic + content[8:])[:length]
    elif kind == 3:
        content = (other_magic(shape) + content[8:])[:length]
    return content


def other_magic(shape):
    """The first bytes of a heap of the other shape."""
    return next(other.magic for other in SHAPES.values() if other.magic != shape.magic)


def free_interior(rng, state, length):
    """A stretch of bytes, inside a free block or behind the end, that may be anything."""
    if state.free and rng.random() < 0.8:
        position = rng.choice(state.free)
        return position + 2 * state.shape.word, state.blocks[position][1] - state.shape.smallest_free
    return state.end, length - state.end


def forged_words(rng, state):
    """Words that look like tags, headers and links of this heap."""
    shape, position = state.shape, rng.choice(state.starts)
    kind, size = state.blocks[position]
    words = (size + kind, size, size + PAGE, position, position - shape.index_page,
             4 * rng.randrange(shape.classes) + rng.choice((ITEM_FREE, ITEM_IN_USE)),
             free_header(rng.randrange(shape.classes), position + shape.word - shape.index_page),
             shape.index_tag, 0, 2**(8 * shape.word) - 8)
    return b"".join(shape.words.pack(rng.choice(words)) for _ in range(rng.randint(1, 6)))


FILLING, DRAINING = (80, 10, 10), (10, 20, 70)
MOST_RETIRED = 80  # records of closed classes that are freed at the end of a run
SWEPT_OFTEN = 20000  # longer heaps are swept less: each sweep costs as much as many other calls
# How likely allocate, resize and free are; the first mood of some is for a heap with nothing in it.
MOODS = (FILLING, DRAINING, (40, 20, 40), (20, 60, 20))
MOODS_WITHOUT_RESIZE = ((90, 0, 10), (20, 0, 80))
MOODS_FOR_GROWTH = ((50, 45, 5), (20, 60, 20), (20, 40, 40))


class Player:
    """Plays random calls on a run."""

    def __init__(self, rng, run, moods=MOODS):
        self.rng = rng
        self.run = run
        self.shape = run.shape
        self.moods = moods
        self.live = []
        self.place = {}  # address -> its index in live
        self.dead = [0]
        self.forged = [0]  # addresses behind a forged header or tag
        self.planned = []  # sizes that are allocated next
        self.end_share = rng.choice((0, 0.02, 0.1)) if self.shape.grows else 0  # of what is done at the heap's end
        self.check_share = 0.02
        self.forget_share = rng.choice((0, 0.05, 0.3))  # of what is poked
        self.sweep_share = rng.choice((0, 0.02, 0.1)) * min(1, SWEPT_OFTEN / max(1, len(run.heap.data)))
        self.seeks_closed = bool(run.old_pages) and rng.random() < 0.7
        self.set_mood(moods[0])
        self.class_of_run = rng.randrange(rng.choice((self.shape.offered, self.shape.classes)))
        self.size_makers = rng.choice((
            (self.small,), (self.one_class,), (self.block,), (self.small, self.block), (self.edge, self.fit),
            (self.block, self.large, self.fit), (self.one_class, self.one_class, self.block, self.fit),
            (self.small, self.one_class, self.edge, self.block, self.large, self.fit), *((
                (self.closed,), (self.small, self.closed), (self.closed, self.edge, self.fit),
                (self.closed, self.one_class, self.block)) if self.shape.closed else ())))
        for address in run.heap.state.live_addresses() if run.heap.state else ():
            self.add(address)

    def set_mood(self, weights):
        self.weights = weights
        self.mood_ends = self.rng.randint(10, 150)

    # Sizes.

    def small(self):
        return self.rng.randint(1, self.shape.largest_item)

    def one_class(self):
        return self.rng.choice(sizes_of(self.class_of_run))

    def edge(self):
        return self.rng.choice(edge_sizes(self.shape))

    def closed(self):
        """A size of a closed class, often of one of which free items wait."""
        state, closed = self.run.heap.state, self.shape.closed
        waiting = [c for c in closed if state and state.lists[c]]
        return self.rng.choice(sizes_of(self.rng.choice(waiting if waiting and self.rng.random() < 0.7 else closed)))

    def block(self):
        return self.rng.randint(self.shape.largest_item + 1, HABITS[self.shape].block)

    def large(self):
        item = self.shape.largest_item
        return self.rng.randint(item + 1, max(item + 44, len(self.run.heap.data) // self.rng.choice((1, 4, 20))))

    def fit(self):
        """A size that just fits a free block, or leaves or lacks a little."""
        state = self.run.heap.state
        if not state or not state.free:
            return self.block()
        whole = state.blocks[self.rng.choice(state.free)][1]
        return self.near(whole - self.shape.tags)

    def up_to_the_end(self):
        """A size for which the heap grows to the buffer's end, or by 8 bytes too much, or to where a page just has room behind
        it, or lacks 8 bytes; then the size for that page comes next."""
        rng, shape = self.rng, self.shape
        left = self.run.buffer_end() - self.run.growth(shape.largest_size).block - shape.tags
        c = rng.randrange(shape.offered)
        behind = rng.choice((0, shape.page_size(c)))
        if left - behind <= shape.largest_item:
            return rng.choice(sizes_of(c))
        if behind:
            self.planned.append(rng.choice(sizes_of(c)))
        return left - behind + rng.choice((0, 0, 8)) - rng.randrange(8)

    def more_than_is_free(self):
        """A size for which the heap has to grow, most often by little."""
        rng, state, shape = self.rng, self.run.heap.state, self.shape
        empty = [c for c in range(shape.offered) if not state.lists[c]]
        if empty and rng.random() < 0.4:
            return rng.choice(sizes_of(rng.choice(empty)))
        largest = max((state.blocks[block][1] for block in state.free), default=0)
        return max(shape.largest_item, largest - shape.tags) + rng.randint(1, 200)

    def growing(self):
        return self.rng.choice((self.up_to_the_end, self.more_than_is_free, self.more_than_is_free))()

    def near(self, capacity):
        less = self.rng.choice((-8, 0, 0, 8, 16, 24, 32, 40))
        return max(1, capacity - less - self.rng.randrange(8))

    def size(self):
        if self.planned:
            return self.planned.pop()
        if self.rng.random() < 0.02:
            return self.rng.choice(bad_sizes(self.shape))
        if self.rng.random() < self.end_share and self.run.may_grow():
            return self.growing()
        return self.rng.choice(self.size_makers)()

    def new_size(self, address):
        """A size for a resize: near the old one, near what is there with the right neighbour, or any; for an item of a closed
        class often one of its own sizes, or one of an item that is handed out."""
        state, record = self.run.heap.state, self.run.record(address)
        if record is None or self.rng.random() < max(0.4, self.end_share):
            return self.size()
        if record.is_closed() and self.rng.random() < 0.5:
            return self.rng.choice((self.rng.choice(sizes_of(record.c)), self.small()))
        capacity = record.capacity
        right = address + capacity + self.shape.word
        if self.rng.random() < 0.5 and state.is_free(right):
            capacity += state.blocks[right][1]
        if right == state.end and self.end_share and self.rng.random() < 0.5:
            return capacity + self.rng.randint(1, 100)
        return self.near(capacity)

    # Addresses.

    def address(self):
        if self.live and self.rng.random() < self.end_share:
            return max(self.live)
        if self.live and self.rng.random() < 0.93:
            return self.closed_address() if self.seeks_closed and self.rng.random() < 0.5 else self.rng.choice(self.live)
        return self.wrong_address()

    def closed_address(self):
        """One of a closed class where there is one among some live ones."""
        chosen = self.rng.choices(self.live, k=8)
        return next((address for address in chosen if self.run.record(address).is_closed()), chosen[0])

    def wrong_address(self):
        rng, data, shape, word = self.rng, self.run.heap.data, self.shape, self.shape.word
        near = (rng.choice(self.live or [shape.data_area + word])
                + rng.choice((-2 * word, -word, -1, 1, word, 2 * word, 3 * word, 2**32, 2**63)))
        anywhere = rng.randrange(len(data) + 16)
        choices = [near, near, anywhere, anywhere // word * word, 2**64 - 1, 2**64 - 8, shape.index_page, shape.data_area,
                   len(data), end_of(len(data)), *self.dead[-4:], *self.forged[-4:]]
        if self.run.heap.state:
            choices += self.structure_addresses(self.run.heap.state)
        return rng.choice(choices)

    def structure_addresses(self, state):
        """Addresses that belong to a block, a page or a free item, but are no live payload's."""
        position, word = self.rng.choice(state.starts), self.shape.word
        found = [position, position + word, position + 2 * word]
        if state.page_class:
            page = self.rng.choice(list(state.page_class))
            items = state.items_of_page(page)
            found += [page, page + word, self.rng.choice(items) + word, items.stop + word]
        lists = [items for items in state.lists if items]
        return found + [item + word for item in (self.rng.choice(lists)[-2:] if lists else ())]

    def add(self, address):
        self.place[address] = len(self.live)
        self.live.append(address)

    def remove(self, address):
        index, last = self.place.pop(address), self.live.pop()
        if last != address:
            self.live[index] = last
            self.place[last] = index
        self.dead = self.dead[-20:] + [address]

    # Calls.

    def allocate(self):
        refusal, address = self.run.allocate(self.size())
        if not refusal:
            self.add(address)
        elif refusal == NO_ROOM:
            self.mood_ends -= 10

    def resize(self):
        """One of the forms of resize."""
        address = self.address()
        refusal, new = self.run.resize(self.rng.choice(RESIZES), address, self.new_size(address))
        if not refusal and new != address:
            self.remove(address)
            self.add(new)

    def free(self):
        address = self.address()
        if not self.run.free(address):
            self.remove(address)

    def clear_pages(self):
        """Frees all records of a page, and often of the one behind it too."""
        state = self.run.heap.state
        page = self.rng.choice(list(state.page_class))
        behind = page + state.blocks[page][1]
        for cleared in (page, behind) if behind in state.page_class and self.rng.random() < 0.7 else (page,):
            for item in [item for item in state.items_of_page(cleared) if item in state.item_class]:
                self.run.free(item + self.shape.word)
                self.remove(item + self.shape.word)

    def sweep(self):
        """Sweeps, once or twice; often where there is something to give back, seldom where there is no page."""
        if not (self.run.heap.state and self.run.heap.state.page_class):
            if self.rng.random() < 0.9:
                return
        elif self.rng.random() < 0.3:
            self.clear_pages()
        self.rng.choice((self.run.sweep, self.run.sweep_twice))()

    def retire(self):
        """Sweeps an old heap, often when all records of closed classes have been freed, and goes on for a while."""
        items = [item for item, c in self.run.heap.state.item_class.items() if c in self.shape.closed]
        if len(items) <= MOST_RETIRED and self.rng.random() < 0.5:
            for item in items:
                self.run.free(item + self.shape.word)
                self.remove(item + self.shape.word)
        self.run.sweep_twice()
        self.play(10)

    def forget(self):
        """Makes an item, or now and then all, those of an older heap."""
        items = list(self.run.heap.state.asked)
        self.run.forget(items if self.rng.random() < 0.05 else [self.rng.choice(items)])

    def poke_forged(self):
        """Puts into a live payload what stands before a payload of its kind."""
        start, shape = self.rng.choice(self.live), self.shape
        record = self.run.record(start)
        at = start + shape.word * self.rng.randrange(record.capacity // shape.word)
        size = self.rng.choice((0, self.rng.randint(record.capacity - 7, record.capacity)))
        forged = shape.block_size(record.capacity) + VARIABLE if record.c is None else used_header(record.c, size)
        self.run.poke_word(at, forged)
        self.forged = self.forged[-20:] + [at + shape.word]

    def poke_spare_bytes(self):
        """Makes the spare bytes of a page, if it has any, look like one more item in use."""
        state = self.run.heap.state
        page = self.rng.choice(list(state.page_class))
        start, stop = state.items_of_page(page).stop, page + state.blocks[page][1] - self.shape.word
        if start != stop:
            header = self.shape.words.pack(used_header(state.page_class[page], 0))
            self.run.poke(start, header * ((stop - start) // len(header)))

    def other_place(self):
        """Where other bytes may be anything, and how many."""
        return free_interior(self.rng, self.run.heap.state, len(self.run.heap.data))

    def poke_any(self):
        """Writes into a live payload or into other bytes that may be anything."""
        rng, heap = self.rng, self.run.heap
        if self.live and rng.random() < 0.8:
            start = rng.choice(self.live)
            room = heap.state.capacity(start)
        else:
            start, room = self.other_place()
        content = forged_words(rng, heap.state) if rng.random() < 0.5 else rng.randbytes(rng.randint(1, 80))
        offset = rng.randrange(max(1, room - len(content) + 1))
        if rng.random() < 0.5:
            offset = offset // self.shape.word * self.shape.word
        content = content[:max(0, room - offset)]
        if content:
            self.run.poke(start + offset, content)

    def poke(self):
        chance = self.rng.random()
        if chance < 0.05 and self.run.heap.state.page_class:
            self.poke_spare_bytes()
        elif chance < 0.15 and self.live:
            self.poke_forged()
        elif chance < 0.15 + self.forget_share and self.run.heap.state.asked:
            self.forget()
        else:
            self.poke_any()

    def play(self, count):
        rng = self.rng
        for _ in range(count):
            self.mood_ends -= 1
            if self.mood_ends < 0:
                self.set_mood(rng.choice(self.moods) if self.live else self.moods[0])
            if self.run.heap.state and rng.random() < 0.3:
                self.poke()
            if rng.random() < self.check_share:
                if self.run.heap.state and rng.random() < 0.5:
                    self.run.initialise(self.end())
                else:
                    self.run.call("check")
            if rng.random() < self.sweep_share:
                self.sweep()
            rng.choices((self.allocate, self.resize, self.free), self.weights)[0]()
            if not self.live:
                self.set_mood(self.moods[0])

    def end(self):
        """An end to ask for, a bad one now and then."""
        return self.rng.choices((good_end, bad_end), (70, 30))[0](self.rng, self.shape, len(self.run.heap.data))

    def begin(self):
        """Some calls on whatever the buffer holds, and then a fresh heap."""
        run = self.run
        run.call("check")
        self.play(self.rng.randrange(4))
        run.initialise(self.end())
        if run.heap.verdict in (GRANTED, BAD_LENGTH):
            return
        self.play(self.rng.randrange(4))
        run.poke(self.rng.randrange(8), b"\x00")
        run.heap.decode()
        run.initialise(good_end(self.rng, self.shape, len(run.heap.data)))


class Client(Player):
    """Plays what may come before everything comes back: writes into live payloads, and behind the heap's end, only."""

    def other_place(self):
        state = self.run.heap.state
        return state.end, len(self.run.heap.data) - state.end

    def poke(self):
        (self.poke_forged if self.live and self.rng.random() < 0.1 else self.poke_any)()

    def fill_pages(self):
        """Takes more items of a class than a page has, while there is room."""
        c = self.rng.randrange(self.shape.offered)
        for _ in range(self.shape.items_in_page(c) + self.rng.randint(1, 10)):
            refusal, address = self.run.allocate(self.rng.choice(sizes_of(c)))
            if refusal:
                return
            self.add(address)

    def refused(self):
        """A call that is refused with 4, 5, 6 or 7: no heap has room for the largest size."""
        run, rng, most = self.run, self.rng, self.shape.largest_size
        gone = rng.choice([0, *(address for address in self.dead if address not in self.place)])
        rng.choice((lambda: run.initialise(self.end()), lambda: run.allocate(rng.choice((0, most, most + 1))),
                    lambda: run.free(gone), lambda: run.resize(rng.choice(RESIZES), rng.choice([gone, *self.live]), most)))()

    def between(self):
        """Now and then what leaves all records as they are."""
        if self.rng.random() < 0.2:
            self.rng.choice((self.poke, self.refused, lambda: self.run.call("check")))()

    def order(self):
        """All that is live in the order in which it is freed: some rising, some falling, most in any."""
        order = sorted(self.live, reverse=self.rng.random() < 0.5)
        if self.rng.random() < 0.8:
            self.rng.shuffle(order)
        return order

    def bring_back(self):
        """Frees all that is live, and sweeps."""
        run, order = self.run, self.order()
        run.met.update(f"back: {case}" for case in what_is_freed(run, order))
        refusals = []
        for address in order:
            self.between()
            refusals.append(run.free(address))
            self.remove(address)
        self.between()
        run.met.update(f"back: {case}" for case in what_is_swept(run.heap.state))
        if any((*refusals, run.sweep()[0])):
            raise SystemExit(f"compare: {run.label}: the second program refuses a free of what is live, or a sweep")


def page_size(rng, shape, c):
    """The size of a page of class c, with spare bytes or without."""
    return shape.page_size(c) + rng.choice(shape.spare)


def invented_block(rng, shape, taste, classes, after_free):
    """The kind and the size of a block, and the class if it is a page."""
    kind = rng.choices((FREE, VARIABLE, PAGE), taste)[0]
    least_free, least_variable = shape.smallest_free // 8, shape.smallest_variable // 8
    if kind == FREE and not after_free:
        return FREE, 8 * rng.choice((least_free, least_free + 1, least_free + 2, least_variable + 1,
                                     rng.randint(least_free, 25 * least_free))), None
    if kind == PAGE:
        c = rng.choice(classes)
        return PAGE, page_size(rng, shape, c), c
    return VARIABLE, 8 * rng.choice((least_variable, rng.randint(least_variable, least_variable + 15),
                                     rng.randint(least_variable, HABITS[shape].invented_block // 8))), None


def room_behind(shape):
    """So much at least is left behind an invented block that is not the last, so that one of any kind may stand there."""
    return 2 * shape.smallest_variable


def last_page(rng, shape, taste, classes, room):
    """The class and the size of a page that is to be the last block; the size is 0 where none is to be."""
    c = rng.choice(classes)
    size = page_size(rng, shape, c)
    return c, size if taste[2] and size + room_behind(shape) <= room and rng.random() < 0.5 else 0


def invented_page(rng, state, page, c, in_use, share_known):
    """Makes a page of a block; "in_use" tells of an item, by its number in the page, whether it is."""
    state.page_class[page] = c
    for number, item in enumerate(state.items_of_page(page)):
        if in_use(number):
            state.item_class[item] = c
            if rng.random() < share_known:
                state.asked[item] = rng.choice(sizes_of(c))
        else:
            state.lists[c].append(item)


# How likely a block of a heap is free, variable or a page; and a page of it has nothing, something or all in use.
TASTES = ((1, 1, 1), (1, 2, 0), (1, 6, 1), (0, 1, 1), (0, 0, 1), (1, 20, 20))
TASTES_FOR_PAGES = ((0, 0, 1), (1, 1, 8), (2, 1, 4))
PAGE_TASTES = ((0, 1, 0), (1, 4, 1), (3, 2, 0))


def invented_state(rng, shape, end, tastes):
    """Any sound heap, not only one that calls can lead to."""
    state = State(shape, end)
    taste, page_taste = rng.choice(tastes), rng.choice(PAGE_TASTES)
    classes = rng.choices(range(shape.classes), k=rng.choice((1, 2, 4, 40)))
    share_in_use = rng.choice((0, 0.1, 0.5, 0.9, 1))
    share_known = rng.choice((0, 0.5, 1))  # of the items in use; 0: an older heap
    last_class, last_size = last_page(rng, shape, taste, classes, end - shape.data_area)
    position, after_free = shape.data_area, False
    while position != end:
        kind, size, c = invented_block(rng, shape, taste, classes, after_free)
        left = end - last_size - position
        if left == 0:
            kind, size, c = PAGE, last_size, last_class
        elif size != left and size + room_behind(shape) > left:
            kind, size = (VARIABLE if after_free or rng.random() < 0.5 and left >= shape.smallest_variable else FREE), left
        state.add_block(position, kind, size)
        if kind == PAGE:
            share = rng.choices((0, share_in_use, 1), page_taste)[0]
            invented_page(rng, state, position, c, lambda _: rng.random() < share, share_known)
        position, after_free = position + size, kind == FREE
    for items in state.lists:
        rng.shuffle(items)
    return state


def invented_heap(rng, shape, length, tastes=TASTES):
    """The bytes of any sound heap, with garbage wherever bytes may be anything."""
    heap = Heap(bytearray(rng.randbytes(length)), shape)
    heap.initialise(good_end(rng, shape, length, INVENTED_ENDS))
    heap.state = invented_state(rng, shape, heap.state.end, tastes)
    heap.lay_out_whole()
    return bytes(heap.data)


def played_heap(rng, shape, length, count):
    """The bytes of a heap after a random run of this many calls."""
    run = Run(shape, "", garbage(rng, shape, length), 0, "garbage")
    player = Player(rng, run)
    player.begin()
    player.play(count)
    return bytes(run.heap.data)


def heap_with_old_pages(rng, shape, length):
    """The bytes of a heap that calls by the rule before made: full, half-full and empty pages of closed classes, and often
    some of an offered class, blocks and free blocks among them."""
    heap = Heap(bytearray(rng.randbytes(length)), before(shape))
    heap.initialise(good_end(rng, shape, length))
    classes = rng.choices(shape.closed, k=rng.choice((1, 2, 3))) + rng.choices(range(shape.offered), k=rng.choice((0, 1, 1)))
    sizes = [rng.choices(sizes_of(c), k=shape.items_in_page(c)) for c in classes for _ in range(rng.randint(1, 3))]
    sizes += [[rng.randint(heap.shape.largest_item + 1, HABITS[shape].block)] for _ in range(rng.choice((0, 0, 3, 6)))]
    rng.shuffle(sizes)
    records = [[address for refusal, address in map(heap.allocate, some) if not refusal] for some in sizes]
    for addresses in records:  # of a page, or of a block
        for address in rng.sample(addresses, round(len(addresses) * rng.choice((0, 0.5, 0.5, 1)))):
            heap.free(address)
    share_known = rng.choice((0, 0.5, 1, 1))
    heap.state.asked = {item: size for item, size in heap.state.asked.items() if rng.random() < share_known}
    heap.lay_out_whole()
    return bytes(heap.data)


def old_heap(rng, shape, length):
    """The bytes of a sound heap by the rule before: of calls that leave pages of all kinds, of any calls, or of none."""
    old = before(shape)
    return rng.choices((lambda: heap_with_old_pages(rng, shape, length),
                        lambda: played_heap(rng, old, length, rng.randint(50, 300)),
                        lambda: invented_heap(rng, old, length, TASTES_FOR_PAGES)), (3, 1, 1))[0]()


def sound_heap(rng, shape, length):
    """The bytes of any sound heap; where there are closed classes, it is often an old one."""
    if shape.closed and rng.random() < 0.3:
        return old_heap(rng, shape, length)
    if rng.random() < 0.5:
        return invented_heap(rng, shape, length)
    return played_heap(rng, shape, length, rng.randint(50, 500))


# What a run begins with, and how likely that is where there are closed classes, and where not.
STARTS = {"garbage": garbage, "sound heap": invented_heap, "old heap": old_heap}
START_SHARES = {True: (35, 15, 50), False: (70, 30, 0)}


def random_run(rng, shape, label):
    """A run over one buffer, from garbage, from any sound heap or from an old one on."""
    bad = rng.random() < 0.05
    origin = "garbage" if bad else rng.choices([*STARTS], START_SHARES[bool(shape.closed)])[0]
    length = rng.choice(bad_lengths(shape)) if bad else (old_length if origin == "old heap" else random_length)(rng, shape)
    run = Run(shape, label, STARTS[origin](rng, shape, length), rng.randrange(8), origin)
    player = Player(rng, run)
    if origin == "garbage":
        player.begin()
    short = origin == "old heap" and rng.random() < 0.95  # many old heaps tell more than many calls on one
    count = 10 if bad else rng.randint(30, 120) if short else rng.randint(50, min(1500, 100 + length // 20))
    player.play(count // 2)
    if run.heap.state and rng.random() < 0.3:
        run.forget(list(run.heap.state.asked))  # so far it was an older heap
    player.play(count - count // 2)
    if origin == "old heap":
        player.retire()
    run.call("check")
    return run


def full_of_pages(rng, shape, c, shares_in_use):
    """The bytes of the longest heap, with as many pages of class c as it can have, each with one of these shares in use."""
    heap = Heap(bytearray(shape.longest), shape)
    heap.initialise()
    position, size, count = shape.data_area, shape.page_size(c), shape.items_in_page(c)
    left = heap.state.remove_block(position)[1]
    while left >= size + shape.smallest_free:
        heap.state.add_block(position, PAGE, size)
        in_use = set(rng.sample(range(count), round(count * rng.choice(shares_in_use))))
        invented_page(rng, heap.state, position, c, in_use.__contains__, 1)
        position, left = position + size, left - size
    heap.state.add_block(position, FREE, left)
    rng.shuffle(heap.state.lists[c])
    heap.lay_out_whole()
    return bytes(heap.data)


def swept_run(rng, shape, label, start):
    """Sweeps of a sound heap, and a few other calls in between."""
    run = Run(shape, label, start, rng.randrange(8), "sound heap")
    player = Player(rng, run)
    for _ in range(3):
        run.sweep_twice()
        player.play(10)
    return run


def swept_heap(rng, shape):
    """The bytes of a sound heap with some pages; where there are closed classes, of an old one or not."""
    return invented_heap(rng, rng.choice((shape, before(shape))), rng.randint(*HABITS[shape].swept), TASTES_FOR_PAGES)


def heap_that_may_grow(rng, shape, length):
    """What a heap with room to grow is, in a word, and its bytes: not yet opened, with any blocks, or old in a longer buffer."""
    room = rng.randint(8, max(8, length - shape.shortest))
    origin = rng.choices(("garbage", "sound heap", "old heap"), (6, 3, 1))[0]
    if origin == "garbage" or length - room < shape.shortest:
        return "garbage", garbage(rng, shape, length)
    if origin == "sound heap":
        return origin, invented_heap(rng, shape, length - room) + rng.randbytes(room)
    return origin, old_heap(rng, shape, max(length - room, HABITS[shape].first_page[1])) + rng.randbytes(room)


def grown_run(rng, shape, label):
    """A few calls on a heap that soon has to grow, as far as its buffer goes."""
    origin, start = heap_that_may_grow(rng, shape, rng.randint(*rng.choice(HABITS[shape].grown)))
    run = Run(shape, label, start, rng.randrange(8), origin)
    player = Player(rng, run, MOODS_FOR_GROWTH)
    player.end_share = rng.choice((0.3, 0.8))
    if origin == "garbage":
        player.begin()
    player.play(rng.randint(10, 50))
    run.call("check")
    return run


def run_and_longer(rng, shape, label, same_start):
    """A run of allocations, frees and sweeps on a fresh heap, and the same on one in a longer buffer with other bytes in its
    records: both begin with their whole buffers, or with the same end. While the shorter has room, both answer alike: demand 3."""
    habits = HABITS[shape]
    length = rng.choice([rng.randint(*lengths) for lengths in (habits.first_page, habits.paired, habits.paired)])
    shorter, longer = (Run(shape, label, rng.randbytes(n), 0, "garbage") for n in (length, length + rng.randint(1, habits.longer)))
    end = good_end(rng, shape, length - 8) if same_start else None
    shorter.initialise(end)
    longer.initialise(end)
    player = Player(rng, shorter, MOODS_WITHOUT_RESIZE)
    player.sweep_share = 0.05
    player.play(CALLS_OF_A_PAIR)
    for step in shorter.steps[1:]:
        if step.name == "poke" or step.answer >> 32 == NO_ROOM:
            continue
        refusal, given = longer.call(step.name, *step.arguments)
        if step.answer != refusal << 32 | given:
            raise SystemExit(f"compare: {label}: the second program answers {refusal} {given} to {step.name} on the longer heap")
    return shorter, longer


def back_length(rng, shape):
    """The length of a buffer in which everything comes back: most have room for some pages, few are long."""
    habits = HABITS[shape]
    ranges = habits.tiny, habits.first_page, *habits.played[:2], habits.long
    return rng.randint(*rng.choices(ranges, (6, 10, 52, 30, 2))[0])


def not_back(run, opened, back, anew):
    """Where the bytes that are left when everything came back differ from a heap's that was opened with the same end, in all
    that is before the blocks and in tags and links of the free block; and from those when this heap itself was opened."""
    shape, end, links = run.shape, run.heap.state.end, 2 * run.shape.word
    grew = range(shape.stored_end, shape.stored_end + shape.word) if run.heap.grown else ()
    lines = [f"byte {p}: {back[p]}, but {anew[p]} in a heap opened with the end {end}"
             for p in (*range(shape.data_area + links), *range(end - links, end)) if back[p] != anew[p]]
    return lines + [f"byte {p}: {back[p]}, but {opened[p]} when this heap was opened"
                    for p in range(shape.data_area) if p not in grew and back[p] != opened[p]]


def run_and_back(rng, shape, label):
    """A run that opens a heap with the end that another run's heap has when everything came back, and that other run: any calls on
    a fresh heap, then all that is live is freed in any order, and a sweep. What both leave is alike: document 02, (xii)."""
    length = back_length(rng, shape)
    run = Run(shape, label, garbage(rng, shape, length), rng.randrange(8), "garbage")
    player = Client(rng, run, rng.choice((MOODS, MOODS_FOR_GROWTH)))
    player.begin()
    opened, bytes_then = len(run.steps) - 1, bytes(run.heap.data)
    if rng.random() < 0.2:
        player.fill_pages()
    player.play(rng.choice((rng.randint(0, 10), rng.randint(10, 60), rng.randint(40, 120))))
    run.met.update(f"back: {case}" for case in what_came_before(run, opened))
    player.bring_back()
    fresh = Run(shape, label, rng.randbytes(length), rng.randrange(8), "garbage")
    fresh.initialise(run.heap.state.end if shape.grows else None)
    if run.heap.state != fresh.heap.state or not_back(run, bytes_then, run.heap.data, fresh.heap.data):
        raise SystemExit(f"compare: {label}: of the second program's heap not everything came back")
    run.fresh, run.left, fresh.left = fresh, dict.fromkeys((opened, len(run.steps) - 1)), {0: None}
    return fresh, run
