#!/usr/bin/env python3
"""What the program `show` must print of a heap, by the second program.

  report.py HEAP                  prints the report on the heap in a file, the hand unit's where the first bytes are
  report.py --make HEAP REPORT    writes a heap with every kind of block, and the report on it
"""

import bisect
import sys

sys.dont_write_bytecode = True
from second import BEFORE, FREE, HAND, PAGE, VARIABLE, WIDE, Heap, end_of, item_capacity, shape_of, used_header

NAMES = {1: "bad length", 2: "not opened", 3: "not sound"}
STATISTICS = ("free bytes", "free blocks", "largest free block", "variable blocks", "pages", "live items")
CHARACTERS, COLUMNS = 1024, 64
LONGEST_INPUT = WIDE.longest  # so much the program reads, and no heap is longer


def end_lines(heap):
    """Where the heap ends and how far it may grow, of one that may."""
    end = heap.state.end
    return [f"end {end}", f"room to grow {end_of(len(heap.data)) - end}"] if heap.shape.grows else []


def class_lines(shape, table):
    return [f"{c} {item_capacity(c)} {pages} {live} {free}" + " closed" * (c in shape.closed)
            for c, (pages, live, free) in enumerate(table) if pages]


def block_line(state, answer):
    what, position, size, *rest = answer
    line = f"{position} {size} {what}"
    if what == "free":
        return f"{line}, next {rest[0]}, previous {rest[1]}"
    if what == "page":
        held, items = state.held_in(position), len(state.items_of_page(position))
        return f"{line}, class {rest[0]}, live items {held}, free items {items - held}"
    return line


def block_lines(heap):
    lines, position = [], heap.shape.data_area
    while position in heap.state.blocks:
        _, answer, position = heap.step(position)
        lines.append(block_line(heap.state, answer))
    return lines


def mark(state, block):
    """The character of a block."""
    kind, _ = state.blocks[block]
    if kind == PAGE:
        return str(min(9, 10 * state.held_in(block) // len(state.items_of_page(block))))
    return {FREE: ".", VARIABLE: "#"}[kind]


def map_lines(state):
    start = state.shape.data_area
    part = (state.end - start) // CHARACTERS + 1
    marks = [mark(state, block) for block in state.starts]
    shown = "".join(marks[bisect.bisect_right(state.starts, position) - 1] for position in range(start, state.end, part))
    head = f"map: each character is {part} bytes, and shows the block at the first of them: . free, # variable, 0 to 9 page by tenths of its items in use (9: nine or ten)"
    return [head] + [shown[i:i + COLUMNS] for i in range(0, len(shown), COLUMNS)]


def told_heap(data):
    """The second program's heap of these bytes, in the shape that they tell."""
    return Heap(bytearray(data), shape_of(data))


def report(heap):
    """The lines of the report on a heap of the second program."""
    refusal, six, table = heap.statistics()
    said = [f"check: {refusal} {NAMES[refusal]}" if refusal else "check: sound"] + ["hand unit"] * (heap.shape == HAND)
    if refusal:
        return said + [f"the input is too long: more than {LONGEST_INPUT} bytes"] * (len(heap.data) > LONGEST_INPUT)
    state = heap.state
    payloads = [f"{a} {state.capacity(a)} {state.shown(a)}" for a in sorted(state.live_addresses())]
    return (said + end_lines(heap) + ["", "statistics"] + [f"{name} {n}" for name, n in zip(STATISTICS, six)]
            + ["", "classes: class, item size, pages, live items, free items; closed: no more are handed out"]
            + class_lines(heap.shape, table)
            + ["", "blocks: position, size, what it is"] + block_lines(heap)
            + ["", "live payloads: address, capacity, shown"] + payloads
            + [""] + map_lines(state))


def granted(answer):
    refusal, address = answer
    assert refusal == 0
    return address


def forget(heap, address):
    """Makes the item at an address one of an older heap, whose size is not known."""
    item = address - heap.shape.word
    granted(heap.put(item, used_header(heap.state.item_class[item], 0)))


def sample():
    """The console's, begun by the rule before, as small as may be. It grew, and may grow on; what is behind its end is none of its
    business. Free and variable blocks, and pages that are full, half full, nearly empty and empty, of closed classes and of others;
    the buffer's length is no multiple of 8. The items are for sizes of their class in turn, from the greatest down; of one the size
    is not known."""
    heap = Heap(bytearray(36400) + b"\x12" * 601, BEFORE)
    granted(heap.initialise(WIDE.shortest))
    take = lambda size, count=1: [granted(heap.allocate(size - i % 8)) for i in range(count)]
    large = take(300) + take(1000)
    full = take(256, 16)
    large += take(257) + take(700)
    half, half_closed = take(128, 31), take(192, 21)
    large += take(2000) + take(264)
    empty = take(64) + take(136)
    few = take(256, 3)
    large += take(400)
    take(13)
    heap = Heap(heap.data)  # the rule of today, that closed some classes
    for address in large[1:6:2] + half[::2] + half_closed[::2] + empty + few[:1]:
        granted(heap.free(address))
    granted(heap.resize(large[0], 288))
    granted(heap.resize_in_place(half[1], 125))
    granted(heap.resize_in_place(half_closed[1], 187))
    granted(heap.move(few[1], 255))
    take(192)
    forget(heap, full[2])
    return heap


def main(words):
    if words[0] == "--make":
        heap = sample()
        with open(words[1], "wb") as file, open(words[2], "w", encoding="ascii") as text:
            file.write(heap.data)
            text.write("\n".join(report(heap)) + "\n")
    else:
        with open(words[0], "rb") as file:
            print("\n".join(report(told_heap(file.read()))))


if __name__ == "__main__":
    main(sys.argv[1:])
