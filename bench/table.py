#!/usr/bin/env python3
"""Counts the instructions of a library's heap calls against the plain C twin's.

  table.py [--shape NAME] --library FILE.. [--prefix NAME] [--sizes LIST]

The shape is the console's (wide) or the hand unit's (hand), whose code is 64-bit
code here too: the toolchain compiles for x86-64 alone.
Prints a Markdown table, how each count grows with the heap, the library's size,
what a sweep costs against a check and how it grows, and last the worst ratios, of
calls that grow the heap, of sweeps and of all others, beyond what is let pass of
the hand unit's; the status is 1 if one of these is over its limit.
Needs valgrind. All that is built goes below out/. "--prefix twin_" without a
library puts the twin on both sides.
"""

import argparse
import itertools
import os
import random
import subprocess
import sys
import tempfile
from concurrent.futures import ThreadPoolExecutor

ROOT = os.path.dirname(os.path.dirname(os.path.abspath(__file__)))
sys.path.insert(0, os.path.join(ROOT, "compare"))
sys.dont_write_bytecode = True  # products belong below out/
from second import BEFORE, GRANTED, HAND, NO_ROOM, SHAPES, VARIABLE, WIDE, Heap, end_of  # noqa: E402

PRODUCTS = os.path.join(ROOT, "out", "bench")
# LLVM compiles the library, and so the twin.
CC = (*os.environ.get("TWIN_CC", "clang").split(), "-O3", "-Wall", "-Wextra", "-Werror")
# The C library then takes the same memset and memcpy on every processor.
SAME_EVERYWHERE = {"GLIBC_TUNABLES": "glibc.cpu.hwcaps=-AVX,-AVX2,-ERMS,-FSRM,-SSSE3"}
CALLS = ("initialise", "check", "allocate", "resize", "resize_in_place", "move", "free", "sweep")
SIZES = {WIDE: (10000, 65536, 1048576), HAND: (1000, 10000, 65536)}
OWN_PREFIX = {WIDE: "jagwibodu_", HAND: "jagwibodu_hand_"}
HEADING = {WIDE: "heap", HAND: "hand unit's heap, 64-bit code"}
MOVES, KEPT, CANNOT_STAY, FULL = "it moves", "it is kept for want of room", "it cannot stay", "there is no room"
GROWS = "the heap grows"
OLDER, CLOSED, ALL_FREED = "full of older items", "pages of closed classes", "all freed"
ROOM = 4400  # bytes behind the end of a heap that has grown full: a page takes 4,248 of them at most
# No call may take more instructions than so many times the twin's; no sweep; and none that grows the heap: the twin goes through
# the free list once for that, ours does so again after it has found no room.
LIMIT, SWEEP_TWIN_LIMIT, GROWING_TWIN_LIMIT = 1.055, 1.25, 1.35
# The hand unit's heaps are short: the map that a check clears, and the table that a sweep clears, are not lost in what they then take.
CLEARED = {WIDE: (0, 0), HAND: (430, 1900)}  # so many instructions more are let pass for each check, and for a sweep
SWEEP_LIMIT = 2.5  # a sweep of a heap with half its pages empty takes at most so many times what the check of it takes
SWEEP_GROWTH_LIMIT = 19 / 16  # and from the last length but one to the last it grows so many times as much as the heap at most


def fresh(shape, length, end=None):
    """A heap that begins with this end, or takes the whole buffer at once."""
    heap = Heap(bytearray(length), shape)
    heap.initialise(end)
    return heap


def just_begun(shape, length):
    """As small as a heap can be."""
    return fresh(shape, length, shape.shortest)


def nearly_empty(shape, length, end=None):
    """A few records, one of them a tenth of the buffer."""
    heap = fresh(shape, length, end)
    for size in (40, length // 10, 40, 300, 40):
        heap.allocate(size)
    return heap


def filled(shape, length, first, size, part=None, end=None):
    """A record, then records until there is no room; one of so many is freed, in scattered order, or none."""
    rng, heap, records = random.Random(1), fresh(shape, length, end), []
    heap.allocate(first)
    while True:
        refusal, address = heap.allocate(size(rng))
        if refusal == NO_ROOM:
            break
        records.append(address)
    for address in rng.sample(records, len(records) // part if part else 0):
        heap.free(address)
    return heap


def sizes_of_blocks(shape, length, largest):
    """Sizes by chance that get blocks, up to the largest or a fifth of the heap."""
    return lambda rng: rng.randint(shape.largest_item + 1, min(largest, length // 5))


def sizes_of_items(shape):
    """Sizes by chance that get items."""
    return lambda rng: rng.randint(1, shape.largest_item)


def full_of_blocks(shape, length, end=None):
    """An item, and then blocks of mixed sizes; a third of them is freed."""
    return filled(shape, length, 40, sizes_of_blocks(shape, length, 900), 3, end)


def full_of_items(shape, length, end=None):
    """A block, and then items of the smallest class, for its sizes in turn; half of them is freed."""
    sizes = itertools.cycle(range(1, 9))
    return filled(shape, length, 600, lambda rng: next(sizes), 2, end)


def full_of_older_items(shape, length):
    """The same, from before sizes were kept."""
    heap = full_of_items(shape, length)
    heap.state.asked.clear()
    heap.lay_out_whole()
    return heap


def half_the_pages_empty(shape, length):
    """Full of the smallest items; every second page is emptied, and in the others the first of every three items is freed."""
    heap = filled(shape, length, 600, lambda rng: 8)
    for index, page in enumerate(sorted(heap.state.page_class)):
        for item in heap.state.items_of_page(page)[::3 if index % 2 else 1]:
            heap.free(item + shape.word)
    return heap


def all_freed(shape, length):
    """Items of all sizes and blocks, and then all of them freed: what the sweep finds that brings everything back."""
    heap = mixed(shape, length)
    for address in [*heap.state.live_addresses()]:
        heap.free(address)
    return heap


def pages_of_closed_classes(shape, length):
    """By the rule before: an item, and then a page of each closed class in turn; one is half emptied, one emptied, one left full."""
    sizes = itertools.cycle(size for c in shape.closed for size in shape.items_in_page(c) * [8 * c + 8])
    heap = filled(BEFORE, length, 40, lambda rng: next(sizes))
    _, *pages = sorted(heap.state.page_class)
    for page, freed in zip(pages, itertools.cycle((slice(None, None, 2), slice(None), slice(0)))):
        for item in heap.state.items_of_page(page)[freed]:
            heap.free(item + shape.word)
    return Heap(heap.data, shape)


def items_of_all_sizes(shape, length):
    """A block, and then items of all sizes by chance; half of them is freed."""
    return filled(shape, length, 600, sizes_of_items(shape), 2)


def mixed(shape, length):
    """Items of all sizes and blocks, in turn by chance; a third of them is freed."""
    sorts = sizes_of_items(shape), sizes_of_blocks(shape, length, 2000)
    return filled(shape, length, 40, lambda rng: rng.choice([size(rng) for size in sorts]), 3)


def grown_nearly_empty(shape, length):
    """A few records, of a heap that began as small as it can be."""
    return nearly_empty(shape, length, shape.shortest)


def grown_full(make, shape, length):
    """A full heap that began as small as it can be, in a buffer that is then longer: there it can grow on."""
    heap = make(shape, length - ROOM, shape.shortest)
    return Heap(heap.data + bytes(ROOM), shape)


def grown_full_of_blocks(shape, length):
    """The last block is in use."""
    return grown_full(full_of_blocks, shape, length)


def grown_full_but_for_the_last(shape, length):
    """The same, but the last block is free."""
    heap = grown_full_of_blocks(shape, length)
    heap.free(block_with(heap, lambda p, size: True))
    return heap


def grown_full_of_items(shape, length):
    return grown_full(full_of_items, shape, length)


KINDS = {"empty": fresh, "nearly empty": nearly_empty, "full of blocks": full_of_blocks, "full of items": full_of_items,
         "mixed": mixed}
# What only the check and the sweep are measured on; and, with closed classes, what the rule for these is about.
SWEPT = {OLDER: full_of_older_items, "half the pages empty": half_the_pages_empty, CLOSED: pages_of_closed_classes,
         "items of all sizes": items_of_all_sizes, ALL_FREED: all_freed}
# Heaps that began small and have room to grow, which growing calls are measured on.
GROWN = {"just begun": just_begun, "grown, nearly empty": grown_nearly_empty, "grown, full of blocks": grown_full_of_blocks,
         "grown, full of blocks, the last one free": grown_full_but_for_the_last, "grown, full of items": grown_full_of_items}


def last(items):
    """The last of some, or none: the farthest to find is the dearest."""
    return max(items, default=None)


def class_with_items(state, but=None):
    """A class that is handed out, and whose list is not empty."""
    return next((c for c in range(state.shape.offered) if state.lists[c] and c != but), None)


def empty_class(state, but=None):
    """One whose list is empty: the first, whose page is the dearest to make."""
    return next((c for c in range(state.shape.offered) if not state.lists[c] and c != but), None)


def closed_class_with_items(state):
    """A class that is not handed out, and has items that wait."""
    return next((c for c in state.shape.closed if state.lists[c]), None)


def largest_free(state):
    """The size of the largest free block, 0 if none."""
    return max((state.blocks[p][1] for p in state.free), default=0)


def block_with(heap, is_right):
    """The address of the last variable block that a condition on position and size holds for."""
    blocks = heap.state.blocks
    return last(p + heap.shape.word for p, (kind, size) in blocks.items() if kind == VARIABLE and is_right(p, size))


def last_item(heap):
    """The address of the last item in use, and its class; nothing where there is none."""
    item = last(heap.state.item_class)
    return (item + heap.shape.word, heap.state.item_class[item]) if item else (None, None)


def allocations(heap):
    state = heap.state
    with_items, empty = class_with_items(state), empty_class(state)
    if with_items is not None:
        yield "allocate an item from its list", "allocate", 0, 8 * with_items + 8
    if empty is not None:
        yield "allocate the first item of a class", "allocate", 0, 8 * empty + 8
    if state.free:
        fits = min(largest_free(state) - heap.shape.tags, 500)
        yield "allocate a block", "allocate", 0, max(heap.shape.largest_item + 1, fits)
    yield f"allocate a block, {FULL}", "allocate", 0, heap.shape.largest_size


def frees(heap):
    (item, _), block = last_item(heap), block_with(heap, lambda p, size: True)
    if item:
        yield "free an item", "free", item, 0
    if block:
        yield "free a block", "free", block, 0


# Records for a resize: (which it is and what becomes of it, its address, the new size).

def staying(heap):
    """Records that can have the new size where they stand."""
    state = heap.state
    (item, c), block = last_item(heap), block_with(heap, lambda p, size: True)
    if item:
        yield "an item, it stays", item, 8 * c + 1  # with another size in its header
    if block:
        yield "a block, it stays", block, state.capacity(block)
    block = block_with(heap, lambda p, size: size >= heap.shape.smallest_variable + 40)
    if block:
        yield "a block, it shrinks", block, state.capacity(block) - 40
    block = block_with(heap, lambda p, size: state.is_free(p + size))
    if block:
        yield "a block, it grows", block, state.capacity(block) + 8


def stuck(heap):
    """Records that cannot have it there, whether there is room elsewhere or not."""
    state = heap.state
    (item, _), block = last_item(heap), block_with(heap, lambda p, size: not state.is_free(p + size))
    if item:
        yield "an item, " + CANNOT_STAY, item, 300
    if block:
        yield "a block, " + CANNOT_STAY, block, state.capacity(block) + 8


def moving(heap):
    """Records that cannot have it there, and go elsewhere if there is room."""
    state = heap.state
    (item, c), block = last_item(heap), block_with(heap, lambda p, size: True)
    if item:
        other, empty = class_with_items(state, c), empty_class(state, c)
        if other is not None:
            yield f"an item, {MOVES} to another class", item, 8 * other + 8
        if empty is not None:
            yield f"an item, {MOVES} to a new page", item, 8 * empty + 8
        yield f"an item, {MOVES} to a block", item, 300
    if block and class_with_items(state) is not None:
        yield f"a block, {MOVES} to an item", block, 8 * class_with_items(state) + 8
    yield from moving_blocks(heap)


def moving_blocks(heap):
    """The largest block that cannot grow and finds room elsewhere."""
    state = heap.state
    fits = [(size, p + heap.shape.word) for p, (kind, size) in state.blocks.items()
            if kind == VARIABLE and not state.is_free(p + size) and size + 8 <= largest_free(state)]
    if fits:
        _, address = max(fits)
        yield f"a large block, {MOVES}", address, state.capacity(address) + 8


def kept(heap):
    """Records that would go to a new page, where there is no room for one."""
    state = heap.state
    (item, c), block = last_item(heap), block_with(heap, lambda p, size: True)
    if item and empty_class(state, c) is not None:
        yield "an item, " + KEPT, item, 8 * empty_class(state, c) + 8
    if block and empty_class(state) is not None:
        yield "a block, " + KEPT, block, 8 * empty_class(state) + 8


def resizes(heap):
    for sort in (staying, moving, kept):
        for what, address, size in sort(heap):
            yield f"resize {what}", "resize", address, size


def resizes_in_place(heap):
    for sort in (staying, stuck):
        for what, address, size in sort(heap):
            yield f"resize in place {what}", "resize_in_place", address, size


def moves(heap):
    (item, c), record = last_item(heap), last(heap.state.live_addresses())
    if item:
        yield "move an item within its class", "move", item, 8 * c + 8
    for what, address, size in moving(heap):
        yield f"move {what.replace(', ' + MOVES, '')}", "move", address, size
    if record:
        yield f"move a record, {FULL}", "move", record, heap.shape.largest_size


def closed_class_calls(heap):
    """On pages of closed classes: what stays as it was, and what a block is made for."""
    (item, c), waiting = last_item(heap), closed_class_with_items(heap.state)
    if waiting is not None:
        yield "allocate a block, items of its closed class wait", "allocate", 0, 8 * waiting + 8
    if item:
        yield "free an item of a closed class", "free", item, 0
        yield "resize in place an item of a closed class, it stays", "resize_in_place", item, 8 * c + 1
        yield "move an item within its closed class, to a block", "move", item, 8 * c + 8


def growing_calls(heap):
    """For more than any free block has, so that the heap grows by it where its buffer has room."""
    state = heap.state
    (item, c), block = last_item(heap), block_with(heap, lambda p, size: True)
    size = max(heap.shape.largest_item, largest_free(state) - heap.shape.tags) + 1
    yield f"allocate a block, {GROWS}", "allocate", 0, size
    yield f"allocate the first item of a class, {GROWS}", "allocate", 0, 8 * empty_class(state) + 8
    if item:
        yield f"move an item to a new page, {GROWS}", "move", item, 8 * empty_class(state, c) + 8
        yield f"move an item to a block, {GROWS}", "move", item, size
    if block:
        larger = max(size, state.capacity(block) + 8)
        yield f"move a block, {GROWS}", "move", block, larger
        yield f"resize a block, {MOVES}, {GROWS}", "resize", block, larger
    yield f"allocate a block, {FULL}", "allocate", 0, heap.shape.largest_size


def comes_out(heap, name, call, address, size):
    """Whether the call ends as its name says."""
    trial = Heap(bytearray(heap.data), heap.shape)
    arguments = {"allocate": (size,), "free": (address,)}.get(call, (address, size))
    refusal, _ = getattr(trial, call)(*arguments)
    wanted = NO_ROOM if name.endswith((CANNOT_STAY, FULL)) else GRANTED
    return refusal == wanted and bool(trial.kept) == name.endswith(KEPT) and bool(trial.grown) == name.endswith(GROWS)


def calls_on(kind, heap):
    """What is measured on a heap: (name, call, address, size), only what ends as its name says."""
    yield "check", "check", 0, 0
    yield "sweep", "sweep", 0, 0
    special = dict.fromkeys(SWEPT, ()) | dict.fromkeys(GROWN, (growing_calls,)) | {CLOSED: (closed_class_calls,)}
    for sort in special.get(kind, (allocations, frees, resizes, resizes_in_place, moves)):
        yield from (row for row in sort(heap) if comes_out(heap, *row))


def kinds(shape):
    """The heaps that are measured. The hand unit has none from before sizes were kept, with closed classes, or that grow; what is
    all freed is over a sweep's limit there, and told in PERFORMANCE.md."""
    return {kind: make for kind, make in (KINDS | SWEPT | GROWN).items()
            if shape is WIDE or kind not in (OLDER, CLOSED, ALL_FREED, *GROWN)}


def let_pass(shape, name):
    """The instructions that a call may take besides its share of the twin's. A resize checks anew before each way that it tries."""
    a_check, a_sweep = CLEARED[shape]
    if name == "sweep":
        return a_sweep
    ways = 1 + (MOVES in name) + 2 * (KEPT in name) if name.startswith("resize") else 1
    return ways * a_check


def twin_limit(name):
    """How many times the twin's instructions a call may take."""
    return SWEEP_TWIN_LIMIT if name == "sweep" else GROWING_TWIN_LIMIT if name.endswith(GROWS) else LIMIT


def build(shape, libraries, prefix):
    program = os.path.join(PRODUCTS, f"bench-{shape.name}")
    # the twin touches each page of its stack, as the library does
    flags = ("-fstack-clash-protection", f"-DTWIN_WORD={shape.word}",
             *(f"-D{OWN_PREFIX[shape]}{name}={prefix}{name}" for name in CALLS))
    sources = [os.path.join(ROOT, "bench", name) for name in ("bench.c", "twin.c")]
    subprocess.run([*CC, *flags, "-o", program, *sources, *libraries], check=True)
    return program


def count(program, path, call, address, size):
    """The instructions of ours and of the twin."""
    with tempfile.TemporaryDirectory(dir=PRODUCTS) as room:
        counted = os.path.join(room, "counted")
        subprocess.run(["valgrind", "-q", "--tool=callgrind", f"--callgrind-out-file={counted}",
                        program, path, call, str(address), str(size)],
                       check=True, stdout=subprocess.DEVNULL, env=os.environ | SAME_EVERYWHERE)
        nothing, ours, twins = (instructions(f"{counted}.{dump}") for dump in (1, 2, 3))
    return ours - nothing, twins - nothing


def instructions(path):
    """All that were counted up to this dump of callgrind's, since the one before."""
    with open(path, encoding="utf-8") as file:
        return next(int(line.split()[1]) for line in file if line.startswith("summary:"))


def saved(name, data):
    path = os.path.join(PRODUCTS, name)
    with open(path, "wb") as file:
        file.write(data)
    return path


def rows(program, shape, sizes):
    """(length, kind of heap, name of the call, ours, the twin's)"""
    for length in sizes:
        path = saved("zeros.heap", bytes(length))
        yield length, "not opened", "initialise", *count(program, path, "initialise", 0, end_of(length))
        for kind, make in kinds(shape).items():
            heap = make(shape, length)
            path = saved(f"{shape.name}-{kind.replace(' ', '-')}-{length}.heap", heap.data)
            calls = [*calls_on(kind, heap)]
            # Most of the time goes into starts of the program, so as many run at a time as there are processors.
            with ThreadPoolExecutor(os.cpu_count()) as pool:
                counts = pool.map(lambda row: count(program, path, *row[1:]), calls)
            for (name, *_), both in zip(calls, counts):
                yield length, kind, name, *both


def print_growth(counts):
    """Ours on the longest heap against the next shorter one, of the same kind."""
    print("\n| heap | call | from | to | heap grows | call grows |\n|---|---|---:|---:|---:|---:|")
    for (kind, name), by_length in counts.items():
        if len(by_length) > 1:
            short, long = sorted(by_length)[-2:]
            print(f"| {kind} | {name} | {short:,} | {long:,} | {long / short:.1f} | {by_length[long] / by_length[short]:.1f} |")


def over_limit(what, value, limit):
    """Prints how a value stands to its limit; whether it is over it."""
    print(f"\n{what}: {value:.3f}; the limit is {limit:.4g}")
    return value > limit


def sweeps_over_limits(shape, counts):
    """Whether a sweep of the heap with half its pages empty costs too much against its check, or grows too much."""
    checks, sweeps = (counts["half the pages empty", call] for call in ("check", "sweep"))
    over = [over_limit(f"sweep against check, {length:,}, half the pages empty", sweeps[length] / checks[length], SWEEP_LIMIT)
            for length in sweeps]
    short, long = SIZES[shape][-2:]
    if short in sweeps and long in sweeps:
        over.append(over_limit(f"sweep of {long:,} against {short:,}, half the pages empty", sweeps[long] / sweeps[short],
                               SWEEP_GROWTH_LIMIT * long / short))
    return any(over)


def options():
    parser = argparse.ArgumentParser(description="Counts instructions against the plain C twin.")
    parser.add_argument("--shape", choices=SHAPES, default=WIDE.name, help="whose heap it is")
    parser.add_argument("--library", nargs="*", default=[], metavar="FILE", help=".a, .o or .c files with the calls")
    parser.add_argument("--prefix", help="what the names of the calls begin with, if not as the archive's do")
    parser.add_argument("--sizes", type=lambda text: [int(word) for word in text.split(",")], help="lengths of the heaps")
    return parser.parse_args()


def main():
    chosen = options()
    shape = SHAPES[chosen.shape]
    os.makedirs(PRODUCTS, exist_ok=True)
    program = build(shape, chosen.library, chosen.prefix or OWN_PREFIX[shape])
    print(f"| {HEADING[shape]} | call | ours | twin | ratio |\n|---|---|---:|---:|---:|")
    counts, worst = {}, {}
    for length, kind, name, ours, twin in rows(program, shape, chosen.sizes or SIZES[shape]):
        counts.setdefault((kind, name), {})[length] = ours
        print(f"| {length:,}, {kind} | {name} | {ours:,} | {twin:,} | {ours / twin:.2f} |", flush=True)
        row = (ours - let_pass(shape, name)) / twin, f"{name}, {length:,}, {kind}"
        worst[twin_limit(name)] = max(worst.get(twin_limit(name), row), row)
    print_growth(counts)
    for library in chosen.library:
        print(f"\n{os.path.basename(library)}: {os.path.getsize(library):,} bytes")
    dear_sweeps = sweeps_over_limits(shape, counts)
    slow = [over_limit(f"worst ratio, {where}", ratio, limit) for limit, (ratio, where) in sorted(worst.items(), reverse=True)]
    return 1 if dear_sweeps or any(slow) else 0


if __name__ == "__main__":
    sys.exit(main())
