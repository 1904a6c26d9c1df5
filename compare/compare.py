#!/usr/bin/env python3
"""Compares a library's heap calls with the second program, call by call and byte by byte.

  compare.py --library FILE.. [--shape SHAPE] [--prefix NAME] [--cflags WORDS] [--seed S] [--number N] [--damaged D]
  compare.py --library FILE.. [--shape SHAPE] .. --seed S --only KIND:INDEX

"--shape hand" is for the hand unit's library. "--library bench/twin.c --prefix
twin_" compares the plain C twin, and with "--shape hand --cflags=-DTWIN_WORD=4" the
one for the hand unit. The driver is built below out/compare. The figures that are run come first, then the sizes
that an item's header can have, then runs on a heap and on one in a longer buffer, both as long as
their buffers or both with the same end to begin with, heaps that are swept above all, heaps that
grow above all, heaps of which all is freed and swept until they are fresh again, random runs on
fresh heaps, on any sound ones and on old ones, made by the rule before classes were closed, and
damaged heaps; two processes share them. A failure prints the calls up to the first one that
differs, and the status is 1.
"""

import argparse
import itertools
import os
import random
import struct
import subprocess
import sys
import tempfile
import time
from concurrent.futures import ProcessPoolExecutor
from itertools import repeat

sys.dont_write_bytecode = True  # products belong below out/
from damage import damaged
from heaps import Tally
from runs import (CALLS, HABITS, RESIZES, Player, Run, before, full_of_pages, grown_run, not_back, random_run, run_and_back,
                  run_and_longer, sound_heap, swept_heap, swept_run)
from second import FIGURES, HAND, SHAPES, VARIABLE, WIDE, Heap, played, sizes_of, start_of, used_header

ROOT = os.path.dirname(os.path.dirname(os.path.abspath(__file__)))
PRODUCTS = os.path.join(ROOT, "out", "compare")
CC = (*os.environ.get("CC", "cc").split(), "-O3", "-Wall", "-Wextra", "-Werror")
PREFIXES = {WIDE: "jagwibodu_", HAND: "jagwibodu_hand_"}  # of the calls in the header
BATCH_BYTES = 16 << 20
TIME_LIMIT = 120  # seconds for one batch
STACK = struct.Struct("<QQQ")  # what the driver says last
PARTS = 2  # processes side by side: each takes every second figure, class, run and group of damaged heaps
PAIRS = 20  # runs on a heap and on a longer one; and, where heaps grow, as many on two that begin with the same end
SWEPT_SHARE = 333  # for so many calls in random runs there is a heap that is swept above all
GROWN_SHARE = 200  # and, where heaps grow, one that grows above all
BACK_SHARE = 250  # and one of which everything comes back
# Classes whose pages fill the longest heap, and which shares of these pages are in use: the most items that there can be, in
# pages of which many are empty; and the most pages, which all stay or all go.
SWEPT_PAGES = {WIDE: ((0, (0, 0.5, 0.9, 1)), (1, (0.1, 0.5, 0.9, 1)), (1, (0,)), (WIDE.closed[0], (0, 0.5, 0.9, 1))),
               HAND: ((0, (0, 0.5, 1)), (0, (0.5,)), (0, (0,)))}
HEAPS_FROM_ONE, HEAPS_FROM_A_LONG_ONE = 25, 2  # damaged heaps made from the same sound one
# For so many damaged heaps there is at least one call that is refused as not sound: of each form of resize, and of sweep.
REFUSED_SHARES = dict.fromkeys(RESIZES, 4) | {"sweep": 1}
# Ways by which one at least of so many damaged heaps must be made: to do with sizes in headers, with the smallest blocks, with the
# bytes of a word, and with the heap's end and the buffer's.
WAY_SHARE = 500
ITEM_WAYS = ("size_not_known", "size_at_an_end_of_its_class", "size_of_its_class", "size_just_outside_its_class",
             "size_of_another_class", "huge_size", "two_wrong_sizes", "item_right_for_another_class")
SIZE_WAYS = ("older_heap", *ITEM_WAYS)
BLOCK_WAYS = {WIDE: ("small_variable_block", "smallest_variable_block", "variable_block_for_a_size_of_a_closed_class"),
              HAND: ("small_variable_block", "smallest_variable_block")}
WORD_WAYS = {WIDE: (), HAND: (
    "first_bytes_of_the_console", "used_item_of_a_class_of_the_console", "next_inside_a_word", "next_in_multiples_of_8",
    "rest_of_8", "spare_bytes_as_a_free_block", "neighbouring_words_swapped", "small_free_block", "lone_small_free_block")}
END_WAYS = {HAND: (
    "length_with_the_same_end", "buffer_that_ends_before_the_heap", "end_and_length_by_8", "longer_buffer", "end_too_low",
    "end_inside_a_word", "end_behind_the_buffer", "huge_end", "end_in_a_block", "end_at_another_border")}
END_WAYS[WIDE] = END_WAYS[HAND] + (
    "end_in_the_room", "last_block_up_to_the_buffers_end", "block_behind_the_end", "free_block_behind_the_end",
    "free_item_behind_the_end", "bytes_behind_the_end", "blocks_given_up", "block_added")
BORDER_SHARE = 1500  # of so many one at least has its end at another border and is still sound, and one is not
# Ways by which one at least of so many damaged heaps must be led to a page, an item or a list of a closed class.
CLOSED_WAY_SHARE = 2500
CLOSED_WAYS = {WIDE: ITEM_WAYS + (
    "item_of_another_class", "item_with_bad_flags", "free_item_as_used", "used_item_as_free", "head_elsewhere", "head_off_by_bytes",
    "heads_swapped", "next_elsewhere", "ring_of_items", "list_ends_early", "item_left_out", "lists_joined", "used_item_on_a_list",
    "item_with_the_class_of_its_list", "list_in_another_order", "page_of_another_length", "full_page_as_variable_block"), HAND: ()}
# What the random runs must meet, each at least once in so many calls.
COMMON_SHARES = {
    "resize: kept for want of room": 1000,
    "resize: an item is kept": 2000,
    "resize_in_place: shrunk or grown": 250,
    "resize_in_place: an item has another size": 500,
    "resize_in_place: an older item has another size": 2000,
    "resize_in_place: 6 for more than it holds": 200,
    "resize_in_place: 6 for what it holds already": 200,
    "move: within its class": 300,
    "move: from block to block": 200,
    "move: to another class or kind": 250,
    "move: 6 for more than it holds": 250,
    "move: 6 for what it holds already": 250,
    "move: of an older item": 1000,
    "move: stale bytes stay behind": 2000,
    "free: an item": 50,
    "free: an older item": 100,
    "sweeps": 50,
    "sweep: a page is given back": 300,
    "sweep: touching pages are given back": 1000,
    "sweep: a page between free blocks is given back": 2000,
    "sweep: the last block is given back": 2000,
    "sweep: 0, and lists change": 1000,
    "sweep: 0, and no byte changes": 500,
    "sweep: lists of several classes change": 1000,
    "sweep: a full page stays out of a list": 2000,
    "sweep: equal pages change places": 2500,
}
# The same where some classes are closed, on heaps that the rule before made and on others.
CLOSED_SHARES = {
    "old heap: a full page of a closed class": 6000,
    "old heap: a half-full page of a closed class": 3000,
    "old heap: an empty page of a closed class": 4000,
    "old heap: a single page of a closed class": 5000,
    "old heap: several pages of a closed class": 5000,
    "old heap: pages of several closed classes": 6000,
    "old heap: pages of closed and of offered classes": 5000,
    "old heap: pages of closed classes, blocks and free blocks": 5000,
    "old heap: an older item of a closed class": 6000,
    "allocate: a block where free items wait": 500,
    "allocate: 6 where free items wait": 1500,
    "free: an item of a closed class": 100,
    "resize: an item of a closed class stays": 2000,
    "resize: an item of a closed class is kept": 2000,
    "resize_in_place: an item of a closed class stays": 2000,
    "resize_in_place: 6 for an item of a closed class and another size": 1000,
    "resize_in_place: a block is left for a size of a closed class": 500,
    "resize_in_place: a block shrinks for a size of a closed class": 1000,
    "resize_in_place: a block grows for a size of a closed class": 2500,
    "move: an item of a closed class goes to a block for a size of its own": 4000,
    "move: an item of a closed class goes to a block for another size": 4000,
    "move: an item of a closed class goes to an item for another size": 20000,
    "move: 6 for an item of a closed class and a size of its own": 5000,
    "move: to a block where free items wait": 2500,
    "sweep: a page of a closed class is given back": 1000,
    "sweep: a page of a closed class stays, linked anew": 1000,
    "sweep: the last page of a closed class is given back": 2000,
}
# The same where heaps grow.
GROWTH_SHARES = {
    "initialise: the least end": 2000,
    "initialise: an end between": 2000,
    "initialise: the end of the buffer": 4000,
    "initialise: room to grow, and the length is no multiple of 8": 1000,
    "initialise: refused with 1 and a bad end": 50000,
    "initialise: refused with 7 and a bad end": 1000,
    "initialise: refused with 8": 3000,
    "bytes behind the end are written": 250,
    "an old heap grows": 400,
    "allocate grows: a block is added for a block": 100,
    "allocate grows: a block is added for a page": 1000,
    "allocate grows: a block is added behind other free ones": 200,
    "allocate grows: the last block is enlarged for a block": 500,
    "allocate grows: the last block is enlarged for a page": 2000,
    "allocate grows: the last block is enlarged behind other free ones": 2000,
    "allocate grows: exactly to the buffer's end for a block": 1500,
    "allocate grows: exactly to the buffer's end for a page": 10000,
    "allocate: 6 with some room to grow": 30,
    "allocate: 6 for want of 8 bytes to grow, for a block": 3000,
    "allocate: 6 for want of 8 bytes to grow, for a page": 15000,
    "move grows: a block is added for a block": 1000,
    "move grows: a block is added for a page": 8000,
    "move grows: a block is added behind other free ones": 2000,
    "move grows: the last block is enlarged for a block": 4000,
    "move grows: the last block is enlarged for a page": 30000,
    "move grows: the last block is enlarged behind other free ones": 6000,
    "move grows: exactly to the buffer's end for a block": 10000,
    "move: 6 with some room to grow": 200,
    "move: 6 for want of 8 bytes to grow, for a block": 30000,
    "resize grows: a block is added for a block": 2000,
    "resize grows: a block is added for a page": 8000,
    "resize grows: the last block is enlarged for a block": 25000,
    "resize grows: exactly to the buffer's end for a block": 25000,
    "resize: a block that only a higher end would let stay: moves": 4000,
    "resize: a block that only a higher end would let stay: 6": 2500,
    "resize_in_place: a block that only a higher end would let stay: 6": 1500,
    "free: the last block, and there is room to grow": 500,
    "sweep: a page is given back, and there is room to grow": 600,
    "sweep: the last block is given back, and there is room to grow": 4000,
    "sweep: a page of a heap that grew is given back": 1000,
}
SHARES = {
    WIDE: COMMON_SHARES | CLOSED_SHARES | GROWTH_SHARES | {
        "resize: an older item is kept": 2000,
        "sweep: a fuller page comes before a lower one": 1000,
        "sweep: unequal pages change places": 1000,
    },
    # A page of two items that is on a list after a sweep has one in use, so none of them is fuller than another.
    HAND: COMMON_SHARES | {
        "resize: an older item is kept": 8000,  # pages are so short that there is nearly always room for one
        "sweep: 0, and lists change": 2000,  # two items of a page are seldom in another order than a sweep's
    },
}
# Of the heaps that came back, one at least of so many.
COMMON_BACK_SHARES = {
    "back: a record was moved": 3,
    "back: a record was resized in place": 3,
    "back: a record was kept": 8,
    "back: the heap was swept before": 10,
    "back: refused with 4": 5,
    "back: refused with 5": 3,
    "back: refused with 6": 2,
    "back: refused with 7": 6,
    "back: nothing is live": 20,
    "back: blocks of their own are freed": 4,
    "back: blocks and items are freed": 6,
    "back: freed in rising order": 16,
    "back: freed in falling order": 18,
    "back: freed in mixed order": 5,
    "back: no page is given back": 6,
    "back: one page is given back": 10,
    "back: several pages are given back": 5,
    "back: several pages of a class are given back": 16,
    "back: pages of several classes are given back": 6,
}
BACK_SHARES = {
    WIDE: COMMON_BACK_SHARES | {
        "back: began with the least end": 5,
        "back: began with an end between": 3,
        "back: began with the whole buffer": 10,
        "back: the heap grew": 3,
        "back: bytes behind the end were written": 3,
    },
    HAND: COMMON_BACK_SHARES,
}


class Difference(Exception):
    """Where and how the library differs."""

    def __init__(self, run, index, lines):
        super().__init__(run, index, lines)  # with these it can come from another process
        self.run, self.index, self.lines = run, index, lines


def build_driver(chosen):
    os.makedirs(PRODUCTS, exist_ok=True)
    driver, own = os.path.join(PRODUCTS, f"driver-{chosen.shape.name}"), PREFIXES[chosen.shape]
    flags = [f"-D{own}{name}={chosen.prefix or own}{name}" for name in CALLS]
    flags += [*chosen.cflags.split(), *["-DHAND_UNIT"] * (chosen.shape == HAND)]
    source = os.path.join(ROOT, "compare", "driver.c")
    subprocess.run([*CC, *flags, "-o", driver, source, *chosen.library], check=True)
    return driver


class Driver:
    """Sends whole batches of runs to the driver and holds the answers against the runs."""

    def __init__(self, program):
        self.program = program
        self.batch, self.waiting = [], 0
        self.measured, self.deepest, self.promised = 0, 0, 0  # calls whose stack was measured, the most bytes, the header's
        self.back = 0  # heaps that were held against fresh ones when everything came back

    def add(self, run):
        self.batch.append(run)
        self.waiting += len(run.commands)
        if self.waiting > BATCH_BYTES:
            self.finish()

    def finish(self):
        batch, self.batch, self.waiting = self.batch, [], 0
        answers, status = self.execute(b"".join(run.commands for run in batch))
        at = 0
        for run in batch:
            at = check_run(run, answers, at, status)
            if run.fresh:
                check_back(run)
                self.back += 1
        if status != 0 or at + STACK.size != len(answers):
            raise SystemExit(f"compare: the driver ended with status {status}, {len(answers) - at} bytes after the last answer")
        measured, deepest, self.promised = STACK.unpack_from(answers, at)
        self.measured += measured
        self.deepest = max(self.deepest, deepest)

    def execute(self, commands):
        """All answers, and the status of the driver or what stopped it."""
        with tempfile.TemporaryFile() as given, tempfile.TemporaryFile() as taken:
            given.write(commands)
            given.seek(0)
            try:
                status = subprocess.run([self.program], stdin=given, stdout=taken, timeout=TIME_LIMIT).returncode
            except subprocess.TimeoutExpired:
                status = f"none within {TIME_LIMIT} s"
            taken.seek(0)
            return taken.read(), status


def read_answer(answers, at):
    """One call's answer, its changed ranges and where the next answer begins; raises if cut short."""
    answer, offset, length = struct.unpack_from("<QqQ", answers, at)
    at += 24
    ranges = []
    while length:
        ranges.append((offset, answers[at:at + length]))
        at += length
        offset, length = struct.unpack_from("<qQ", answers, at)
        at += 16
    return answer, ranges, at


def split_range(length, offset, content):
    """The part of a range inside the buffer, with its position, and what lies outside."""
    start, stop = max(0, -offset), max(0, length - offset)
    outside = content[:start] + content[stop:]
    return offset + start, content[start:stop], outside


def check_run(run, answers, at, status):
    """Replays both sides and compares every byte after every call; answers where the run's answers end."""
    wanted, got = bytearray(run.start), bytearray(run.start)
    for index, (name, first, second, writes) in enumerate(run.steps):
        if name == "poke":
            wanted[first:first + len(second)] = got[first:first + len(second)] = second
            continue
        for position, content in writes:
            wanted[position:position + len(content)] = content
        try:
            answer, ranges, at = read_answer(answers, at)
        except struct.error:
            raise Difference(run, index, [f"the call never answered (status of the driver: {status})"]) from None
        outside = apply_ranges(got, ranges, run.around)
        if answer != second or outside or wanted != got:
            raise Difference(run, index, describe(run.shape, second, answer, wanted, got, outside))
        if index in run.left:
            run.left[index] = bytes(got)
    return at


def check_back(run):
    """Holds what the library left when everything came back against a fresh heap of its own, and against its first bytes."""
    opened, back = run.left.values()
    lines = not_back(run, opened, back, run.fresh.left[0])
    if lines:
        more = [f"and {len(lines) - 10} more bytes"] if len(lines) > 10 else []
        raise Difference(run, len(run.steps) - 1, ["not everything came back:", *lines[:10], *more])


def apply_ranges(got, ranges, around):
    """Brings the mirror up to date; whether the guards, which were these bytes, were written to."""
    outside_changed = False
    for offset, content in ranges:
        position, inside, outside = split_range(len(got), offset, content)
        got[position:position + len(inside)] = inside
        outside_changed |= bool(outside.strip(around))
    return outside_changed


def describe(shape, expected, actual, wanted, got, outside):
    lines = [f"expected: refusal {expected >> 32}, address or pages {expected % 2**32}",
             f"actual:   refusal {actual >> 32}, address or pages {actual % 2**32}"]
    if outside:
        lines.append("bytes outside the lent buffer were changed")
    word = shape.word
    differing = [p for p in range(0, len(wanted), word) if wanted[p:p + word] != got[p:p + word]]
    for position in differing[:10]:
        words = [int.from_bytes(side[position:position + word], "little") for side in (wanted, got)]
        lines.append(f"word at {position}: expected {words[0]}, actual {words[1]}")
    if len(differing) > 10:
        lines.append(f"and {len(differing) - 10} more words")
    return lines


def report(difference, seed):
    run, last = difference.run, difference.index
    path = os.path.join(PRODUCTS, f"failed-{run.shape.name}.heap")
    with open(path, "wb") as file:
        file.write(run.start)
    print(f"compare: {run.shape.name}, seed {seed}, {run.label} ({run.origin}): a difference at the last of these steps")
    print(f"  heap of {len(run.start)} bytes, as in {os.path.relpath(path, ROOT)}")
    for name, first, second, _ in run.steps[:last + 1]:
        if name == "poke":
            print(f"  poke {first} {second.hex()}")
        else:
            print(f"  {name} {' '.join(map(str, first))} -> {second >> 32} {second % 2**32}")
    for line in difference.lines:
        print(line)
    print(f"again: --shape {run.shape.name} --seed {seed} --only {run.label}")


def generator(seed, label):
    """A run's own source of chance, so that it can be made again alone."""
    return random.Random(f"{seed} {label}")


def check_second(run):
    """The second program's kept heap must be what its bytes say, and no page of a closed class may be new."""
    kept, verdict = run.heap.state, run.heap.verdict
    run.heap.decode()
    if verdict != run.heap.verdict or kept != run.heap.state:
        raise SystemExit(f"compare: {run.label}: the second program lost track of its own heap")
    if run.pages_of_closed_classes() - run.old_pages:
        raise SystemExit(f"compare: {run.label}: the second program made a page of a closed class")


def figure_runs(shape, figures, counts):
    """The figures that are run. The second program answers what they say, and so must the library."""
    for figure in figures:
        start = start_of(shape, figure)
        run = Run(shape, f"figure:{figure}", start, 0, "old heap" if any(start) else "zeros")
        for got, wanted in played(figure, run.heap, run.do):
            if got != wanted:
                raise SystemExit(f"compare: {run.label}: the second program gives {got} instead of {wanted}")
        counts["figures"] += 1
        yield run


def size_runs(shape, classes, counts):
    """Of each class a full page, and in the header of its first and of its last item every size that might pass."""
    for c in classes:
        heap, sizes = Heap(bytearray(5000), before(shape)), sizes_of(c)  # so that there are pages of closed classes too
        heap.initialise()
        items = [heap.allocate(sizes[i % len(sizes)])[1] for i in range(shape.items_in_page(c))]
        run = Run(shape, f"sizes:{c}", heap.data, 0, "a full page")
        huge = [2**bit + size for bit in range(shape.largest_capacity.bit_length(), 8 * shape.word - 7) for size in (0, sizes[-1])]
        for item in (items[0], items[-1]):
            right = [size for size in (*range(1, 300), *huge, 0)
                     if run.do("put", item - shape.word, used_header(c, size)) == run.call("check") == (0, 0)]
            if right != [*sizes, 0]:
                raise SystemExit(f"compare: {run.label}: the second program takes the sizes {right}")
        counts["sizes"] += 2 * (300 + len(huge))
        yield run


def count_calls(run, counts):
    """Adds a run's calls, and what came of its resizes, frees and sweeps."""
    counts["calls"] += run.calls
    counts["resize: kept for want of room"] += run.heap.kept
    counts.update(run.met)


def longer_runs(shape, seed, labels, counts):
    """Pairs of a run and the same run in a longer buffer; those with a label start:INDEX begin with the same end."""
    for label in labels:
        same_start = label.startswith("start:")
        shorter, longer = run_and_longer(generator(seed, label), shape, label, same_start)
        pairs = "pairs from the same end" if same_start else "pairs"
        counts[pairs] += 1
        counts[f"{pairs}: pages are given back"] += shorter.met["sweep: a page is given back"]
        counts[f"{pairs}: the heap grows"] += shorter.heap.grown
        yield shorter
        yield longer


def swept_runs(shape, seed, labels, counts):
    """Heaps that are swept above all; those with a label pages:INDEX are full of pages."""
    for label in labels:
        rng, (kind, index) = generator(seed, label), label.split(":")
        start = full_of_pages(rng, shape, *SWEPT_PAGES[shape][int(index)]) if kind == "pages" else swept_heap(rng, shape)
        run = swept_run(rng, shape, label, start)
        check_second(run)
        counts.update({case: met for case, met in run.met.items() if case.startswith("sweep")})  # random runs shall meet the rest
        counts["swept"] += 1
        yield run


def grown_runs(shape, seed, labels, counts):
    """Heaps that grow above all."""
    for label in labels:
        run = grown_run(generator(seed, label), shape, label)
        check_second(run)
        counts.update({case: met for case, met in run.met.items() if case in GROWTH_SHARES})  # the rest as above
        counts["grown"] += 1
        yield run


def back_runs(shape, seed, labels, counts):
    """Heaps of which everything comes back, each behind one that is opened with the end that it then has."""
    for label in labels:
        fresh, run = run_and_back(generator(seed, label), shape, label)
        check_second(run)
        counts.update({case: met for case, met in run.met.items() if case.startswith("back: ")})
        counts["back"] += 1
        yield fresh
        yield run


def random_runs(shape, seed, labels, number, counts):
    """Runs until there are this many calls."""
    while counts["calls"] < number:
        label = next(labels)
        run = random_run(generator(seed, label), shape, label)
        check_second(run)
        count_calls(run, counts)
        counts["heaps"] += 1
        counts["old heaps"] += run.origin == "old heap"
        yield run


def damaged_runs(shape, rng, label, counts):
    """Some damaged heaps made from one sound heap, each with all the calls."""
    habits = HABITS[shape]
    low, high = rng.choices((habits.short, habits.usual, habits.long), (10, 88, 2))[0]
    length = rng.randint(low, high)
    base = sound_heap(rng, shape, length)
    for _ in range(HEAPS_FROM_A_LONG_ONE if length >= habits.long[0] else HEAPS_FROM_ONE):
        damage = damaged(rng, shape, base)
        run = Run(shape, label, damage.data, rng.randrange(8), damage.way)
        still_sound = run.heap.verdict == 0
        if damage.stays_sound not in (None, still_sound) or not agrees_with_before(run):
            raise SystemExit(f"compare: {label} ({damage.way}): the second program says {run.heap.verdict}")
        calls_on_damaged(rng, run)
        counts["damaged"] += 1
        counts["still sound"] += still_sound
        counts[damage.way] += 1
        counts[f"{damage.way}, closed"] += damage.in_closed
        counts[f"{damage.way}, {'still' if still_sound else 'not'} sound"] += damage.stays_sound is None
        yield run


def agrees_with_before(run):
    """Whether the check says what the rule before said, but for the blocks that were too small for that."""
    rule, state = before(run.shape), run.heap.state
    if rule == run.shape or Heap(run.heap.data, rule).verdict == run.heap.verdict:
        return True
    return state is not None and any(kind == VARIABLE and size < rule.smallest_variable for kind, size in state.blocks.values())


def calls_on_damaged(rng, run):
    player = Player(rng, run)
    run.call("check")
    calls = [player.allocate, player.resize, player.free, player.allocate, player.resize, player.free, run.sweep_twice]
    rng.shuffle(calls)
    for call in calls:
        call()
    run.initialise(player.end())
    run.call("check")


def all_damaged_runs(shape, seed, labels, number, counts):
    while counts["damaged"] < number:
        label = next(labels)
        for run in damaged_runs(shape, generator(seed, label), label, counts):
            count_calls(run, counts)
            yield run


def one_run(shape, seed, label, counts):
    """The figure, the sizes, the run, or the damaged heaps, of one label alone."""
    rng = generator(seed, label)
    if label.startswith("figure:"):
        yield from figure_runs(shape, [label.removeprefix("figure:")], counts)
    elif label.startswith("sizes:"):
        yield from size_runs(shape, [int(label.removeprefix("sizes:"))], counts)
    elif label.startswith(("longer:", "start:")):
        yield from longer_runs(shape, seed, [label], counts)
    elif label.startswith(("pages:", "swept:")):
        yield from swept_runs(shape, seed, [label], counts)
    elif label.startswith("grown:"):
        yield from grown_runs(shape, seed, [label], counts)
    elif label.startswith("back:"):
        yield from back_runs(shape, seed, [label], counts)
    elif label.startswith("run:"):
        yield random_run(rng, shape, label)
    else:
        yield from damaged_runs(shape, rng, label, counts)


def part_of_runs(part, chosen, counts, damaged_counts):
    """The runs of a part: of each kind every one whose turn it is, so that the parts together are the same at any pace."""
    def labels(kind):
        return (f"{kind}:{index}" for index in itertools.count(part, PARTS))

    shape, seed = chosen.shape, chosen.seed
    yield from figure_runs(shape, [*FIGURES[shape]][part::PARTS], counts)
    yield from size_runs(shape, range(shape.classes)[part::PARTS], counts)
    yield from longer_runs(shape, seed, itertools.islice(labels("longer"), PAIRS // PARTS), counts)
    if shape.grows:
        yield from longer_runs(shape, seed, itertools.islice(labels("start"), PAIRS // PARTS), counts)
    yield from swept_runs(shape, seed, [f"pages:{index}" for index in range(len(SWEPT_PAGES[shape]))][part::PARTS], counts)
    yield from swept_runs(shape, seed, itertools.islice(labels("swept"), chosen.number // SWEPT_SHARE // PARTS), counts)
    if shape.grows:
        yield from grown_runs(shape, seed, itertools.islice(labels("grown"), chosen.number // GROWN_SHARE // PARTS), counts)
    yield from back_runs(shape, seed, itertools.islice(labels("back"), chosen.number // BACK_SHARE // PARTS), counts)
    yield from random_runs(shape, seed, labels("run"), chosen.number / PARTS, counts)
    yield from all_damaged_runs(shape, seed, labels("damaged"), chosen.damaged / PARTS, damaged_counts)


def compare_part(program, chosen, part):
    """Compares a part of all runs, or the only one; answers what it met, on damaged heaps too, and its driver."""
    counts, damaged_counts, driver = Tally(), Tally(), Driver(program)
    if chosen.only:
        runs = one_run(chosen.shape, chosen.seed, chosen.only, counts)
    else:
        runs = part_of_runs(part, chosen, counts, damaged_counts)
    for run in runs:
        driver.add(run)
    driver.finish()
    counts["came back"] = driver.back
    return counts, damaged_counts, driver


def compare_side_by_side(program, chosen):
    """The sums of what the parts met, and their drivers."""
    counts, damaged_counts, drivers = Tally(), Tally(), []
    with ProcessPoolExecutor(PARTS) as pool:
        parts = range(1 if chosen.only else PARTS)
        for met, met_damaged, driver in pool.map(compare_part, repeat(program), repeat(chosen), parts):
            counts.update(met)
            damaged_counts.update(met_damaged)
            drivers.append(driver)
    return counts, damaged_counts, drivers


def demand_growth(counts, damaged_counts, number):
    """The same of what there is only where heaps grow."""
    counts.demand({"pairs from the same end": PAIRS, "pairs from the same end: pages are given back": PAIRS,
                   "pairs from the same end: the heap grows": 3 * PAIRS})
    damaged_counts.demand({f"end_at_another_border, {verdict} sound": number // BORDER_SHARE for verdict in ("still", "not")})


def demand_enough(shape, counts, damaged_counts):
    """Fails where some case was met too seldom."""
    counts.demand({case: counts["calls"] // share for case, share in SHARES[shape].items()})
    counts.demand({"pairs": PAIRS, "pairs: pages are given back": PAIRS})
    counts.demand({"came back": counts["back"]} | {case: counts["back"] // share for case, share in BACK_SHARES[shape].items()})
    number = damaged_counts["damaged"]
    damaged_counts.demand({f"{call}: refused with 3": number // share for call, share in REFUSED_SHARES.items()})
    damaged_counts.demand(dict.fromkeys(SIZE_WAYS + BLOCK_WAYS[shape] + WORD_WAYS[shape] + END_WAYS[shape], number // WAY_SHARE))
    damaged_counts.demand({f"{way}, closed": number // CLOSED_WAY_SHARE for way in CLOSED_WAYS[shape]})
    if shape.grows:
        demand_growth(counts, damaged_counts, number)


def stack_used(drivers, calls, limit):
    """The deepest call in words; fails where it is deeper than the limit, or than the header promises."""
    measured, deepest = sum(driver.measured for driver in drivers), max(driver.deepest for driver in drivers)
    limit = limit or drivers[0].promised
    said = f"the deepest of {measured} calls used {deepest} of {limit} bytes of stack"
    if measured * 10 < calls or not 0 < deepest <= limit:
        raise SystemExit(f"compare: {said}")
    return said


def options():
    parser = argparse.ArgumentParser(description="Compares a library's heap calls with the second program.")
    parser.add_argument("--library", nargs="+", required=True, metavar="FILE", help=".a, .o or .c files with the calls")
    parser.add_argument("--shape", choices=SHAPES, default=WIDE.name, help="whose heaps: the console's are wide")
    parser.add_argument("--prefix", help="what the names of the calls begin with, where it is not the header's")
    parser.add_argument("--cflags", default="", metavar="WORDS", help="for the compiler of .c files")
    parser.add_argument("--seed", default="1")
    parser.add_argument("--number", type=int, default=100000, help="calls in random runs")
    parser.add_argument("--damaged", type=int, default=5000, help="damaged heaps")
    parser.add_argument("--stack", type=int, metavar="BYTES", help="what a call may use, where it is not the header's")
    parser.add_argument("--only", metavar="KIND:INDEX", help="one run again, as a failure names it")
    chosen = parser.parse_args()
    chosen.shape = SHAPES[chosen.shape]
    return chosen


def main():
    chosen = options()
    began = time.monotonic()
    try:
        counts, damaged_counts, drivers = compare_side_by_side(build_driver(chosen), chosen)
    except Difference as difference:
        report(difference, chosen.seed)
        return 1
    if not chosen.only:
        demand_enough(chosen.shape, counts, damaged_counts)
    calls = counts["calls"] + damaged_counts["calls"]
    stack = stack_used(drivers, calls, chosen.stack)
    pairs, growing = f"{counts['pairs']} runs on a heap and a longer one", ""
    if chosen.shape.grows:
        pairs += f" and {counts['pairs from the same end']} from the same end"
        growing = f" and {counts['grown']} that grow"
    print(f"compare: {chosen.shape.name}: {counts['figures']} figures, {counts['sizes']} sizes in headers, and from seed {chosen.seed} "
          f"{pairs}, {counts['swept']} heaps that are swept{growing} above all, {counts['came back']} heaps that came back, "
          f"{calls} calls on {counts['heaps']} heaps ({counts['old heaps']} of them old) and {damaged_counts['damaged']} damaged heaps "
          f"({damaged_counts['still sound']} of them still sound) agree, {stack}, {time.monotonic() - began:.0f} s")
    counts.update(damaged_counts)
    print("compare: among them " + ", ".join(
        f"{counts[case]} of '{case}'" for case in (*SHARES[chosen.shape], *BACK_SHARES[chosen.shape])))
    return 0


if __name__ == "__main__":
    sys.exit(main())
