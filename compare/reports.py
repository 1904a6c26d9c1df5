#!/usr/bin/env python3
"""Runs the program `show` on many heaps, sound and damaged, on full ones, and on bytes that are none, and compares with report.py.

  reports.py COUNT SEED COMMAND..    COMMAND.. runs the program, with the heap on standard input
"""

import os
import random
import subprocess
import sys
import time
from concurrent.futures import ThreadPoolExecutor

sys.dont_write_bytecode = True
from heaps import Tally, enough_heaps, note, some_heaps
from report import LONGEST_INPUT, report, told_heap
from second import BEFORE, HAND, SHAPES, Heap


def filled(shape, size, keep):
    """The longest heap, full of records of one size, of which every second one may be freed again."""
    heap, live = Heap(bytearray(shape.longest), shape), []
    heap.initialise()
    while True:
        refusal, address = heap.allocate(size)
        if refusal:
            break
        live.append(address)
    for address in [] if keep else live[::2]:
        heap.free(address)
    return bytes(heap.data)


def cases(rng, count):
    """What each case is, and its bytes."""
    for first in (b"", HAND.magic):
        yield "longer than the program reads", first + bytes(2 * LONGEST_INPUT)
    for shape in SHAPES.values():
        yield "full of the smallest items", filled(shape, 1, True)
        yield "full of blocks, every second one free", filled(shape, shape.largest_item + 1, False)
    yield "full of items of a closed class, every second one free", filled(BEFORE, BEFORE.largest_item, False)
    for what, data, _ in some_heaps(rng, count):
        yield what, data


def compare(command, case):
    """Runs the program on a case: what the case is, the second program's heap, and the bytes where the two reports differ."""
    what, data = case
    told = subprocess.run(command, input=data, stdout=subprocess.PIPE, check=True).stdout.decode()
    heap = told_heap(data)
    return what, heap, None if told == "\n".join(report(heap)) + "\n" else data


def main(count, seed, command):
    began = time.monotonic()
    tally = Tally()
    # Most of the time goes into starts of the program, so as many run at a time as there are processors.
    with ThreadPoolExecutor(os.cpu_count()) as pool:
        for what, heap, differing in pool.map(lambda case: compare(command, case), cases(random.Random(f"{seed} reports"), count)):
            if differing is not None:
                with open("out/differs.heap", "wb") as file:
                    file.write(differing)
                sys.exit("show: the report on out/differs.heap differs")
            note(tally, what, heap)
    tally.demand(enough_heaps(count))
    print(f"show: the reports on {tally['heaps']} heaps, {tally['hand: heaps']} of them the hand unit's and {tally['refused']} of "
          f"them refused, are the second program's, "
          f"{time.monotonic() - began:.0f} s")


if __name__ == "__main__":
    main(int(sys.argv[1]), int(sys.argv[2]), sys.argv[3:])
