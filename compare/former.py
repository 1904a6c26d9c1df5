#!/usr/bin/env python3
"""A heap of the console from before its upper classes were closed, by the second program, for examples/upgrade.c.

  former.py HEAP    writes it: the night's letters in a page of a class that is closed now, and in another page the list of their addresses
"""

import sys

sys.dont_write_bytecode = True
from report import granted
from second import BEFORE, Heap

LENGTH = 10000
NIGHT = (("0:30", "left"), ("1:15", "right"), ("2:40", "left"), ("4:05", "right"), ("5:20", "left"))


def letter(hour, ear):
    return (f"{hour}, {ear} ear: all eight electrodes are inserted. The round window was opened once, the array went in without resistance, "
            "and impedances are normal. Telemetry is repeated before the ward round.\0").encode()


def of_the_night():
    heap = Heap(bytearray(LENGTH), BEFORE)
    granted(heap.initialise())
    place = granted(heap.allocate(heap.shape.word * len(NIGHT)))
    for text in (letter(*when) for when in NIGHT):
        address = granted(heap.allocate(len(text)))
        heap.data[address:address + len(text)] = text
        heap.shape.words.pack_into(heap.data, place, address)
        place += heap.shape.word
    return heap.data


if __name__ == "__main__":
    with open(sys.argv[1], "wb") as file:
        file.write(of_the_night())
