#!/usr/bin/env python3
"""Writes a long random call list and what it must print, by the second program.

  longlist.py COUNT SEED LIST OUTPUT

The list has records of every kind and draws every refusal that a list can draw: it begins before a heap is opened,
asks for bad lengths, sizes and addresses, fills the heap until there is no room, and resizes and frees at random.
"""

import random
import struct
import sys

sys.dont_write_bytecode = True
from second import Heap, call_list, call_list_initialise


def initialise(length):
    return bytes([0]) + struct.pack("<I", length)


def allocate(size):
    return bytes([1]) + struct.pack("<I", size)


def resize(address, size):
    return bytes([2]) + struct.pack("<II", address, size)


def free(address):
    return bytes([3]) + struct.pack("<I", address)


STATISTICS = bytes([4])


def size_of_record(choose):
    """Mostly sizes of items, often around a limit, now and then too large for any heap or no size at all."""
    kind = choose.random()
    if kind < 0.5:
        return choose.randint(1, 300)
    if kind < 0.6:
        return choose.choice([1, 8, 9, 120, 121, 127, 128, 129, 136, 137, 144, 152, 255, 256, 257, 264, 272, 273])
    if kind < 0.97:
        return choose.randint(129, 6000)
    return choose.choice([0, 65536, 1048576, 1048577, 4294967295])


def address_of_record(choose, live):
    """Mostly a live record's, else one that none has."""
    if live and choose.random() < 0.95:
        return choose.choice(live)
    return choose.choice([0, 8, 48, 312, 320, 65535, 65536, 4294967295, choose.randint(0, 70000)])


def random_list(count, seed):
    choose = random.Random(seed)
    heap = Heap(bytearray(65536))
    records = [STATISTICS, allocate(16), free(320), resize(320, 0), initialise(343), initialise(65537), initialise(65536), initialise(65536)]
    heap, _ = call_list_initialise(heap, 65536)
    live = []
    filling = True
    while len(records) < count:
        kind = choose.random()
        if choose.random() < 0.002:
            filling = not filling
        if kind < 0.02:
            records.append(STATISTICS)
        elif kind < (0.6 if filling else 0.3):
            size = size_of_record(choose)
            records.append(allocate(size))
            refusal, address = heap.allocate(size)
            if refusal == 0:
                live.append(address)
        elif kind < 0.75:
            address, size = address_of_record(choose, live), size_of_record(choose)
            records.append(resize(address, size))
            refusal, new = heap.resize(address, size)
            if refusal == 0:
                live[live.index(address)] = new
        else:
            address = address_of_record(choose, live)
            records.append(free(address))
            if heap.free(address)[0] == 0:
                live.remove(address)
    return b"".join(records) + b"\x02\x00\x00"  # the last body is cut short


def main():
    count, seed, list_file, output_file = int(sys.argv[1]), int(sys.argv[2]), sys.argv[3], sys.argv[4]
    records = random_list(count, seed)
    with open(list_file, "wb") as out:
        out.write(records)
    with open(output_file, "w", encoding="ascii") as out:
        out.write("".join(line + "\n" for line in call_list(records)))


if __name__ == "__main__":
    main()
