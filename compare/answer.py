#!/usr/bin/env python3
"""Questions on heaps as the program `ask` reads them, and what it must print, by the second program.

  answer.py --make QUESTIONS ANSWERS    writes an example with every kind of question, granted and refused
"""

import struct
import sys
import zlib

sys.dont_write_bytecode = True
from report import forget, granted, report, told_heap
from second import BEFORE, WIDE, Heap

NUMBER = struct.Struct("<Q")  # in the program's input; the heap's words are the shape's

LOOK_UP, STEP, FIRST_STEP, STATISTICS, TABLE, REPORT, TURN_OVER = range(7)
TURNED = bytes(range(255, -1, -1))  # each byte with all its bits turned over
CUT_SHORT, TOO_LONG, NO_QUESTION = (f"stop: {why}\n" for why in (
    "the input is cut short", "a heap is too long", "there is no such question"))


def look_up_line(heap, address):
    refusal, part = heap.look_up(address)
    return f"{refusal} {len(part)} {zlib.adler32(part)}"


def step_line(heap, position):
    refusal, (what, start, size, *rest), behind = heap.step(position)
    return " ".join(map(str, (refusal, behind, start, size, what, *rest)))


def first_step_line(heap, _):
    return step_line(heap, heap.shape.data_area)


def statistics_line(heap, _):
    refusal, six, _ = heap.statistics()
    return " ".join(map(str, (refusal, *six)))


def table_line(heap, _):
    """As many rows for every shape: those of classes that it has not are zeros."""
    table = heap.statistics()[2]
    rows = table + (WIDE.classes - len(table)) * [[0, 0, 0]]
    return " ".join(["classes"] + [str(n) for row in rows for n in row])


def report_lines(heap, _):
    return "\n".join(report(heap)) + "\n"


def turn_over_line(heap, address):
    _, part = heap.look_up(address)
    part[:] = bytes(part).translate(TURNED)
    return str(len(part))


ANSWERS = {LOOK_UP: look_up_line, STEP: step_line, FIRST_STEP: first_step_line, STATISTICS: statistics_line,
           TABLE: table_line, REPORT: report_lines, TURN_OVER: turn_over_line}


class Asked:
    """A heap, questions on it, and what answers each: a line, or of a report many."""

    def __init__(self, data):
        self.start = bytes(data)
        self.heap = told_heap(data)
        self.questions = []
        self.answers = []

    def ask(self, kind, number=0):
        self.questions.append((kind, number))
        self.answers.append(ANSWERS[kind](self.heap, number) + "\n")

    def given(self):
        """The heap and the questions as the program reads them."""
        questions = b"".join(bytes([kind]) + NUMBER.pack(number) for kind, number in self.questions)
        return b"".join((NUMBER.pack(len(self.start)), self.start, NUMBER.pack(len(self.questions)), questions))


def sample():
    """A heap of the console from before, with every kind of block, and with live and free items of a class that is closed now, and
    with a block for a size of that class, which it then got. It began small and may still grow; the buffer's length is no multiple
    of 8."""
    heap = Heap(bytearray(b"\x11" * 6001), BEFORE)
    heap.initialise(1000)
    addresses = [heap.allocate(size)[1] for size in (300, 500, 280, 200, 199, 198, 197)]
    heap.free(addresses[1])
    heap.free(addresses[4])
    forget(heap, addresses[5])
    heap = Heap(heap.data)
    heap.allocate(200)
    return heap.data


def ask_everything(asked):
    """Each kind of question, where it is granted and where not."""
    state = Heap(bytearray(sample())).state
    free, page = state.free[0], next(iter(state.page_class))
    live = sorted(state.live_addresses())
    asked.ask(STATISTICS)
    asked.ask(TABLE)
    asked.ask(REPORT)
    asked.ask(FIRST_STEP)
    for position in (*state.starts, state.end, state.end + 8, 0, WIDE.index_page, WIDE.data_area + 8, 2**64 - 8):
        asked.ask(STEP, position)
    for kind in (LOOK_UP, TURN_OVER, LOOK_UP):
        for address in (*live, 0, live[0] + 8, free + 8, page + 8, state.lists[24][0] + 8, state.end, state.end + 8, 2**64 - 1):
            asked.ask(kind, address)


def remarks():
    """A remark of 13 bytes with stale ones behind it, on three heaps: as it is, with its size not known, and resized
    in place to 9; each with a look-up, the payload turned over, and a look-up again."""
    heap = Heap(bytearray(b"\x11" * 4432))
    granted(heap.initialise())
    address = granted(heap.allocate(13))
    heap.data[address:address + 16] = b"left temporalxyz"
    older, shorter = Heap(bytearray(heap.data)), Heap(bytearray(heap.data))
    forget(older, address)
    granted(shorter.resize_in_place(address, 9))
    for heap in (heap, older, shorter):
        asked = Asked(heap.data)
        for kind in (LOOK_UP, TURN_OVER, LOOK_UP):
            asked.ask(kind, address)
        yield asked


def grown():
    """A heap that grew twice, and the same bytes with another end: at the border of its two blocks, at which it is a heap with one,
    before the first, inside a block, at the buffer's end, and behind that; each with the same questions."""
    heap = Heap(bytearray(b"\x11" * 1203))
    granted(heap.initialise(WIDE.shortest))
    first, second = granted(heap.allocate(300)), granted(heap.allocate(500))
    for end in (heap.state.end, second - 8, WIDE.data_area, second, 1200, 1208):
        data = bytearray(heap.data)
        WIDE.words.pack_into(data, WIDE.stored_end, end)
        asked = Asked(data)
        for kind in (STATISTICS, REPORT):
            asked.ask(kind)
        for place in (first, second, 1200):
            asked.ask(LOOK_UP, place)
            asked.ask(STEP, place - 8)
        yield asked


def example():
    """The sample, one that is damaged, one that is not opened, two that are too short, the remarks, a heap that grew, and a
    question that there is not."""
    sound = sample()
    damaged, closed = bytearray(sound), bytearray(sound)
    damaged[WIDE.data_area] ^= 8
    closed[0] ^= 1
    shortest = WIDE.shortest
    all_asked = [Asked(data) for data in (sound, damaged[:shortest], closed[:shortest], b"", bytes(shortest - 1))]
    for asked in all_asked:
        ask_everything(asked)
    all_asked += remarks()
    all_asked += grown()
    answers = "".join(answer for asked in all_asked for answer in asked.answers)
    none_such = NUMBER.pack(0) + NUMBER.pack(1) + bytes([TURN_OVER + 1]) + NUMBER.pack(0)
    return b"".join(asked.given() for asked in all_asked) + none_such, answers + NO_QUESTION


def main(words):
    if len(words) != 3 or words[0] != "--make":
        sys.exit(__doc__)
    given, answers = example()
    with open(words[1], "wb") as questions, open(words[2], "w", encoding="ascii") as text:
        questions.write(given)
        text.write(answers)


if __name__ == "__main__":
    main(sys.argv[1:])
