#!/usr/bin/env python3
"""Asks the program `ask` every kind of question on many heaps, sound and damaged, and compares with answer.py.

  answers.py COUNT SEED COMMAND..    COMMAND.. runs the program, with heaps and questions on standard input
"""

import random
import subprocess
import sys
import tempfile
import time

sys.dont_write_bytecode = True
from answer import (CUT_SHORT, FIRST_STEP, LOOK_UP, NO_QUESTION, NUMBER, REPORT, STATISTICS, STEP, TABLE, TOO_LONG, TURN_OVER,
                    Asked, sample)
from heaps import Tally, enough_heaps, is_long, note, some_heaps
from report import LONGEST_INPUT
from second import SHAPES, VARIABLE, WIDE, end_of

LIVE = ("live block", "live item", "older item")  # an older item is one whose size is not known
HUGE = (2**32, 2**63, 2**64 - 8, 2**64 - 1)
STEPS_OF_A_LONG_HEAP = 20


def some(rng, places, most):
    """A few of these places, or none where there are none."""
    places = list(places)
    return rng.sample(places, min(most, len(places)))


def room_behind(rng, state, base, length):
    """Addresses behind the end of a heap that may grow, by their kind: of what was a record before the end was moved, and any."""
    room = range(state.end, end_of(length), 8) if state.shape.grows else ()
    return {"given up": some(rng, (a for a in base.live_addresses() if a in room), 2), "in the room to grow": some(rng, room, 1)}


def addresses(rng, state, length):
    """Addresses of each kind, by its name. Only those of the kinds in LIVE are live."""
    word = state.shape.word
    blocks = [p + word for p in state.starts if state.blocks[p][0] == VARIABLE]
    items, older = [p + word for p in state.asked], [p + word for p in state.item_class if p not in state.asked]
    free_items = [p + word for items_of_class in state.lists for p in items_of_class]
    live = some(rng, blocks + items + older, 3)
    inside = [a + rng.randrange(1, state.capacity(a)) for a in live]
    return {"live block": some(rng, blocks, 4), "live item": some(rng, items, 4),
            "older item": some(rng, older, 4),
            "free block": [p + word for p in some(rng, state.free, 2)], "free item": some(rng, free_items, 2),
            "page": [p + word for p in some(rng, state.page_class, 2)],
            "inside": inside, "near": [a + word for a in live] + [a - word for a in live],
            "past the end": [state.end, state.end + word, length + rng.randrange(1, 2**20)],
            "zero": [0], "huge": [rng.choice(HUGE), rng.choice(live or [state.shape.data_area + word]) + 2**32]}


def positions(rng, state, length):
    """Positions at which no block begins, by their kind."""
    starts, shape = some(rng, state.starts, 2), state.shape
    inside = [p + shape.word * rng.randrange(1, state.blocks[p][1] // shape.word) for p in starts]
    other_areas = [other.data_area for other in SHAPES.values() if other != shape and other.data_area not in state.blocks]
    return {"no block's": [0, shape.index_block, shape.index_page, shape.data_area - shape.word, *other_areas, *inside,
                           *(p + 1 for p in starts)],
            "beyond the end": [state.end, state.end + 8, length + rng.randrange(2**20), rng.choice(HUGE)]}


def of_closed_classes(state):
    """The addresses of all items of closed classes, in use and free."""
    return {item + state.shape.word for page, c in state.page_class.items() if c in state.shape.closed
            for item in state.items_of_page(page)}


def ask_places(rng, asked, state, base, tally):
    """Look-ups and single steps, at places of every kind."""
    unit, refused = asked.heap.shape.name, " in a refused heap" * (asked.heap.verdict != 0)
    closed, length = of_closed_classes(state), len(asked.start)
    behind = room_behind(rng, state, base, length)
    for what, found in (addresses(rng, state, length) | behind).items():
        for address in found:
            asked.ask(LOOK_UP, address)
            tally[f"{unit}: look-up, {what}{refused}"] += 1
            tally[f"{unit}: look-up, {what} of a closed class{refused}"] += address in closed
            tally[f"{unit}: look-up of less than it holds"] += not refused and state.shown(address) != state.capacity(address)
    behind = {what: [address - state.shape.word for address in found] for what, found in behind.items()}
    for what, found in (positions(rng, state, length) | behind).items():
        for position in found:
            asked.ask(STEP, position)
            tally[f"{unit}: step, {what}{refused}"] += 1


def ask_walk(asked, state, tally):
    """Every block from the start on, and the end twice; of a long heap some blocks alone."""
    unit = asked.heap.shape.name
    if asked.heap.verdict:
        blocks = state.starts[:3]
    elif is_long(asked.heap.shape, asked.start):
        blocks = state.starts[:STEPS_OF_A_LONG_HEAP] + state.starts[-STEPS_OF_A_LONG_HEAP:]
    else:
        blocks = list(asked.heap.state.starts)
        tally["walk to the end"] += 1
        tally[f"{unit}: walk to the end"] += 1
    tally[f"{unit}: step, a block's"] += 0 if asked.heap.verdict else len(blocks)
    tally[f"{unit}: step, a page of a closed class"] += (
        0 if asked.heap.verdict else sum(asked.heap.state.page_class.get(p) in state.shape.closed for p in blocks))
    asked.ask(FIRST_STEP)
    for position in blocks + 2 * [state.end]:
        asked.ask(STEP, position)


def ask_writing(rng, asked, state, tally):
    """Payloads lent for writing, and places where nothing is; then what all of them and some others hold."""
    chosen = addresses(rng, state, len(asked.start))
    live = [address for what in LIVE for address in chosen[what]]
    written = some(rng, live, 3)
    for address in written + [0, rng.choice(chosen["past the end"] + chosen["inside"])]:
        asked.ask(TURN_OVER, address)
    if not asked.heap.verdict:
        tally[f"{asked.heap.shape.name}: written"] += len(written)
        tally[f"{asked.heap.shape.name}: written, of a closed class"] += len(of_closed_classes(state).intersection(written))
    for address in written + some(rng, live, 3):
        asked.ask(LOOK_UP, address)


def ask_all(rng, what, data, state, tally):
    asked, base = Asked(data), state
    note(tally, what, asked.heap)
    if asked.heap.state:
        state = asked.heap.state  # a change that leaves a heap sound may still change what is live
    asked.ask(STATISTICS)
    asked.ask(TABLE)
    asked.ask(REPORT)
    ask_places(rng, asked, state, base, tally)
    ask_walk(asked, state, tally)
    ask_writing(rng, asked, state, tally)
    asked.ask(STATISTICS)
    for kind, _ in asked.questions:
        tally[kind] += 1
    return asked


def answers_of(command, given):
    """What the program prints."""
    with tempfile.TemporaryFile() as questions:
        questions.write(given)
        questions.seek(0)
        return subprocess.run(command, stdin=questions, stdout=subprocess.PIPE, check=True).stdout.decode("ascii")


def compare(command, all_asked):
    got = answers_of(command, b"".join(asked.given() for asked in all_asked))
    at = 0
    for asked in all_asked:
        for question, answer in zip(asked.questions, asked.answers):
            if not got.startswith(answer, at):
                with open("out/differs.heap", "wb") as file:
                    file.write(asked.start)
                sys.exit(f"ask: of the heap out/differs.heap, question {question}: expected\n{answer}got\n{got[at:at + len(answer)]}")
            at += len(answer)
    if at != len(got):
        sys.exit(f"ask: more than was asked for: {got[at:at + 80]}")


def bad_inputs():
    """Input that is not as it should be, and what it gets; and, last, input that is."""
    asked = Asked(sample()[:WIDE.shortest])
    for position in (WIDE.data_area, WIDE.index_page):
        asked.ask(STEP, position)
    given, size = asked.given(), 9  # of a question
    behind_heap = 8 + len(asked.start)
    first, both = asked.answers[0], "".join(asked.answers)
    for cut in (1, 7, 8, 9, behind_heap - 1, behind_heap, behind_heap + 7):
        yield given[:cut], CUT_SHORT
    for more in (0, 1, size - 1):
        yield given[:behind_heap + 8 + more], CUT_SHORT
        yield given[:behind_heap + 8 + size + more], first + CUT_SHORT
    for length in (LONGEST_INPUT + 2, 2**32, 2**64 - 1):
        yield given + NUMBER.pack(length) + given, both + TOO_LONG
    for kind in (TURN_OVER + 1, 255):
        yield given[:-size] + bytes([kind]) + given[1 - size:], first + NO_QUESTION
    yield given, both
    yield b"", ""


def compare_bad_inputs(command):
    count = 0
    for given, answer in bad_inputs():
        got = answers_of(command, given)
        if got != answer:
            sys.exit(f"ask: on the input {given.hex()}: expected\n{answer}got\n{got}")
        count += 1
    return count


def enough(count):
    """How often each case must be met, of so many heaps, half of them of either shape."""
    half = count // 2
    least = {f"look-up, {what}": half // 5 for what in (
        *LIVE, "free block", "free item", "page", "inside", "near", "past the end", "zero", "huge")}
    least |= {f"look-up, {what} in a refused heap": half // 10 for what in (*LIVE, "inside", "zero")}
    least |= {"step, a block's": 2 * half, "step, no block's": half, "step, beyond the end": half,
              "step, no block's in a refused heap": half, "walk to the end": half // 4, "written": half // 2,
              "look-up of less than it holds": half // 5}
    old = {f"look-up, {what} of a closed class": half // 20 for what in ("live item", "older item", "free item")}
    old |= {"step, a page of a closed class": half // 5, "written, of a closed class": half // 20}
    ends = {f"{call}, in the room to grow": half // 5 for call in ("look-up", "step")}
    ends |= {f"{call}, given up": half // 20 for call in ("look-up", "step")}
    ends |= {f"{call}, in the room to grow in a refused heap": half // 20 for call in ("look-up", "step")}
    return ({kind: count for kind in (LOOK_UP, STEP, FIRST_STEP, STATISTICS, TABLE, REPORT, TURN_OVER)}
            | {f"{shape}: {case}": number for shape in SHAPES for case, number in least.items()}
            | {f"wide: {case}": number for case, number in (old | ends).items()} | enough_heaps(count))


def main(count, seed, command):
    began = time.monotonic()
    rng, tally = random.Random(f"{seed} answers"), Tally()
    compare(command, [ask_all(rng, what, data, state, tally) for what, data, state in some_heaps(rng, count)])
    bad = compare_bad_inputs(command)
    tally.demand(enough(count))
    print(f"ask: on {tally['heaps']} heaps, {tally['hand: heaps']} of them the hand unit's and {tally['refused']} of them refused, the "
          f"answers to {tally[LOOK_UP]} look-ups, {tally[STEP] + tally[FIRST_STEP]} steps ({tally['walk to the end']} walks to the "
          f"end), {tally[STATISTICS]} statistics, {tally[TABLE]} tables, {tally[TURN_OVER]} look-ups for writing and {tally[REPORT]} "
          f"reports are the second program's, and so is what {bad} bad or short inputs get, {time.monotonic() - began:.0f} s")


if __name__ == "__main__":
    main(int(sys.argv[1]), int(sys.argv[2]), sys.argv[3:])
