"""Heaps to be read by the programs `show` and `ask`: sound, damaged, and bytes that are no heap's; and how many there were."""

import itertools
import sys
from collections import Counter

from damage import Patient, blocks_given_up, bytes_that_may_be_anything, damaged
from runs import HABITS, heap_with_old_pages, other_magic, sound_heap, what_is_old
from second import HAND, NOT_SOUND, SHAPES, WIDE, Heap, end_of

# Damaged heaps made from the same sound one: by a way that leaves it sound, by one that does not, and by any; of a long one only
# one of them.
VERDICTS = (True, False, None)
OLD_HEAPS = 8  # with pages of closed classes, beside those that come by chance


class Tally(Counter):
    """How often each case was met."""

    def demand(self, least):
        """Fails where a case was met less often than it must be: a comparison shall not become empty unseen."""
        for case, count in least.items():
            if self[case] < count:
                sys.exit(f"compare: met only {self[case]} of '{case}', and at least {count} are wanted")


def is_long(shape, data):
    """Such heaps are few: each of them costs as much as many short ones."""
    return len(data) > HABITS[shape].usual[1]


def any_length(rng, shape):
    habits = HABITS[shape]
    return rng.randint(*rng.choices((habits.short, habits.usual, habits.long), (20, 78, 2))[0])


def changed(rng, shape, data):
    """Other bytes wherever a sound heap may have any: payloads, free stretches, spare bytes."""
    patient = Patient(rng, shape, data)
    bytes_that_may_be_anything(patient)
    return bytes(patient.data)


def with_fewer_blocks(rng, shape, data):
    """The same with its end where a block began, or as it is where that cannot be; what is behind still looks like blocks."""
    patient = Patient(rng, shape, data)
    blocks_given_up(patient)
    return bytes(patient.data)


def some_from(rng, shape, base):
    """A sound heap, the same with other payloads, as one of the other shape, with an end further down, and damaged ones, each
    with a word for what it is."""
    yield "sound", base
    yield "payloads changed", changed(rng, shape, base)
    yield "of the other shape", other_magic(shape) + base[8:]
    if shape.grows:
        yield "with fewer blocks", with_fewer_blocks(rng, shape, base)
    for verdict in rng.sample(VERDICTS, 1 if is_long(shape, base) else len(VERDICTS)):
        yield "damaged", damaged(rng, shape, base, verdict).data


def no_heaps(rng, shape):
    """Zeros and garbage; behind the first bytes where these tell that it is the hand unit's."""
    first = HAND.magic if shape == HAND else b""
    lengths = sorted({0, 1, 8, shape.shortest - 1, shape.shortest, 4096, shape.longest, shape.longest + 1, WIDE.longest + 1})
    return [("no heap", (first + fill(length))[:length]) for length in lengths for fill in (bytes, rng.randbytes)]


def some_heaps(rng, count):
    """At least so many heaps: what each is, its bytes, and the second program's state of the sound heap that it is made from."""
    made = 0
    for shape in SHAPES.values():
        state = Heap(bytearray(sound_heap(rng, shape, HABITS[shape].usual[1])), shape).state
        for what, data in no_heaps(rng, shape):
            made += 1
            yield what, data, state
        for _ in range(OLD_HEAPS if shape.closed else 0):
            data = heap_with_old_pages(rng, shape, HABITS[shape].usual[1])
            yield "old", data, Heap(bytearray(data), shape).state
    for shape in itertools.cycle(SHAPES.values()):
        if made >= count:
            return
        base = sound_heap(rng, shape, any_length(rng, shape))
        state = Heap(bytearray(base), shape).state
        for what, data in some_from(rng, shape, base):
            made += 1
            yield what, data, state


def what_of_the_end(heap):
    """How the end stands of a heap that may grow: of a sound one, and of one that is refused."""
    if not heap.shape.grows or heap.verdict not in (0, NOT_SOUND):
        return
    end, buffer_end = heap.word_at(heap.shape.stored_end), end_of(len(heap.data))
    if heap.verdict == NOT_SOUND:
        if not heap.shape.may_end(len(heap.data), end):
            yield "refused, and no heap may end there"
        elif end < buffer_end:
            yield "refused, and there would be room to grow"
    elif end < buffer_end:
        yield "room to grow"
        yield f"room to grow behind a {'free' if heap.state.is_free(heap.state.starts[-1]) else 'used'} block"
        if end == heap.shape.shortest:
            yield "the least end"
    else:
        yield "no room to grow"


def note(tally, what, heap):
    """Counts a heap by what it is and by what the check says of it, and each with its shape."""
    granted = heap.verdict == 0
    cases = {"heaps": True, what: True, "granted": granted, "refused": not granted, f"refused with {heap.verdict}": not granted,
             "damaged and still sound": granted and what == "damaged",
             "items with and without a size": granted and 0 < len(heap.state.asked) < len(heap.state.item_class)}
    cases |= dict.fromkeys(what_is_old(heap.state) if granted else (), True)
    cases |= dict.fromkeys(what_of_the_end(heap), True)
    for case, met in cases.items():
        tally[case] += met
        tally[f"{heap.shape.name}: {case}"] += met


def enough_heaps(count):
    """What `demand` asks of so many heaps, half of them of either shape; of these some of the console's have old pages, and some
    have room to grow."""
    half = count // 2
    least = {"sound": half // 10, "payloads changed": half // 10, "of the other shape": half // 10, "granted": half // 3,
             "refused": half // 3, "refused with 1": 8, "refused with 3": half // 4, "damaged and still sound": half // 20,
             "items with and without a size": half // 200}
    old = dict.fromkeys(("a full page of a closed class", "a half-full page of a closed class", "an empty page of a closed class",
                         "pages of several closed classes", "pages of closed and of offered classes",
                         "pages of closed classes, blocks and free blocks", "an older item of a closed class"), half // 100)
    ends = {"with fewer blocks": half // 10, "room to grow": half // 8, "room to grow behind a free block": half // 20,
            "room to grow behind a used block": half // 20, "the least end": half // 200, "no room to grow": half // 12,
            "refused, and no heap may end there": half // 50, "refused, and there would be room to grow": half // 25}
    return ({"heaps": count, "wide: refused with 2": 6}  # none of the hand unit's: its first bytes tell that it is one
            | {f"wide: {case}": number for case, number in (old | ends).items()}
            | {f"{shape}: {case}": number for shape in SHAPES for case, number in least.items()})
