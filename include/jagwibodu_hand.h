/* Jagwibodu for the hand unit: the same proved heap with words of 4 bytes, in a shorter buffer. Link with
   libjagwibodu_hand.a (make lib). The toolchain compiles for x86-64 alone, so the archive is 64-bit code: for the
   simulator, and for whoever reads a hand unit's heap on another machine.

   All is as jagwibodu.h says of the console's heap, but for these: a buffer has JAGWIBODU_HAND_SHORTEST to
   JAGWIBODU_HAND_LONGEST bytes; a page holds two records, and those of more than 128 bytes never stood in pages;
   addresses are multiples of 4 from the buffer's start; and the heap does not grow: it takes the whole buffer from the
   beginning, so initialise is given no end and never answers 8, and a heap that comes back between two lists has the
   end that it was opened with. A heap of the one kind is refused by the calls of the other with JAGWIBODU_NOT_OPENED,
   since its first 8 bytes differ. The archives for both may be linked into one program. */
#ifndef JAGWIBODU_HAND_H
#define JAGWIBODU_HAND_H

#include "jagwibodu_answer.h"

#ifdef __cplusplus
extern "C" {
#endif

/* The lengths that a buffer may have; the largest size that can be asked for is the latter too. */
#define JAGWIBODU_HAND_SHORTEST 112
#define JAGWIBODU_HAND_LONGEST 65536

/* No call uses more bytes of stack; the tests measure it. */
#define JAGWIBODU_HAND_STACK 20480

/* Opens a heap in a buffer that holds none, in all of it: 0, or refused with 1 or 7. */
uint64_t jagwibodu_hand_initialise(uint8_t *buffer, size_t length);

/* Says whether the buffer holds a sound heap: 0, or 1, 2, 3. Changes nothing. */
uint64_t jagwibodu_hand_check(const uint8_t *buffer, size_t length);

/* Gives a record of `size` bytes. Refused with 1 to 4, or 6. */
uint64_t jagwibodu_hand_allocate(uint8_t *buffer, size_t length, uint64_t size);

/* Gives the record at `address` a new size where it stands. Refused with 1 to 6; 6: it cannot stay. */
uint64_t jagwibodu_hand_resize_in_place(uint8_t *buffer, size_t length, uint64_t address, uint64_t size);

/* Gives the record at `address` a new size elsewhere, always. Refused with 1 to 6; 6: an allocation finds no room. */
uint64_t jagwibodu_hand_move(uint8_t *buffer, size_t length, uint64_t address, uint64_t size);

/* The one, or else the other; and where both answer 6, a record that holds the new size stays as it is. Refused with 1
   to 6. */
uint64_t jagwibodu_hand_resize(uint8_t *buffer, size_t length, uint64_t address, uint64_t size);

/* Gives the record at `address` back. Refused with 1, 2, 3 or 5. */
uint64_t jagwibodu_hand_free(uint8_t *buffer, size_t length, uint64_t address);

/* Makes free room again of every page that holds no record, and answers how many these were. Refused with 1, 2 or 3. */
uint64_t jagwibodu_hand_sweep(uint8_t *buffer, size_t length);

#ifdef __cplusplus
}
#endif

#endif
