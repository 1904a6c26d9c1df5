/* Jagwibodu: a proved heap inside one lent buffer of bytes. Link with libjagwibodu.a (make lib), for x86-64.

   Each call takes the buffer and its length in bytes, JAGWIBODU_SHORTEST to JAGWIBODU_LONGEST, the same length every
   time. It answers one number, refusal * 2^32 + address: refusal 0 means granted, and the address is a position in the
   buffer, 0 where the call gives none; a sweep answers a number of pages in its stead. Every call checks the whole heap
   first. A refused call leaves every byte as it was. Calls are safe for all bytes, addresses and sizes.

   A record is as long as was asked for. Of one of up to 128 bytes the heap keeps that length: it is what a look-up
   shows, and a move carries no more bytes along, so what is written behind it may be lost. Heaps of versions before 1.3
   stay sound; they keep no lengths, and there a record counts with all that it holds until it is given a size anew.

   Records of up to 128 bytes stand in pages of one size class each, longer ones in blocks of their own. Up to version
   1.5 those of 129 to 256 bytes stood in pages too. Such heaps stay sound: these records stay in their pages, with the
   lengths that are kept of them, until they are freed or moved; within its class (the 8 sizes that round up to the same
   multiple of 8) one can be resized where it stands. No record joins them, and a sweep gives their empty pages back.

   A heap may begin small. It takes the buffer's bytes from 0 up to its end, which initialise is given and the heap
   keeps as a word at JAGWIBODU_END_AT. Where jagwibodu_allocate, jagwibodu_move or jagwibodu_resize finds no room in
   it, the heap grows: its end moves up, by no more than the record's block or page needs and at most to
   JAGWIBODU_END(length). No other call moves the end, jagwibodu_resize_in_place does not either, and it never falls.
   The bytes behind the end are the caller's: no call reads or writes one before the heap has grown over it. The heap
   does not keep the buffer's length, so lend the same every time: with a greater one the heap could grow on, with one
   below its end it is refused with 3. A heap of a version before 1.7 ends at JAGWIBODU_END(length), and those versions
   refuse one that does not with 3.

   Between two lists: when all records have been freed, in any order, one jagwibodu_sweep brings the heap back to what
   jagwibodu_initialise leaves, so it need not be opened again. A heap that grew stays grown: it is as if it had been
   opened with the end that it has by then. What the records held is not cleared: where nobody may read it any more,
   clear the whole buffer, and then initialise. All this is of a heap that jagwibodu_initialise opened and that was used
   by these calls alone, refused ones too, while the caller wrote inside live records and behind the end only.

   Opening a buffer: call jagwibodu_check. 0: it holds a sound heap, go on. 2: it holds none, call jagwibodu_initialise.
   3: it holds a damaged one; to start anew clear its first 8 bytes, and then initialise (which else answers 7).

   A heap holds positions only, so it may be copied, saved and read back at another place. Addresses are multiples of 8
   from the buffer's start: align the buffer to 8 where records are to be cast to structs. Calls on one buffer need
   their caller's lock; calls on different buffers need none. A null buffer must have the length 0, and gets
   JAGWIBODU_BAD_LENGTH. A call uses the registers that C's calling convention gives it, no more than JAGWIBODU_STACK
   bytes of stack, and nothing but the buffer and the C library's memset and memcpy. */
#ifndef JAGWIBODU_H
#define JAGWIBODU_H

#include "jagwibodu_answer.h"

#ifdef __cplusplus
extern "C" {
#endif

/* The lengths that a buffer may have; the largest size that can be asked for is the latter too. */
#define JAGWIBODU_SHORTEST 344
#define JAGWIBODU_LONGEST 1048576

/* A heap's end is a multiple of 8, from JAGWIBODU_SHORTEST to this, with which it takes the whole buffer. */
#define JAGWIBODU_END(length) ((uint64_t)(length) / 8 * 8)

/* Where a heap keeps its end: 8 bytes, the lowest first. */
#define JAGWIBODU_END_AT 32

/* No call uses more bytes of stack; the tests measure it. */
#define JAGWIBODU_STACK 22528

/* Opens a heap in a buffer that holds none, to begin with up to `end`: JAGWIBODU_SHORTEST for the smallest,
   JAGWIBODU_END(length) for one that takes all. 0, or refused with 1, 7, or 8 where a heap may not end there. */
uint64_t jagwibodu_initialise(uint8_t *buffer, size_t length, uint64_t end);

/* Says whether the buffer holds a sound heap: 0, or 1, 2, 3. Changes nothing. */
uint64_t jagwibodu_check(const uint8_t *buffer, size_t length);

/* Gives a record of `size` bytes, that overlaps no other; its bytes are whatever was there. The heap may grow for it.
   Refused with 1 to 4, or 6. */
uint64_t jagwibodu_allocate(uint8_t *buffer, size_t length, uint64_t size);

/* Gives the record at `address` a new size where it stands, and answers `address` again. It never moves a record: who
   holds a pointer to one asks this first. Refused with 1 to 6; then the record stays as it was. 6 means exactly that
   the record cannot have this size and stay, which may be so for a smaller size too. */
uint64_t jagwibodu_resize_in_place(uint8_t *buffer, size_t length, uint64_t address, uint64_t size);

/* Gives the record at `address` a new size elsewhere, with the bytes that both lengths share, and gives its old place
   back. It always moves, to the same size too, and never answers `address`. Refused with 1 to 6; then the record stays
   as it was. The heap may grow for the new place. 6 means exactly that an allocation of `size` finds no room while the
   record is still there. */
uint64_t jagwibodu_move(uint8_t *buffer, size_t length, uint64_t address, uint64_t size);

/* Gives the record at `address` a new size, where it stands or elsewhere: what jagwibodu_resize_in_place gives; where
   that answers 6, what jagwibodu_move gives; and where that answers 6 too, a record that has room for the new size
   stays as it is, its kept length too, and the call is granted. So 6 is only for a size that the record cannot hold.
   Refused with 1 to 6; then the record stays as it was. */
uint64_t jagwibodu_resize(uint8_t *buffer, size_t length, uint64_t address, uint64_t size);

/* Gives the record at `address` back. Refused with 1, 2, 3 or 5. A page stays one for its class, even when its last
   record is gone, until the next sweep. */
uint64_t jagwibodu_free(uint8_t *buffer, size_t length, uint64_t address);

/* Makes free room again of every page that holds no record, and answers how many these were. The records that are made
   next then go where most others are, so that the emptier pages may run empty. No record moves and none changes; a
   second sweep straight after answers 0 and changes no byte. Where no record is live, the heap is then as freshly
   opened with the end that it has (see "Between two lists"). To be called there, and now and then, when many small
   records have gone. Refused with 1, 2 or 3. */
uint64_t jagwibodu_sweep(uint8_t *buffer, size_t length);

#ifdef __cplusplus
}
#endif

#endif
