/* The heap in plain C, as a yardstick for speed: document 01's, or compiled with -DTWIN_WORD=4 the hand unit's.
   Each call answers refusal * 2^32 + address; a sweep, refusal * 2^32 + pages given back. */
#ifndef TWIN_H
#define TWIN_H

#include <stddef.h>
#include <stdint.h>

#ifndef TWIN_WORD
#define TWIN_WORD 8
#endif

#if TWIN_WORD == 8
uint64_t twin_initialise(uint8_t *h, size_t n, uint64_t end);
#else
uint64_t twin_initialise(uint8_t *h, size_t n); /* this one does not grow: it ends where its buffer does */
#endif
uint64_t twin_check(const uint8_t *h, size_t n);
uint64_t twin_allocate(uint8_t *h, size_t n, uint64_t size);
uint64_t twin_resize(uint8_t *h, size_t n, uint64_t address, uint64_t size);
uint64_t twin_resize_in_place(uint8_t *h, size_t n, uint64_t address, uint64_t size);
uint64_t twin_move(uint8_t *h, size_t n, uint64_t address, uint64_t size);
uint64_t twin_free(uint8_t *h, size_t n, uint64_t address);
uint64_t twin_sweep(uint8_t *h, size_t n);

#endif
