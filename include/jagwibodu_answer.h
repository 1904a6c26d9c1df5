/* What a call's answer means, of the console's heap (jagwibodu.h) and of the hand unit's (jagwibodu_hand.h). */
#ifndef JAGWIBODU_ANSWER_H
#define JAGWIBODU_ANSWER_H

#include <stddef.h>
#include <stdint.h>

#ifdef __cplusplus
extern "C" {
#endif

#define JAGWIBODU_VERSION "1.7"

enum jagwibodu_refusal {
    JAGWIBODU_GRANTED = 0,
    JAGWIBODU_BAD_LENGTH = 1,     /* the buffer is shorter or longer than a heap may be */
    JAGWIBODU_NOT_OPENED = 2,     /* its first 8 bytes are not a heap's */
    JAGWIBODU_NOT_SOUND = 3,      /* the heap is damaged */
    JAGWIBODU_BAD_SIZE = 4,       /* the size is 0 or above the longest heap */
    JAGWIBODU_NOT_LIVE = 5,       /* no record is live at the address */
    JAGWIBODU_NO_ROOM = 6,        /* nothing is free for it and the heap cannot grow; in place: it cannot stay */
    JAGWIBODU_ALREADY_OPENED = 7, /* initialise, and the buffer holds a heap */
    JAGWIBODU_BAD_END = 8         /* initialise, and a heap may not end there */
};

/* The two parts of an answer; of a sweep's the second is JAGWIBODU_PAGES. */
#define JAGWIBODU_REFUSAL(answer) ((enum jagwibodu_refusal)((answer) >> 32))
#define JAGWIBODU_ADDRESS(answer) ((size_t)((answer) & 0xffffffffu))
#define JAGWIBODU_PAGES(answer) ((size_t)((answer) & 0xffffffffu))

/* A refusal in words. */
static inline const char *jagwibodu_refusal_name(enum jagwibodu_refusal refusal)
{
    switch (refusal) {
    case JAGWIBODU_GRANTED:
        return "granted";
    case JAGWIBODU_BAD_LENGTH:
        return "bad length";
    case JAGWIBODU_NOT_OPENED:
        return "not opened";
    case JAGWIBODU_NOT_SOUND:
        return "not sound";
    case JAGWIBODU_BAD_SIZE:
        return "bad size";
    case JAGWIBODU_NOT_LIVE:
        return "not live";
    case JAGWIBODU_NO_ROOM:
        return "no room";
    case JAGWIBODU_ALREADY_OPENED:
        return "already opened";
    case JAGWIBODU_BAD_END:
        return "bad end";
    }
    return "unknown refusal";
}

#ifdef __cplusplus
}
#endif

#endif
