/* What is lent to a call lies between bytes that it may not touch: what of it may be altered, and where two differ. */
#ifndef LENT_H
#define LENT_H

#include "pil.h"

#include <stdio.h>
#include <string.h>

enum { GUARD = 32 }; /* bytes on each side that no call may touch */

/* Nothing is altered but length bytes behind the guard. */
static inline int altered_within(const uint8_t *now, const uint8_t *was, size_t length, size_t room)
{
    size_t end = GUARD + length;

    return memcmp(now, was, GUARD) == 0 && memcmp(now + end, was + end, room - end) == 0;
}

static inline void print_first(const char *what, const uint8_t *a, const uint8_t *b, long room)
{
    for (long i = 0; i < room; i++)
        if (a[i] != b[i]) {
            printf("  first differing byte, %s: %ld, %02x and %02x\n", what, i - GUARD, a[i], b[i]);
            return;
        }
    printf("  no differing byte, %s\n", what);
}

/* What a walk tells of a device: byte and end bit only where one was handed, and then no clear or trigger. */
static inline int can_be_told(const uint8_t *t)
{
    if (t[PIL_TOLD_HANDED])
        return t[PIL_TOLD_HANDED] == 1 && t[PIL_TOLD_END] <= 1 && t[PIL_TOLD_EVENT] == PIL_EVENT_NONE;
    return t[PIL_TOLD_BYTE] == 0 && t[PIL_TOLD_END] == 0 && t[PIL_TOLD_EVENT] <= PIL_EVENT_TRIGGER;
}

#endif
