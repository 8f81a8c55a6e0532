/* Walks (02, l) for the comparison: what is lent to them on both sides, other lengths, and what they met. */
#ifndef WALKS_H
#define WALKS_H

#include "pil.h"

/* The lengths that a walk is told: of header and records, and of what it tells. */
struct lent {
    size_t records_len, told_len;
};

/* How a walk ends: accepted; with 1 for the records' length (of no loop, not byte 0's, of one device too many) or what
   is told (records sound or not); with 2 for header, records or the last one alone, or a frame too high too; with 4. */
enum walking {
    WALKED, WALK_LENGTH, WALK_COUNT, WALK_TOO_MANY, WALK_TOLD, WALK_TOLD_UNSOUND, WALK_HEADER, WALK_RECORDS, WALK_LAST,
    WALK_UNSOUND_FRAME, WALK_FRAME, WALKINGS
};

/* What an accepted walk tells of a device: nothing, a byte without and with its end bit, a clear or a trigger. */
enum telling { TOLD_NOTHING, TOLD_BYTE, TOLD_END, TOLD_CLEAR, TOLD_TRIGGER, TELLINGS };

/* An accepted walk by its devices: one, some, or as many as there can be. */
enum past { PAST_ONE, PAST_SOME, PAST_MOST, PASTS };

/* And by the links behind its records: all empty, with frames in them, or not sound. */
enum behind { LINKS_EMPTY, LINKS_HOLD, LINKS_UNSOUND, BEHINDS };

extern uint64_t walkings[WALKINGS], tellings_of[2][TELLINGS], pasts[PASTS], behinds[BEHINDS];

/* The lengths for n devices, and others, few of them right by chance: by a byte, of any count, of an area, or right
   when cut to few bits. */
struct lent lent_for(unsigned n);
size_t other_records_length(unsigned n);
size_t other_told_length(unsigned n);
/* Lends both sides a copy of what stands in the area's room, and any bytes to be told over. */
void lend_walk(const uint8_t *area);
struct pil_walked walk_on(int side, const struct lent *l, uint64_t frame);
/* What differs between the sides after their walks, or was altered that may not be, or cannot be told; else NULL. */
const char *walk_differs(const struct lent *l, uint8_t refusal);
void print_walk(void);
/* Counts a walk over what stood in the area. */
void count_walk(const struct lent *l, uint64_t frame, uint8_t refusal, const uint8_t *area);
/* What was told of a device by libpil. */
const uint8_t *told_of(unsigned device);
/* A device's record as libpil's walk has left it. */
const uint8_t *walked_record(unsigned device);

#endif
