/* What both sides are lent at a walk, between bytes that it may not touch, and how walks are told apart and counted. */
#include "walks.h"

#include "both.h"
#include "chance.h"
#include "lent.h"

#include <string.h>

enum {
    PIL, MODEL,
    MOST_TRIED = PIL_MOST_DEVICES + 1,
    LENT_ROOM = PIL_AREA_LENGTH(MOST_TRIED), /* copied from the area's room, whatever length is told */
    ROOM = GUARD + LENT_ROOM + GUARD,
    TOLD_ROOM = GUARD + PIL_TOLD_LENGTH(MOST_TRIED) + GUARD,
    PAINT = 0xa5,
    NUL = 0x400
};

static uint8_t records[2][ROOM], records_before[ROOM], told[2][TOLD_ROOM], told_before[TOLD_ROOM];
uint64_t walkings[WALKINGS], tellings_of[2][TELLINGS], pasts[PASTS], behinds[BEHINDS];

/* Lengths. */

struct lent lent_for(unsigned n)
{
    return (struct lent){PIL_RECORDS_LENGTH(n), PIL_TOLD_LENGTH(n)};
}

size_t other_records_length(unsigned n)
{
    size_t right = PIL_RECORDS_LENGTH(n);

    switch (below(9)) {
    case 0: return right + 1;
    case 1: return right - 1;
    case 2: return right + (one_in(2) ? 256 : (size_t)1 << 32);
    case 3: return right > 256 ? right - 256 : right + 256;
    case 4: return PIL_AREA_LENGTH(n);
    case 5: return below(PIL_RECORDS_LENGTH(1));
    case 6: return below(PIL_RECORDS_LENGTH(MOST_TRIED) + 1);
    default: return PIL_RECORDS_LENGTH(below(MOST_TRIED + 1));
    }
}

size_t other_told_length(unsigned n)
{
    size_t right = PIL_TOLD_LENGTH(n);
    size_t other[] = {0, n, right - 1, right + 1, right - PIL_TOLD_EACH, right + PIL_TOLD_EACH, right + 256,
                      right + ((size_t)1 << 32), SIZE_MAX, PIL_TOLD_LENGTH(below(MOST_TRIED + 1))};

    return other[below(sizeof other / sizeof *other)];
}

/* One walk on both sides. */

void lend_walk(const uint8_t *area)
{
    memset(records_before, PAINT, ROOM);
    memcpy(records_before + GUARD, area, LENT_ROOM);
    chance_bytes(told_before, TOLD_ROOM);
    for (int side = PIL; side <= MODEL; side++) {
        memcpy(records[side], records_before, ROOM);
        memcpy(told[side], told_before, TOLD_ROOM);
    }
}

struct pil_walked walk_on(int side, const struct lent *l, uint64_t frame)
{
    return both[side].walk(records[side] + GUARD, l->records_len, frame, told[side] + GUARD, l->told_len);
}

const uint8_t *told_of(unsigned device)
{
    return told[PIL] + GUARD + PIL_TOLD_AT(device);
}

const uint8_t *walked_record(unsigned device)
{
    return records[PIL] + GUARD + PIL_RECORD_AT(device);
}

/* A refused walk alters nothing, an accepted one nothing beyond what it is lent: no model is needed to see this. */
const char *walk_differs(const struct lent *l, uint8_t refusal)
{
    int accepted = refusal == PIL_ACCEPTED;

    if (memcmp(records[PIL], records[MODEL], ROOM) != 0)
        return "the records walked past";
    if (memcmp(told[PIL], told[MODEL], TOLD_ROOM) != 0)
        return "what is told";
    if (!altered_within(records[PIL], records_before, accepted ? l->records_len : 0, ROOM)
        || !altered_within(told[PIL], told_before, accepted ? l->told_len : 0, TOLD_ROOM))
        return "bytes altered that may not be, by a walk";
    for (size_t at = 0; accepted && at < l->told_len; at += PIL_TOLD_EACH)
        if (!can_be_told(told[PIL] + GUARD + at))
            return "what cannot be told";
    return NULL;
}

void print_walk(void)
{
    print_first("pil's records and the model's", records[PIL], records[MODEL], ROOM);
    print_first("pil's records and those before", records[PIL], records_before, ROOM);
    print_first("what pil tells and the model", told[PIL], told[MODEL], TOLD_ROOM);
    print_first("what pil tells and what stood there", told[PIL], told_before, TOLD_ROOM);
}

/* What walks meet. */

/* A record is sound where a walk past it alone is accepted. */
static int record_sound(const uint8_t *record)
{
    uint8_t one[PIL_RECORDS_LENGTH(1)] = {1}, ignored[PIL_TOLD_LENGTH(1)];

    memcpy(one + PIL_RECORD_AT(0), record, PIL_RECORD_LENGTH);
    return model_walk(one, sizeof one, NUL, ignored, sizeof ignored).refusal == PIL_ACCEPTED;
}

static int header_sound(const uint8_t *area)
{
    static const uint8_t zeros[PIL_HEADER_LENGTH - PIL_HEADER_ZEROS];

    return memcmp(area + PIL_HEADER_ZEROS, zeros, sizeof zeros) == 0;
}

static unsigned unsound_records(const uint8_t *area, unsigned n)
{
    unsigned unsound = 0;

    for (unsigned i = 0; i < n; i++)
        unsound += !record_sound(area + PIL_RECORD_AT(i));
    return unsound;
}

static enum walking shape_refused(const struct lent *l, const uint8_t *area)
{
    size_t left = l->records_len < PIL_HEADER_LENGTH ? 0 : l->records_len - PIL_HEADER_LENGTH;
    size_t n = left % PIL_RECORD_LENGTH ? 0 : left / PIL_RECORD_LENGTH;

    if (n == MOST_TRIED && area[PIL_HEADER_DEVICES] == n)
        return WALK_TOO_MANY;
    if (n < 1 || n > PIL_MOST_DEVICES)
        return WALK_LENGTH;
    if (area[PIL_HEADER_DEVICES] != n)
        return WALK_COUNT;
    return header_sound(area) && unsound_records(area, (unsigned)n) == 0 ? WALK_TOLD : WALK_TOLD_UNSOUND;
}

static enum walking unsound_refused(uint64_t frame, const uint8_t *area)
{
    unsigned n = area[PIL_HEADER_DEVICES], unsound = unsound_records(area, n);

    if (frame >= PIL_FRAMES)
        return WALK_UNSOUND_FRAME;
    if (unsound == 0)
        return WALK_HEADER;
    return n > 1 && unsound == 1 && header_sound(area) && !record_sound(area + PIL_RECORD_AT(n - 1))
        ? WALK_LAST : WALK_RECORDS;
}

static enum walking walking(const struct lent *l, uint64_t frame, uint8_t refusal, const uint8_t *area)
{
    switch (refusal) {
    case PIL_ACCEPTED: return WALKED;
    case PIL_SHAPE: return shape_refused(l, area);
    case PIL_UNSOUND: return unsound_refused(frame, area);
    default: return WALK_FRAME;
    }
}

static enum telling telling(const uint8_t *t)
{
    if (t[PIL_TOLD_HANDED])
        return t[PIL_TOLD_END] ? TOLD_END : TOLD_BYTE;
    return t[PIL_TOLD_EVENT] == PIL_EVENT_CLEAR ? TOLD_CLEAR : t[PIL_TOLD_EVENT] ? TOLD_TRIGGER : TOLD_NOTHING;
}

/* Header and records are sound. */
static enum behind behind(const uint8_t *area, unsigned n)
{
    if (model_owed(area, PIL_AREA_LENGTH(n)).refusal != PIL_ACCEPTED)
        return LINKS_UNSOUND;
    for (unsigned link = 0; link <= n; link++)
        if (area[PIL_LINK_AT(n, link) + PIL_LINK_COUNT] > 0)
            return LINKS_HOLD;
    return LINKS_EMPTY;
}

void count_walk(const struct lent *l, uint64_t frame, uint8_t refusal, const uint8_t *area)
{
    unsigned n = area[PIL_HEADER_DEVICES];

    walkings[walking(l, frame, refusal, area)]++;
    if (refusal != PIL_ACCEPTED)
        return;
    pasts[n == 1 ? PAST_ONE : n < PIL_MOST_DEVICES ? PAST_SOME : PAST_MOST]++;
    behinds[behind(area, n)]++;
    for (unsigned i = 0; i < n; i++) {
        int extended = (area[PIL_RECORD_AT(i) + PIL_RECORD_MORE] & PIL_MORE_EXTENDED) != 0;

        tellings_of[extended][telling(told_of(i))]++;
    }
}
