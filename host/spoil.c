/* Saves spoilt at random, part by part: a part is a head with its body; and old saves made of new ones, and new ones of
   old ones. The save given is well-formed (02, a and h). */
#include "spoil.h"

#include "chance.h"

#include <string.h>

enum { COUNT_AT = PIL_SAVE_HEAD_LENGTH + PIL_HEADER_DEVICES };

unsigned saved_devices(const struct save *s)
{
    return s->bytes[COUNT_AT];
}

size_t part_at(unsigned devices, unsigned part)
{
    if (part == 0)
        return 0;
    return part <= devices ? PIL_SAVE_RECORD_AT(part - 1) : PIL_SAVE_LINK_AT(devices, part - 1 - devices);
}

static unsigned parts_of(unsigned devices)
{
    return 1 + devices + devices + 1;
}

static void append(struct save *to, const uint8_t *bytes, size_t length)
{
    memcpy(to->bytes + to->length, bytes, length);
    to->length += length;
}

static void append_part(struct save *to, const struct save *from, unsigned part)
{
    size_t at = part_at(saved_devices(from), part);

    append(to, from->bytes + at, part_at(saved_devices(from), part + 1) - at);
}

static void exchange(struct save *s, unsigned a, unsigned b)
{
    struct save old = *s;

    s->length = 0;
    for (unsigned part = 0; part < parts_of(saved_devices(&old)); part++)
        append_part(s, &old, part == a ? b : part == b ? a : part);
}

/* The form. */

static void cut(struct save *s)
{
    unsigned devices = saved_devices(s);

    switch (below(3)) {
    case 0: s->length--; break;
    case 1: s->length = below((unsigned)s->length); break;
    default: s->length = part_at(devices, below(parts_of(devices)));
    }
}

static void lengthen(struct save *s)
{
    struct save old = *s;
    uint8_t more[PIL_RECORD_LENGTH];

    chance_bytes(more, sizeof more);
    if (one_in(2))
        append(s, more, one_in(2) ? 1 : 1 + below(sizeof more));
    else
        append_part(s, &old, below(parts_of(saved_devices(&old))));
}

static void change_head(struct save *s)
{
    size_t head = part_at(saved_devices(s), below(parts_of(saved_devices(s))));

    s->bytes[head + below(PIL_SAVE_HEAD_LENGTH)] ^= (uint8_t)(one_in(2) ? 1u << below(8) : 1 + below(255));
}

/* The header and a later part, or a record and a link. */
static void change_order(struct save *s)
{
    unsigned devices = saved_devices(s);

    if (one_in(2))
        exchange(s, 0, 1 + below(parts_of(devices) - 1));
    else
        exchange(s, 1 + below(devices), 1 + devices + below(devices + 1));
}

static void change_count(struct save *s)
{
    static const uint8_t limits[] = {0, 1, PIL_MOST_DEVICES, PIL_MOST_DEVICES + 1, 255};
    uint8_t old = s->bytes[COUNT_AT];

    while (s->bytes[COUNT_AT] == old)
        s->bytes[COUNT_AT] = (uint8_t)(one_in(2) ? limits[below(sizeof limits)] : below(2 * PIL_MOST_DEVICES));
}

/* All devices and links are the first ones. */
static void refuse_count(struct save *s)
{
    static const uint8_t counts[] = {0, PIL_MOST_DEVICES + 1, PIL_MOST_DEVICES + 1, PIL_MOST_DEVICES + 2};
    struct save old = *s;
    unsigned devices = counts[below(sizeof counts)];

    s->length = part_at(saved_devices(&old), 1);
    s->bytes[COUNT_AT] = (uint8_t)devices;
    for (unsigned i = 0; i < devices; i++)
        append_part(s, &old, 1);
    for (unsigned i = 0; i <= devices; i++)
        append_part(s, &old, 1 + saved_devices(&old));
}

/* Mostly the first number that is no edition. */
static void change_edition(struct save *s)
{
    unsigned first = PIL_EDITION_NOW + 1;

    s->bytes[PIL_SAVE_EDITION] = (uint8_t)(one_in(2) ? first : first + below(UINT8_MAX + 1 - first));
}

void spoil_form(struct save *s, enum spoilt how)
{
    switch (how) {
    case CUT_SHORT: cut(s); break;
    case LONGER: lengthen(s); break;
    case HEAD_CHANGED: change_head(s); break;
    case OUT_OF_ORDER: change_order(s); break;
    case COUNT_CHANGED: change_count(s); break;
    case COUNT_REFUSED: refuse_count(s); break;
    default: change_edition(s);
    }
}

/* The contents. */

/* A byte of a body, but not the number of devices or the edition: these belong to the form. */
static size_t contents_place(unsigned devices)
{
    size_t record = PIL_SAVE_RECORD_AT(below(devices)) + PIL_SAVE_HEAD_LENGTH;
    size_t link = PIL_SAVE_LINK_AT(devices, below(devices + 1)) + PIL_SAVE_HEAD_LENGTH;
    size_t zeros = PIL_SAVE_EDITION + 1;

    switch (below(9)) {
    case 0: return zeros + below((unsigned)(PIL_SAVE_HEAD_LENGTH + PIL_HEADER_LENGTH - zeros));
    case 1: return link + below(PIL_LINK_LENGTH);
    case 2: return record + below(PIL_RECORD_LENGTH);
    case 3: return record + PIL_RECORD_END;
    case 4: return record + (one_in(2) ? PIL_RECORD_REMOTE : PIL_RECORD_ENABLED);
    case 5: return record + (one_in(3) ? PIL_RECORD_MORE : PIL_RECORD_POLL + below(2));
    case 6: return record + (one_in(3) ? PIL_RECORD_CONFIGURED : PIL_RECORD_FIXED_SECOND + below(2));
    default: return record + below(PIL_RECORD_ID);
    }
}

void spoil_contents(struct save *s)
{
    unsigned devices = saved_devices(s);

    if (one_in(6)) {
        exchange(s, 1 + below(devices), 1 + below(devices));
        exchange(s, 1 + devices + below(devices + 1), 1 + devices + below(devices + 1));
        return;
    }
    for (unsigned times = 1 + below(2); times > 0; times--) {
        size_t place = contents_place(devices);

        s->bytes[place] = damaged_value(s->bytes[place]);
    }
}

/* Old and new. */

uint8_t *saved_record(struct save *s, unsigned device)
{
    return s->bytes + PIL_SAVE_RECORD_AT(device) + PIL_SAVE_HEAD_LENGTH;
}

void make_old(struct save *s, int with_choices)
{
    s->bytes[PIL_SAVE_EDITION] = PIL_EDITION_OLD;
    for (unsigned i = 0; i < saved_devices(s) && !with_choices; i++)
        saved_record(s, i)[PIL_RECORD_END] = PIL_LAST_PLAIN;
}

void upgrade(struct save *s)
{
    s->bytes[PIL_SAVE_EDITION] = PIL_EDITION_NOW;
    for (unsigned i = 0; i < saved_devices(s); i++)
        if (saved_record(s, i)[PIL_RECORD_DATA_LENGTH] > 0)
            saved_record(s, i)[PIL_RECORD_END] = PIL_LAST_END;
}
