/* Every refusal, brought about by a mistake that is easy to make. To learn here: what a refusal is likely to mean, and
   that a refused call leaves the area as it was, so that a bench can put its mistake right and go on. */
#include "pil.h"
#include "pil_names.h"
#include <stdio.h>
#include <stdlib.h>
#include <string.h>

enum { METER, PRINTER, DEVICES, METER_ADDRESS = 1, READING = 3 };
static uint8_t loop[PIL_AREA_LENGTH(DEVICES)], copy[sizeof loop]; /* the copy is made after each accepted call */
static const uint8_t buffer[PIL_MOST_DATA + 1] = {'1', '.', '5'};
static unsigned refused_calls;

static void check(int holds, const char *what, const char *found)
{
    if (holds)
        return;
    fprintf(stderr, "%s: %s\n", what, found);
    exit(1);
}

static void accepted(uint8_t refusal, const char *what)
{
    check(refusal == PIL_ACCEPTED, what, pil_refusal_texts[refusal]);
    memcpy(copy, loop, sizeof loop);
}

static void refused(uint8_t refusal, uint8_t expected, const char *what)
{
    check(refusal == expected, what, pil_refusal_texts[refusal]);
    check(memcmp(copy, loop, sizeof loop) == 0, what, "the area has changed");
    printf("%u %s (%s)\n", refusal, pil_refusal_texts[refusal], what);
    refused_calls++;
}

/* Turns over a bit of the area, as a stray write of the bench would, and turns it back after the call. */
static void damaged(size_t at, uint8_t expected, const char *what)
{
    loop[at] ^= 1;
    memcpy(copy, loop, sizeof loop);
    refused(pil_drain(loop, sizeof loop, 0).refusal, expected, what);
    loop[at] ^= 1;
    accepted(pil_drain(loop, sizeof loop, 0).refusal, "drain of the area put right");
}

int main(void)
{
    const unsigned idy = pil_encode(PIL_KIND_IDY, 0, 0).frame, frames[PIL_LINK_DEPTH] = {
        pil_encode(PIL_KIND_TAD, METER_ADDRESS, 0).frame, pil_encode(PIL_KIND_SDA, 0, 0).frame, idy, idy};
    uint8_t items[PIL_ITEMS_LENGTH(DEVICES)] = {0}, *lent = loop;

    items[PIL_ITEM_AT(METER) + PIL_ITEM_ABILITIES] = PIL_ABILITY_DATA;
    items[PIL_ITEM_AT(METER) + PIL_ITEM_FIXED] = METER_ADDRESS;
    items[PIL_ITEM_AT(PRINTER) + PIL_ITEM_ABILITIES] = PIL_ABILITY_LISTEN | PIL_ABILITY_AUTO_ADDRESS;
    items[PIL_ITEM_AT(PRINTER) + PIL_ITEM_FIXED] = PIL_NO_ADDRESS;
    accepted(pil_set_up(loop, sizeof loop, items, sizeof items), "set-up");
    refused(pil_take(lent, sizeof lent).refusal, PIL_SHAPE, "took with the size of a pointer for the area's length");
    items[PIL_ITEM_AT(METER) + PIL_ITEM_ABILITIES] |= PIL_ABILITY_SERVICE;
    refused(pil_set_up(loop, sizeof loop, items, sizeof items), PIL_UNSOUND, "set up service request without status");
    refused(pil_hop(loop, sizeof loop, DEVICES).refusal, PIL_NO_DEVICE,
            "counted devices from 1, and hopped device 2 of devices 0 and 1");
    refused(pil_encode(PIL_KIND_LAD, loop[PIL_RECORD_AT(PRINTER) + PIL_RECORD_ADDRESS], 0).refusal, PIL_BAD_FRAME,
            "encoded LAD for a printer that was given no address yet");
    for (unsigned i = 0; i < PIL_LINK_DEPTH; i++)
        accepted(pil_put(loop, sizeof loop, frames[i]), "put");
    refused(pil_take(loop, sizeof loop).refusal, PIL_EMPTY, "took before the frames had hopped to the tail");
    refused(pil_put(loop, sizeof loop, frames[0]), PIL_FULL, "put a fifth frame before any hop");
    refused(pil_load_end(loop, sizeof loop, PRINTER, buffer, READING), PIL_NO_ABILITY,
            "loaded the printer, which sends no data");
    refused(pil_load_end(loop, sizeof loop, METER, buffer, sizeof buffer), PIL_TOO_LONG, "loaded a buffer of 33 bytes");
    refused(pil_load(loop, sizeof loop, METER, buffer, READING, PIL_C2), PIL_UNSOUND, "chose PIL_C2, not PIL_LAST_END");
    accepted(pil_load(loop, sizeof loop, METER, buffer, READING, PIL_LAST_END), "load");
    accepted(pil_drain(loop, sizeof loop, pil_owed(loop, sizeof loop).hops).refusal, "drain"); /* SDA: a talk begins */
    refused(pil_load_end(loop, sizeof loop, METER, buffer, READING), PIL_BUSY, "loaded the meter during its talk");
    refused(pil_open(loop, sizeof loop, copy, sizeof copy), PIL_BAD_SAVE, "opened a copy of the area, not its save");
    damaged(PIL_RECORD_AT(METER) + PIL_RECORD_LISTENER, PIL_UNSOUND, "wrote over a byte of the meter's record");
    damaged(PIL_HEADER_DEVICES, PIL_SHAPE, "wrote over byte 0, the number of devices");
    printf("%u refused calls, and after each the area was the same bytes\n", refused_calls);
    return 0;
}
