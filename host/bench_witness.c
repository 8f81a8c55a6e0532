/* A bench with two witnesses: each frame goes right round by put, hops and take, and past a copy of the records by a
   walk, which is written apart from these. To learn here: what is lent to a walk, where it tells what happened, that
   local calls are made on the area and reach the walk by a copy, and how a bench stops where the two differ. */
#include "pil.h"
#include "pil_names.h"
#include <stdio.h>
#include <stdlib.h>
#include <string.h>

enum { METER, PRINTER, DEVICES, METER_ADDRESS = 1, PRINTER_ADDRESS = 2 };
static uint8_t loop[PIL_AREA_LENGTH(DEVICES)];
static uint8_t records[PIL_RECORDS_LENGTH(DEVICES)], told[PIL_TOLD_LENGTH(DEVICES)];

static void accepted(uint8_t refusal, const char *what)
{
    if (refusal == PIL_ACCEPTED)
        return;
    fprintf(stderr, "%s: refused, %s\n", what, pil_refusal_texts[refusal]);
    exit(1);
}

/* The first witness. What its hops answer is kept as a walk would tell it. */
static unsigned by_hops(unsigned frame, uint8_t *answered)
{
    accepted(pil_put(loop, sizeof loop, frame), "put");
    for (unsigned i = 0; i < DEVICES; i++) {
        struct pil_hopped hopped = pil_hop(loop, sizeof loop, i);
        accepted(hopped.refusal, "hop");
        answered[PIL_TOLD_AT(i) + PIL_TOLD_HANDED] = hopped.handed;
        answered[PIL_TOLD_AT(i) + PIL_TOLD_BYTE] = hopped.byte;
        answered[PIL_TOLD_AT(i) + PIL_TOLD_END] = hopped.end;
        answered[PIL_TOLD_AT(i) + PIL_TOLD_EVENT] = hopped.event;
    }
    struct pil_taken out = pil_take(loop, sizeof loop);
    accepted(out.refusal, "take");
    return out.frame;
}

/* The second. */
static unsigned by_walk(unsigned frame)
{
    struct pil_walked walked = pil_walk(records, sizeof records, frame, told, sizeof told);
    accepted(walked.refusal, "walk");
    return walked.frame;
}

/* Sends a frame by both and compares all that they show: the frame out, what happened, and the records. */
static unsigned right_round(unsigned frame)
{
    uint8_t answered[sizeof told];
    unsigned out = by_hops(frame, answered), walked = by_walk(frame);
    int alike = out == walked && !memcmp(answered, told, sizeof told) && !memcmp(loop, records, sizeof records);

    printf("%03x -> %03x by the hops, %03x by the walk", frame, out, walked);
    for (unsigned i = 0; i < DEVICES; i++)
        if (told[PIL_TOLD_AT(i) + PIL_TOLD_HANDED])
            printf(", device %u handed '%c'%s", i, told[PIL_TOLD_AT(i) + PIL_TOLD_BYTE],
                   told[PIL_TOLD_AT(i) + PIL_TOLD_END] ? " as the end" : "");
    printf("%s\n", alike ? "" : ": they differ, and the bench stops");
    if (!alike)
        exit(0); /* here that was to be shown; a bench that trusts neither would end with 1 */
    return out;
}

static void load(const char *reading)
{
    accepted(pil_load_end(loop, sizeof loop, METER, (const uint8_t *)reading, strlen(reading)), "load");
}

int main(void)
{
    static const uint8_t items[PIL_ITEMS_LENGTH(DEVICES)] = {
        PIL_ABILITY_DATA, METER_ADDRESS, 0, 0, 0, 0, 0, 0, 0, 0, 0, 0, PIL_ABILITY_LISTEN, PRINTER_ADDRESS};

    accepted(pil_set_up(loop, sizeof loop, items, sizeof items), "set-up");
    load("1.5");
    memcpy(records, loop, sizeof records); /* after the set-up, and after each local call */
    right_round(pil_encode(PIL_KIND_LAD, PRINTER_ADDRESS, 0).frame);
    right_round(pil_encode(PIL_KIND_TAD, METER_ADDRESS, 0).frame);
    for (unsigned frame = pil_encode(PIL_KIND_SDA, 0, 0).frame; pil_decode(frame).kind != PIL_KIND_ETO;)
        frame = right_round(frame);
    load("2.5"); /* and no copy: the walk goes on with what it knew */
    right_round(pil_encode(PIL_KIND_SDA, 0, 0).frame);
    return 0;
}
