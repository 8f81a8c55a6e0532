/* A meter's reading goes to a printer. To learn here: how a bench is the controller of a talk (each byte that comes out
   goes back in, till the talker ends), how pil_drain runs the loop in small steps, and what to do at its stops. */
#include "pil.h"
#include "pil_names.h"
#include <stdio.h>
#include <stdlib.h>
#include <string.h>

enum { METER, PRINTER, DEVICES, FIRST_ADDRESS = 1, BUDGET = 1 };
static uint8_t loop[PIL_AREA_LENGTH(DEVICES)];
static char handed[DEVICES][PIL_MOST_DATA + 1]; /* what each device was handed, as text, and how much that is */
static unsigned lengths[DEVICES];
static unsigned stops[PIL_STOP_EVENT + 1];      /* how many drains stopped for each reason */

static void accepted(uint8_t refusal, const char *what)
{
    if (refusal == PIL_ACCEPTED)
        return;
    fprintf(stderr, "%s: refused, %s\n", what, pil_refusal_texts[refusal]);
    exit(1);
}

/* Sends a frame right round, a budget of hops at a time, and gives the frame that comes out. */
static unsigned right_round(unsigned frame)
{
    struct pil_drained drained;

    accepted(pil_put(loop, sizeof loop, frame), "put");
    do {
        drained = pil_drain(loop, sizeof loop, BUDGET);
        accepted(drained.refusal, "drain"); /* looked at first: a refused drain's reason reads as PIL_STOP_NO_HOP */
        stops[drained.reason]++;
        switch (drained.reason) {
        case PIL_STOP_HANDED: /* keep the byte, and go on: its frame has to reach the tail as well */
            if (lengths[drained.device] < PIL_MOST_DATA)
                handed[drained.device][lengths[drained.device]++] = (char)drained.byte;
            break;
        case PIL_STOP_EVENT:  /* a device is cleared or triggered: not in this script, see bench_remote.c */
        case PIL_STOP_BUDGET: /* still under way: here a bench has time for other work */
        case PIL_STOP_NO_HOP: /* the frame waits at the tail */
            break;
        }
    } while (drained.reason != PIL_STOP_NO_HOP);
    struct pil_taken out = pil_take(loop, sizeof loop);
    accepted(out.refusal, "take");
    printf("%s %03x -> %s %03x\n", pil_kind_names[pil_decode(frame).kind], frame,
           pil_kind_names[pil_decode(out.frame).kind], out.frame);
    return out.frame;
}

int main(void)
{
    static const unsigned script[][2] = {{PIL_KIND_AAU, 0}, {PIL_KIND_AAD, FIRST_ADDRESS},
        {PIL_KIND_UNL, 0}, {PIL_KIND_LAD, FIRST_ADDRESS + PRINTER}, {PIL_KIND_TAD, FIRST_ADDRESS + METER},
        {PIL_KIND_SDA, 0}};
    uint8_t items[PIL_ITEMS_LENGTH(DEVICES)] = {0};
    const uint8_t *meter = loop + PIL_RECORD_AT(METER);
    unsigned frame = 0;

    items[PIL_ITEM_AT(METER) + PIL_ITEM_ABILITIES] = PIL_ABILITY_DATA | PIL_ABILITY_AUTO_ADDRESS;
    items[PIL_ITEM_AT(METER) + PIL_ITEM_FIXED] = PIL_NO_ADDRESS;
    items[PIL_ITEM_AT(PRINTER) + PIL_ITEM_ABILITIES] = PIL_ABILITY_LISTEN | PIL_ABILITY_AUTO_ADDRESS;
    items[PIL_ITEM_AT(PRINTER) + PIL_ITEM_FIXED] = PIL_NO_ADDRESS;
    accepted(pil_set_up(loop, sizeof loop, items, sizeof items), "set-up");
    /* The printer prints its line when the last byte comes with the end bit. */
    accepted(pil_load_end(loop, sizeof loop, METER, (const uint8_t *)"1.503 V", strlen("1.503 V")), "load");
    for (unsigned i = 0; i < sizeof script / sizeof *script; i++) {
        struct pil_encoded encoded = pil_encode(script[i][0], script[i][1], 0);
        accepted(encoded.refusal, "encode");
        frame = right_round(encoded.frame);
    }
    while (pil_decode(frame).kind == PIL_KIND_DAB || pil_decode(frame).kind == PIL_KIND_END)
        frame = right_round(frame); /* the talker compares its byte, and sends the next */
    printf("the talk ended with %s: meter %s, %u of %u bytes sent\n", pil_kind_names[pil_decode(frame).kind],
           pil_talker_texts[meter[PIL_RECORD_TALKER]], meter[PIL_RECORD_SENT], meter[PIL_RECORD_DATA_LENGTH]);
    printf("the printer was handed \"%s\", the meter \"%s\"\n", handed[PRINTER], handed[METER]);
    for (unsigned reason = 0; reason <= PIL_STOP_EVENT; reason++)
        printf("drains that stopped by \"%s\": %u\n", pil_stop_texts[reason], stops[reason]);
    return 0;
}
