/* A loop put away in the evening with a frame under way, and opened in the morning. To learn here: what is lent to a
   saving and to an opening, and that a save which cannot be opened leaves the loop in hand as it is. */
#include "pil.h"
#include "pil_names.h"
#include <stdio.h>
#include <stdlib.h>

enum { METER, PRINTER, DEVICES, METER_ADDRESS = 1, PRINTER_ADDRESS = 2 };
static uint8_t loop[PIL_AREA_LENGTH(DEVICES)];
static uint8_t save[PIL_SAVE_LENGTH(DEVICES)]; /* a bench writes all of these bytes to a file, and reads them again */

static void accepted(uint8_t refusal, const char *what)
{
    if (refusal == PIL_ACCEPTED)
        return;
    fprintf(stderr, "%s: refused, %s\n", what, pil_refusal_texts[refusal]);
    exit(1);
}

static void set_up(void)
{
    uint8_t items[PIL_ITEMS_LENGTH(DEVICES)] = {0};

    items[PIL_ITEM_AT(METER) + PIL_ITEM_ABILITIES] = PIL_ABILITY_DATA;
    items[PIL_ITEM_AT(METER) + PIL_ITEM_FIXED] = METER_ADDRESS;
    items[PIL_ITEM_AT(PRINTER) + PIL_ITEM_ABILITIES] = PIL_ABILITY_LISTEN;
    items[PIL_ITEM_AT(PRINTER) + PIL_ITEM_FIXED] = PRINTER_ADDRESS;
    accepted(pil_set_up(loop, sizeof loop, items, sizeof items), "set-up");
}

static void show(const char *when)
{
    const uint8_t *meter = loop + PIL_RECORD_AT(METER);
    printf("%s: meter %s, %u of %u bytes sent, hops owed %u\n", when, pil_talker_texts[meter[PIL_RECORD_TALKER]],
           meter[PIL_RECORD_SENT], meter[PIL_RECORD_DATA_LENGTH], (unsigned)pil_owed(loop, sizeof loop).hops);
}

/* Lets the frame under way hop to the tail, and takes it out. */
static unsigned finish(void)
{
    struct pil_drained drained;

    do {
        drained = pil_drain(loop, sizeof loop, DEVICES);
        accepted(drained.refusal, "drain");
        if (drained.reason == PIL_STOP_HANDED)
            printf("  the printer is handed '%c'\n", drained.byte);
    } while (drained.reason != PIL_STOP_NO_HOP);
    struct pil_taken out = pil_take(loop, sizeof loop);
    accepted(out.refusal, "take");
    return out.frame;
}

int main(void)
{
    set_up();
    accepted(pil_load_end(loop, sizeof loop, METER, (const uint8_t *)"1.5", 3), "load"); /* its last byte as an END */
    accepted(pil_put(loop, sizeof loop, pil_encode(PIL_KIND_LAD, PRINTER_ADDRESS, 0).frame), "put");
    finish();
    accepted(pil_put(loop, sizeof loop, pil_encode(PIL_KIND_TAD, METER_ADDRESS, 0).frame), "put");
    finish();
    accepted(pil_put(loop, sizeof loop, pil_encode(PIL_KIND_SDA, 0, 0).frame), "put");
    accepted(pil_hop(loop, sizeof loop, METER).refusal, "hop"); /* its first byte waits before the printer */
    show("in the evening");
    accepted(pil_save(loop, sizeof loop, save, sizeof save), "save");
    set_up(); /* the area serves for something else */
    show("overnight");
    uint8_t refusal = pil_open(loop, sizeof loop, save, sizeof save - 1);
    printf("a file that was not read to its end: refused with %u, %s\n", refusal, pil_refusal_texts[refusal]);
    show("still");
    accepted(pil_open(loop, sizeof loop, save, sizeof save), "open");
    show("in the morning");
    unsigned frame = finish();
    while (pil_decode(frame).kind == PIL_KIND_DAB || pil_decode(frame).kind == PIL_KIND_END) {
        accepted(pil_put(loop, sizeof loop, frame), "put"); /* back to the meter, which sends its next byte */
        frame = finish();
    }
    show("at the end");
    return 0;
}
