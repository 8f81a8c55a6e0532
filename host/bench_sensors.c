/* A rack of small sensors that share one address, and a printer with an address of its own. To learn here: how AES and
   AEP give every sensor a second address behind the same primary, how TAD and SAD choose one of them to talk, and that
   no other command may come between these two. */
#include "pil.h"
#include "pil_names.h"
#include <stdio.h>
#include <stdlib.h>

enum { SENSORS = 4, PRINTER = SENSORS, DEVICES, RACK = 5, PRINTER_ADDRESS = 1, READING = 4 };
static uint8_t loop[PIL_AREA_LENGTH(DEVICES)];
static const char *const readings[SENSORS] = {"21.5", "19.0", "22.3", "20.8"};

static void accepted(uint8_t refusal, const char *what)
{
    if (refusal == PIL_ACCEPTED)
        return;
    fprintf(stderr, "%s: refused, %s\n", what, pil_refusal_texts[refusal]);
    exit(1);
}

/* Sends a frame right round. What the printer is handed on the way, it prints. */
static unsigned right_round(unsigned frame)
{
    struct pil_drained drained;
    accepted(pil_put(loop, sizeof loop, frame), "put");
    while ((drained = pil_drain(loop, sizeof loop, DEVICES)).reason == PIL_STOP_HANDED)
        printf("%c ", drained.byte);
    accepted(drained.refusal, "drain");
    struct pil_taken out = pil_take(loop, sizeof loop);
    accepted(out.refusal, "take");
    return out.frame;
}

static unsigned send_frame(unsigned kind, unsigned number)
{
    accepted(pil_encode(kind, number, 0).refusal, "encode");
    return right_round(pil_encode(kind, number, 0).frame);
}

static void assign(const char *what, unsigned kind, unsigned number)
{
    struct pil_decoded out = pil_decode(send_frame(kind, number));
    printf("%s %u -> %s %u: %s\n", pil_kind_names[kind], number, pil_kind_names[out.kind], out.offset, what);
}

/* Asks the talker for its data and sends each byte round again, till it says that there is no more. Where there is no
   talker, SDA itself comes back. */
static void read_data(void)
{
    printf(", SDA -> ");
    unsigned frame = send_frame(PIL_KIND_SDA, 0);
    while (frame < PIL_C3)
        frame = right_round(frame);
    printf("%s\n", pil_kind_names[pil_decode(frame).kind]);
}

int main(void)
{
    uint8_t items[PIL_EXTENDED_ITEMS_LENGTH(DEVICES)] = {0};

    for (unsigned i = 0; i < DEVICES; i++) {
        uint8_t *item = items + PIL_EXTENDED_ITEM_AT(i);
        item[PIL_ITEM_ABILITIES] = i < SENSORS ? PIL_ABILITY_DATA : PIL_ABILITY_LISTEN | PIL_ABILITY_AUTO_ADDRESS;
        item[PIL_ITEM_FIXED] = PIL_NO_ADDRESS;
        item[PIL_ITEM_MORE] = i < SENSORS ? PIL_MORE_EXTENDED : 0;
        item[PIL_ITEM_SECOND] = i < SENSORS ? PIL_NO_ADDRESS : 0;
    }
    accepted(pil_set_up(loop, sizeof loop, items, sizeof items), "set-up");
    send_frame(PIL_KIND_AAU, 0);
    assign("each sensor takes a second address", PIL_KIND_AES, 0);
    assign("all take the same primary", PIL_KIND_AEP, RACK);
    assign("the printer takes its one address", PIL_KIND_AAD, PRINTER_ADDRESS);
    send_frame(PIL_KIND_LAD, PRINTER_ADDRESS);
    for (unsigned i = 0; i < SENSORS; i++) {
        accepted(pil_load(loop, sizeof loop, i, (const uint8_t *)readings[i], READING, PIL_LAST_PLAIN), "load");
        printf("TAD %d, SAD %u", RACK, i);
        send_frame(PIL_KIND_TAD, RACK);
        send_frame(PIL_KIND_SAD, i); /* now this sensor talks, and the one before it is idle */
        read_data();
    }
    printf("UNT, TAD %d, LAD %d, SAD 0", RACK, PRINTER_ADDRESS);
    send_frame(PIL_KIND_UNT, 0); /* without it the last sensor would still talk: its own TAD does not end that */
    send_frame(PIL_KIND_TAD, RACK);
    send_frame(PIL_KIND_LAD, PRINTER_ADDRESS); /* a command between, and no sensor waits for SAD any more */
    send_frame(PIL_KIND_SAD, 0);
    read_data();
    return 0;
}
