/* One of three devices rings for service. To learn here: C1 on an IDY tells that some device asks, a serial poll finds
   which one, and a device that was polled asks again only after wish 0 and then wish 1. */
#include "pil.h"
#include "pil_names.h"
#include <stdio.h>
#include <stdlib.h>

enum { DEVICES = 3, ASKER = 1, FIRST_ADDRESS = 1, STATUS_ASKED = 0x40 };
static uint8_t loop[PIL_AREA_LENGTH(DEVICES)];

static void accepted(uint8_t refusal, const char *what)
{
    if (refusal == PIL_ACCEPTED)
        return;
    fprintf(stderr, "%s: refused, %s\n", what, pil_refusal_texts[refusal]);
    exit(1);
}

/* Sends a frame right round. No device listens and no DCL is sent, so no drain stops before it is at the tail. */
static unsigned right_round(unsigned frame)
{
    accepted(pil_put(loop, sizeof loop, frame), "put");
    accepted(pil_drain(loop, sizeof loop, DEVICES).refusal, "drain");
    struct pil_taken out = pil_take(loop, sizeof loop);
    accepted(out.refusal, "take");
    return out.frame;
}

static unsigned send_frame(unsigned kind, unsigned number)
{
    accepted(pil_encode(kind, number, 0).refusal, "encode"); /* with C1 0, so that a C1 that comes out is a device's */
    return right_round(pil_encode(kind, number, 0).frame);
}

static void show(const char *when)
{
    unsigned now = loop[PIL_RECORD_AT(ASKER) + PIL_RECORD_SERVICE], out = send_frame(PIL_KIND_IDY, 0);
    printf("%s: device %d %s, IDY 600 -> %03x, C1 %u\n", when, ASKER, pil_service_texts[now], out, pil_decode(out).c1);
}

/* Asks each device for its status. A bit of the status byte tells who asked; C1 on it does not, since any device that
   asks sets it on a byte that goes by (on that of address 1 here). */
static void serial_poll(void)
{
    for (unsigned address = FIRST_ADDRESS; address < FIRST_ADDRESS + DEVICES; address++) {
        send_frame(PIL_KIND_TAD, address);
        unsigned status = send_frame(PIL_KIND_SST, 0);
        unsigned end = right_round(status); /* goes back to its talker, which ends the reply */
        printf("poll of address %u: SST -> %03x, then %s%s\n", address, status, pil_kind_names[pil_decode(end).kind],
               pil_decode(status).offset & STATUS_ASKED ? ": asked for service" : "");
    }
    show("after the poll");
}

static void wish(unsigned yes, const char *when)
{
    accepted(pil_wish(loop, sizeof loop, ASKER, yes), "wish");
    show(when);
}

int main(void)
{
    uint8_t items[PIL_ITEMS_LENGTH(DEVICES)] = {0};

    for (unsigned i = 0; i < DEVICES; i++) {
        items[PIL_ITEM_AT(i) + PIL_ITEM_ABILITIES] = PIL_ABILITY_STATUS | PIL_ABILITY_SERVICE;
        items[PIL_ITEM_AT(i) + PIL_ITEM_FIXED] = (uint8_t)(FIRST_ADDRESS + i);
    }
    accepted(pil_set_up(loop, sizeof loop, items, sizeof items), "set-up");
    accepted(pil_status(loop, sizeof loop, ASKER, STATUS_ASKED | 0x02), "status"); /* a wish does not set that bit */
    show("before any wish");
    wish(1, "wish 1");
    serial_poll();
    wish(1, "wish 1 alone");
    wish(0, "wish 0");
    wish(1, "wish 1 after it");
    serial_poll();
    return 0;
}
