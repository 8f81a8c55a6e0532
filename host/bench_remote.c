/* A meter under remote control. To learn here: what puts it there, what its panel key does and when that is locked, and
   what a bench does where a drain stops on a clear or trigger: the device's own work, which the loop only asks for. */
#include "pil.h"
#include "pil_names.h"
#include <stdio.h>
#include <stdlib.h>
#include <string.h>

enum { METER, THERMOMETER, DEVICES, FIRST_ADDRESS = 1 };
static const char *const names[DEVICES] = {"meter", "thermometer"}, *const readings[DEVICES] = {"1.503 V", "21.5 C"};
static uint8_t loop[PIL_AREA_LENGTH(DEVICES)];

static void accepted(uint8_t refusal, const char *what)
{
    if (refusal == PIL_ACCEPTED)
        return;
    fprintf(stderr, "%s: refused, %s\n", what, pil_refusal_texts[refusal]);
    exit(1);
}

static void show(const char *after)
{
    printf("%s:", after);
    for (unsigned i = 0; i < DEVICES; i++)
        printf(" %s %s%s%s", names[i], pil_remote_texts[loop[PIL_RECORD_AT(i) + PIL_RECORD_REMOTE]],
               loop[PIL_RECORD_AT(i) + PIL_RECORD_ENABLED] ? ", enabled" : "", i + 1 < DEVICES ? ";" : "\n");
}

/* A trigger has a device take a reading, to be sent when it is asked for; a clear throws the reading away. */
static void work(unsigned device, unsigned event)
{
    const char *data = event == PIL_EVENT_TRIGGER ? readings[device] : "";

    accepted(pil_load(loop, sizeof loop, device, (const uint8_t *)data, strlen(data), PIL_LAST_PLAIN), "load");
    printf("  %s: the %s has \"%s\" to send\n", pil_event_texts[event], names[device], data);
}

/* Sends a command right round: after a stop on an event its frame still has to reach the tail. */
static void command(unsigned kind, unsigned number)
{
    struct pil_drained drained;

    accepted(pil_encode(kind, number, 0).refusal, "encode");
    accepted(pil_put(loop, sizeof loop, pil_encode(kind, number, 0).frame), "put");
    do {
        drained = pil_drain(loop, sizeof loop, DEVICES);
        accepted(drained.refusal, "drain");
        if (drained.reason == PIL_STOP_EVENT)
            work(drained.device, drained.byte); /* the byte tells which of the two it is */
    } while (drained.reason != PIL_STOP_NO_HOP);
    accepted(pil_take(loop, sizeof loop).refusal, "take");
    show(pil_kind_names[kind]);
}

int main(void)
{
    uint8_t items[PIL_ITEMS_LENGTH(DEVICES)] = {0}, refusal;

    for (unsigned i = 0; i < DEVICES; i++) {
        items[PIL_ITEM_AT(i) + PIL_ITEM_ABILITIES] = PIL_ABILITY_LISTEN | PIL_ABILITY_DATA;
        items[PIL_ITEM_AT(i) + PIL_ITEM_FIXED] = (uint8_t)(FIRST_ADDRESS + i);
    }
    accepted(pil_set_up(loop, sizeof loop, items, sizeof items), "set-up");
    command(PIL_KIND_REN, 0);
    command(PIL_KIND_LAD, FIRST_ADDRESS + METER);
    accepted(pil_key(loop, sizeof loop, METER), "key");
    show("the meter's key");
    command(PIL_KIND_LAD, FIRST_ADDRESS + METER);
    command(PIL_KIND_LLO, 0);
    accepted(pil_key(loop, sizeof loop, METER), "key");
    show("the meter's key, locked");
    command(PIL_KIND_GET, 0);
    command(PIL_KIND_GTL, 0);
    command(PIL_KIND_DCL, 0);
    command(PIL_KIND_NRE, 0);
    refusal = pil_key(loop, sizeof loop, DEVICES);
    printf("the key of a third device: refused with %u, %s\n", refusal, pil_refusal_texts[refusal]);
    return 0;
}
