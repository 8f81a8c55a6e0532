/* A rack of eight fixtures that all answer one IDY. To learn here: how each is told a data bit of its own, how the IDY
   that comes back names the fixtures that are done, lowest first, and how one bit can tell whether all are. */
#include "pil.h"
#include "pil_names.h"
#include <stdio.h>
#include <stdlib.h>

enum { FIXTURES = 8, FIRST_ADDRESS = 1 };
static uint8_t rack[PIL_AREA_LENGTH(FIXTURES)];

static void accepted(uint8_t refusal, const char *what)
{
    if (refusal == PIL_ACCEPTED)
        return;
    fprintf(stderr, "%s: refused, %s\n", what, pil_refusal_texts[refusal]);
    exit(1);
}

/* Sends a frame right round. No data byte, clear or trigger is sent, so no drain stops before it is at the tail. */
static unsigned send_frame(unsigned kind, unsigned number)
{
    accepted(pil_encode(kind, number, 0).refusal, "encode");
    accepted(pil_put(rack, sizeof rack, pil_encode(kind, number, 0).frame), "put");
    accepted(pil_drain(rack, sizeof rack, FIXTURES).refusal, "drain");
    struct pil_taken out = pil_take(rack, sizeof rack);
    accepted(out.refusal, "take");
    return out.frame;
}

/* LAD, then PPE or PPD, then UNL, so that the next such command is for another fixture alone (001, 5.5). */
static void tell(unsigned fixture, unsigned kind, unsigned number)
{
    send_frame(PIL_KIND_LAD, FIRST_ADDRESS + fixture);
    send_frame(kind, number);
    send_frame(PIL_KIND_UNL, 0);
}

static void done(unsigned fixture, unsigned yes)
{
    accepted(pil_poll_status(rack, sizeof rack, fixture, yes), "poll status");
}

/* One IDY asks all fixtures at once. Gives the number of the lowest bit that is one, PIL_NO_BIT if none is. */
static unsigned poll(const char *when)
{
    unsigned out = send_frame(PIL_KIND_IDY, 0);
    struct pil_polled polled = pil_poll_count(out);
    accepted(polled.refusal, "poll count");
    printf("%s: IDY 600 -> %03x, %u ones, lowest %u\n", when, out, polled.ones, polled.lowest);
    return polled.lowest;
}

int main(void)
{
    uint8_t items[PIL_POLL_ITEMS_LENGTH(FIXTURES)] = {0};

    for (unsigned i = 0; i < FIXTURES; i++) {
        items[PIL_POLL_ITEM_AT(i) + PIL_ITEM_ABILITIES] = PIL_ABILITY_LISTEN; /* PPE is for listeners alone */
        items[PIL_POLL_ITEM_AT(i) + PIL_ITEM_FIXED] = (uint8_t)(FIRST_ADDRESS + i);
        items[PIL_POLL_ITEM_AT(i) + PIL_ITEM_MORE] = PIL_MORE_POLL;
    }
    accepted(pil_set_up(rack, sizeof rack, items, sizeof items), "set-up");
    done(5, 1);
    poll("fixture 5 done, none told");
    send_frame(PIL_KIND_UNL, 0);
    send_frame(PIL_KIND_PPU, 0);
    for (unsigned i = 0; i < FIXTURES; i++)
        tell(i, PIL_KIND_PPE, PIL_POLL_SENSE + i); /* a one on bit i says that fixture i is done */
    printf("fixture 5: PPE %d, kept as %u\n", PIL_POLL_SENSE + 5, rack[PIL_RECORD_AT(5) + PIL_RECORD_POLL]);
    poll("each told its bit");
    done(2, 1);
    done(7, 1);
    for (unsigned i = poll("2 and 7 done too"); i != PIL_NO_BIT; i = poll("then")) {
        printf("  fixture %u is unloaded\n", i);
        done(i, 0);
    }
    done(3, 1);
    tell(3, PIL_KIND_PPD, 0);
    poll("3 done, but told to be silent");
    for (unsigned i = 0; i < FIXTURES; i++)
        tell(i, PIL_KIND_PPE, 0); /* sense 0: a one on bit 0 says that some fixture is not done */
    poll("all told bit 0 with sense 0");
    for (unsigned i = 0; i < FIXTURES; i++)
        done(i, 1);
    poll("all done");
    return 0;
}
