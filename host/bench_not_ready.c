/* A controller that is not ready, and damaged bytes. To learn here: NRD ends a talk after the byte under way; a wrong
   data bit or a lost end bit ends it with ETE. A later SDA goes on at the next byte, a new load at its first. */
#include "pil.h"
#include "pil_names.h"
#include <stdio.h>
#include <stdlib.h>
#include <string.h>

enum { METER, DEVICES, ADDRESS = 1, NEVER = 0, D1 = 0x001 };
static uint8_t loop[PIL_AREA_LENGTH(DEVICES)];
static char got[PIL_MOST_DATA + 1]; /* what has come out since the load, as text */

static void accepted(uint8_t refusal, const char *what)
{
    if (refusal == PIL_ACCEPTED)
        return;
    fprintf(stderr, "%s: refused, %s\n", what, pil_refusal_texts[refusal]);
    exit(1);
}

static int is_data(unsigned frame)
{
    return pil_decode(frame).kind == PIL_KIND_DAB || pil_decode(frame).kind == PIL_KIND_END;
}

/* Sends a frame through the one device; shows what comes out and how the meter stands then. */
static unsigned right_round(unsigned frame)
{
    const uint8_t *meter = loop + PIL_RECORD_AT(METER);

    accepted(pil_put(loop, sizeof loop, frame), "put");
    accepted(pil_hop(loop, sizeof loop, METER).refusal, "hop");
    struct pil_taken out = pil_take(loop, sizeof loop);
    accepted(out.refusal, "take");
    if (is_data(out.frame))
        got[strlen(got)] = (char)pil_decode(out.frame).offset; /* a byte's data bits */
    printf("  %s %03x -> %s %03x: %s, %u of %u sent, got \"%s\"\n", pil_kind_names[pil_decode(frame).kind], frame,
           pil_kind_names[pil_decode(out.frame).kind], out.frame, pil_talker_texts[meter[PIL_RECORD_TALKER]],
           meter[PIL_RECORD_SENT], meter[PIL_RECORD_DATA_LENGTH], got);
    return out.frame;
}

static void load(const char *text)
{
    accepted(pil_load(loop, sizeof loop, METER, (const uint8_t *)text, strlen(text), PIL_LAST_END), "load");
    memset(got, 0, sizeof got);
}

/* Asks for data and passes each byte back: byte number not_ready after an NRD, byte number damaged with a wrong bit. */
static void talk(const char *title, unsigned not_ready, unsigned damaged, unsigned bit)
{
    printf("%s:\n", title);
    unsigned frame = right_round(pil_encode(PIL_KIND_SDA, 0, 0).frame);
    for (unsigned byte = 1; is_data(frame); byte++) {
        if (byte == not_ready)
            right_round(pil_encode(PIL_KIND_NRD, 0, 0).frame);
        frame = right_round(byte == damaged ? frame ^ bit : frame);
    }
}

int main(void)
{
    uint8_t items[PIL_ITEMS_LENGTH(DEVICES)] = {0};

    items[PIL_ITEM_AT(METER) + PIL_ITEM_ABILITIES] = PIL_ABILITY_DATA;
    items[PIL_ITEM_AT(METER) + PIL_ITEM_FIXED] = ADDRESS;
    accepted(pil_set_up(loop, sizeof loop, items, sizeof items), "set-up");
    load("1.503");
    right_round(pil_encode(PIL_KIND_TAD, ADDRESS, 0).frame);
    talk("NRD while the second byte is under way", 2, NEVER, 0);
    talk("SDA goes on at the next byte", NEVER, NEVER, 0);
    talk("SDA when all is sent", NEVER, NEVER, 0);
    load("72");
    talk("SDA after a new load", NEVER, NEVER, 0);
    load("7.1");
    talk("a new load, and its first byte comes back damaged", NEVER, 1, D1);
    talk("SDA goes on at the next byte, here too; its END comes back as a DAB", NEVER, 2, PIL_C2);
    return 0;
}
