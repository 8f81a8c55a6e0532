/* A bench script: the exchanged meter. Three meters are given addresses and read, one is exchanged on the live loop,
   and the address frame goes round again. At the end a meter without auto address shows what that ability is for.
   Where it relies on no two meters having one address, it names the theorem that says so: no-two-meters, stated in
   crates/addresses/specs/Addresses.antt. */
#include "pil.h"
#include "pil_names.h"

#include <stdio.h>
#include <stdlib.h>
#include <string.h>

enum {
    METERS = 3,
    METER = PIL_ABILITY_DATA | PIL_ABILITY_AUTO_ADDRESS, /* sends readings, takes its address from AAD */
    OLD_METER = PIL_ABILITY_DATA                         /* sends readings, has its address from a switch */
};

static uint8_t loop[PIL_AREA_LENGTH(METERS)];

/* A bench stops at the first refusal: its loop is not what it thinks. */
static void accepted(uint8_t refusal, const char *what)
{
    if (refusal == PIL_ACCEPTED)
        return;
    fprintf(stderr, "%s: refused, %s\n", what, pil_refusal_texts[refusal]);
    exit(1);
}

/* Sends a frame right round and gives the frame that comes out. No meter listens, so no drain stops on a byte, and none
   of the frames sent here clears a device: no drain stops on that either. */
static unsigned right_round(unsigned frame)
{
    struct pil_taken taken;

    accepted(pil_put(loop, sizeof loop, frame), "put");
    accepted(pil_drain(loop, sizeof loop, METERS).refusal, "drain");
    taken = pil_take(loop, sizeof loop);
    accepted(taken.refusal, "take");
    return taken.frame;
}

static unsigned send_frame(unsigned kind, unsigned number)
{
    struct pil_encoded encoded = pil_encode(kind, number, 0);

    accepted(encoded.refusal, "encode");
    return right_round(encoded.frame);
}

/* The controller reads till ETO, so the last byte need not be an END. */
static void load(unsigned device, const char *reading)
{
    accepted(pil_load(loop, sizeof loop, device, (const uint8_t *)reading, strlen(reading), PIL_LAST_PLAIN), "load");
}

static int talks(unsigned device)
{
    return loop[PIL_RECORD_AT(device) + PIL_RECORD_TALKER] != PIL_TALKER_IDLE;
}

/* Sends every talk address there is: the most devices that take themselves for the talker of one. */
static unsigned most_talkers(void)
{
    unsigned most = 0;

    for (unsigned address = 0; address < PIL_NO_ADDRESS; address++) {
        unsigned talkers = 0;

        send_frame(PIL_KIND_TAD, address);
        for (unsigned i = 0; i < METERS; i++)
            talkers += (unsigned)talks(i);
        if (talkers > most)
            most = talkers;
    }
    send_frame(PIL_KIND_UNT, 0);
    return most;
}

/* AAD goes out with the first address; each meter that takes one sends it on with the next one. */
static void give_addresses(unsigned first)
{
    unsigned out = send_frame(PIL_KIND_AAD, first);

    printf("AAD %u: addresses", first);
    for (unsigned i = 0; i < METERS; i++)
        printf(" %u", loop[PIL_RECORD_AT(i) + PIL_RECORD_ADDRESS]);
    if (pil_decode(out).kind == PIL_KIND_AAD) /* and not IAA, which comes out after address 30 */
        printf(", next free %u", pil_decode(out).offset);
    printf(", most talkers at one address %u\n", most_talkers());
}

static int is_data(unsigned frame)
{
    return pil_decode(frame).kind == PIL_KIND_DAB || pil_decode(frame).kind == PIL_KIND_END;
}

/* Reads what answers at an address, till its end of transmission. */
static void read_address(unsigned address)
{
    unsigned frame;

    send_frame(PIL_KIND_TAD, address);
    printf("address %u: talker", address);
    for (unsigned i = 0; i < METERS; i++)
        if (talks(i))
            printf(" %u", i);
    printf(", reading ");
    /* Each byte goes back to the talker, which compares it and sends the next. */
    for (frame = send_frame(PIL_KIND_SDA, 0); is_data(frame); frame = right_round(frame))
        putchar(pil_decode(frame).offset);
    printf(", end %03x\n", frame);
    send_frame(PIL_KIND_UNT, 0);
}

/* Exchanges a device while the loop lives on. A set-up of the loop would switch every meter off and on, so the new
   meter is set up in an area of its own and its power-on record takes the old one's place; the links stay. */
static void exchange(unsigned device, uint8_t abilities, uint8_t fixed_address)
{
    uint8_t alone[PIL_AREA_LENGTH(1)];
    uint8_t item[PIL_ITEM_LENGTH] = {abilities, fixed_address};

    accepted(pil_set_up(alone, sizeof alone, item, sizeof item), "set-up of the new meter");
    memcpy(loop + PIL_RECORD_AT(device), alone + PIL_RECORD_AT(0), PIL_RECORD_LENGTH);
    printf("device %u exchanged, address now %u\n", device, fixed_address);
}

static void three_meters(void)
{
    uint8_t items[PIL_ITEMS_LENGTH(METERS)] = {0};

    for (unsigned i = 0; i < METERS; i++) {
        items[PIL_ITEM_AT(i) + PIL_ITEM_ABILITIES] = METER;
        items[PIL_ITEM_AT(i) + PIL_ITEM_FIXED] = PIL_NO_ADDRESS;
    }
    accepted(pil_set_up(loop, sizeof loop, items, sizeof items), "set-up");
    load(0, "1.503");
    load(1, "2.718");
    load(2, "9.807");
    /* By no-two-meters each has its own address from here on, 1 to 3, and one meter at most answers a talk address: all
       have auto address, AAU and then AAD 1 go right round, and 1 + METERS is 31 at most. */
    send_frame(PIL_KIND_AAU, 0);
    give_addresses(1);
    for (unsigned address = 1; address <= METERS; address++)
        read_address(address);
}

/* The new meter has no address and alone takes one, since a configured meter lets AAD go by. So AAD is sent with the
   next free address; AAD 1 would give it the 1 that device 0 has. A record that is written over is no call, so till the
   next AAU that is for the bench to see to: no-two-meters speaks of calls alone. */
static void one_exchanged(void)
{
    exchange(1, METER, PIL_NO_ADDRESS);
    give_addresses(4);
    load(0, "1.504");
    load(1, "2.719");
    load(2, "9.806");
    read_address(1);
    read_address(4);
    read_address(3);
    /* To count from 1 again, AAU first: all give up their addresses, and all take new ones. From here on no-two-meters
       holds again, whatever the loop went through. */
    send_frame(PIL_KIND_AAU, 0);
    give_addresses(1);
}

/* A meter without auto address keeps the 2 of its switch and is not counted by AAD: device 2 gets 2 as well. Both take
   themselves for the talker; the first on the loop answers, the other is never heard. So no-two-meters asks for auto
   address in every device. */
static void without_auto_address(void)
{
    exchange(0, OLD_METER, 2);
    load(0, "0.000");
    load(2, "9.805");
    send_frame(PIL_KIND_AAU, 0);
    give_addresses(1);
    read_address(2);
}

int main(void)
{
    three_meters();
    one_exchanged();
    without_auto_address();
    return 0;
}
