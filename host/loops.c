/* Idle and busy loops, for measuring. */
#include "loops.h"

#include "model.h"

#include <string.h>

enum {
    STATUS = 0x40,
    ACCESSORY = 0x50,
    TAD = 0x440,
    SAD = 0x460,
    IDY = 0x600,
    PRIMARY = 5, /* the address of all extended devices */
    MIDDLE = LOOP_DEVICES / 2
};

void idle_loop(uint8_t *area)
{
    uint8_t items[PIL_POLL_ITEMS_LENGTH(LOOP_DEVICES)] = {0};

    for (unsigned i = 0; i < LOOP_DEVICES; i++) {
        items[PIL_POLL_ITEM_AT(i) + PIL_ITEM_ABILITIES] = 0xff;
        items[PIL_POLL_ITEM_AT(i) + PIL_ITEM_FIXED] = PIL_NO_ADDRESS;
        items[PIL_POLL_ITEM_AT(i) + PIL_ITEM_MORE] = PIL_MORE_POLL;
    }
    model_set_up(area, LOOP_LENGTH, items, sizeof items);
}

/* The frame in a place of a link. */
static void set_frame(uint8_t *area, unsigned link, unsigned place, unsigned frame)
{
    uint8_t *at = area + PIL_LINK_AT(LOOP_DEVICES, link) + PIL_LINK_FRAMES + 2 * place;

    at[0] = (uint8_t)frame;
    at[1] = (uint8_t)(frame >> 8);
}

void fill_link(uint8_t *area, unsigned link, unsigned frames, unsigned first, unsigned step)
{
    uint8_t *at = area + PIL_LINK_AT(LOOP_DEVICES, link);

    memset(at, 0, PIL_LINK_LENGTH);
    at[PIL_LINK_COUNT] = (uint8_t)frames;
    for (unsigned k = 0; k < frames; k++)
        set_frame(area, link, k, first + k * step);
}

/* The byte that a device in a sending state sent last, else 0. */
static uint8_t last_sent(const uint8_t *r)
{
    switch (r[PIL_RECORD_TALKER]) {
    case PIL_TALKER_DATA: return r[PIL_RECORD_DATA + r[PIL_RECORD_SENT] - 1];
    case PIL_TALKER_STATUS: return r[PIL_RECORD_STATUS];
    case PIL_TALKER_ID: return r[PIL_RECORD_ID + r[PIL_RECORD_REPLY_SENT] - 1];
    case PIL_TALKER_ACCESSORY: return r[PIL_RECORD_ACCESSORY];
    default: return 0;
    }
}

void full_record(uint8_t *record, unsigned address, unsigned talker)
{
    memset(record, 0, PIL_RECORD_LENGTH);
    record[PIL_RECORD_ABILITIES] = 0xff;
    record[PIL_RECORD_FIXED] = record[PIL_RECORD_ADDRESS] = (uint8_t)address;
    record[PIL_RECORD_CONFIGURED] = 1;
    record[PIL_RECORD_TALKER] = (uint8_t)talker;
    record[PIL_RECORD_MORE] = PIL_MORE_POLL;
    record[PIL_RECORD_STATUS] = STATUS;
    record[PIL_RECORD_ACCESSORY] = ACCESSORY;
    record[PIL_RECORD_ID_LENGTH] = PIL_MOST_ID;
    record[PIL_RECORD_DATA_LENGTH] = PIL_MOST_DATA;
    record[PIL_RECORD_SENT] = PIL_MOST_DATA / 2;
    record[PIL_RECORD_END] = PIL_LAST_END;
    for (unsigned k = 0; k < PIL_MOST_ID + PIL_MOST_DATA; k++)
        record[PIL_RECORD_ID + k] = (uint8_t)(LOOP_FIRST_BYTE + k);
    if (talker > PIL_TALKER_DATA)
        record[PIL_RECORD_REPLY_SENT] = talker == PIL_TALKER_ID ? PIL_MOST_ID / 2 : 1;
    record[PIL_RECORD_LAST] = last_sent(record);
}

/* The talker states in turn, the last device sending data. */
static unsigned talker_of(unsigned i)
{
    return (PIL_TALKER_DATA + LOOP_TALKER_STATES * LOOP_DEVICES - (LOOP_DEVICES - 1 - i)) % LOOP_TALKER_STATES;
}

/* ID and data count up, so the bytes that come back to a device count up from the one that it sent last. */
static void busy_loop_with_tail(uint8_t *area, unsigned in_tail)
{
    idle_loop(area);
    for (unsigned i = 0; i < LOOP_DEVICES; i++) {
        uint8_t *record = area + PIL_RECORD_AT(i);

        full_record(record, i, talker_of(i));
        record[PIL_RECORD_SERVICE] = (uint8_t)(i / 5 % (PIL_SERVICE_POLLED + 1));
        fill_link(area, i, PIL_LINK_DEPTH, record[PIL_RECORD_LAST], 1);
    }
    fill_link(area, LOOP_DEVICES, in_tail, LOOP_FIRST_BYTE, 1);
}

void busy_loop(uint8_t *area)
{
    busy_loop_with_tail(area, PIL_LINK_DEPTH);
}

void busy_loop_to_hop(uint8_t *area)
{
    busy_loop_with_tail(area, PIL_LINK_DEPTH - 1);
}

void busy_loop_to_drain(uint8_t *area)
{
    busy_loop_with_tail(area, 0);
}

void polled_loop(uint8_t *area)
{
    idle_loop(area);
    for (unsigned i = 0; i < LOOP_DEVICES; i++) {
        area[PIL_RECORD_AT(i) + PIL_RECORD_POLL] = (uint8_t)(PIL_POLL_CONFIGURED + i % 16);
        area[PIL_RECORD_AT(i) + PIL_RECORD_POLL_STATUS] = i % 3 == 0;
    }
    fill_link(area, 0, PIL_LINK_DEPTH, IDY, 1);
}

static void empty_links(uint8_t *area)
{
    for (unsigned link = 0; link <= LOOP_DEVICES; link++)
        fill_link(area, link, 0, 0, 0);
}

void busy_loop_to_walk(uint8_t *area)
{
    busy_loop(area);
    empty_links(area);
}

void polled_loop_to_walk(uint8_t *area)
{
    polled_loop(area);
    empty_links(area);
}

void listening_loop(uint8_t *area)
{
    idle_loop(area);
    for (unsigned i = 0; i < LOOP_DEVICES; i++)
        area[PIL_RECORD_AT(i) + PIL_RECORD_LISTENER] = 1;
}

void extended_loop(uint8_t *area)
{
    idle_loop(area);
    for (unsigned i = 0; i < LOOP_DEVICES; i++) {
        uint8_t *record = area + PIL_RECORD_AT(i);

        record[PIL_RECORD_ABILITIES] = 0xff - PIL_ABILITY_AUTO_ADDRESS;
        record[PIL_RECORD_MORE] |= PIL_MORE_EXTENDED;
        record[PIL_RECORD_CONFIGURED] = PIL_CONFIGURED;
        record[PIL_RECORD_ADDRESS] = PRIMARY;
        record[PIL_RECORD_SECOND] = (uint8_t)i;
    }
    fill_link(area, 0, PIL_LINK_DEPTH, TAD + PRIMARY, 0);
    set_frame(area, 0, 1, SAD);
    set_frame(area, 0, 3, SAD + LOOP_DEVICES - 1);
}

void talker_loop(uint8_t *area)
{
    idle_loop(area);
    for (unsigned i = 0; i < LOOP_DEVICES; i++)
        full_record(area + PIL_RECORD_AT(i), i, i == MIDDLE ? PIL_TALKER_ADDRESSED : PIL_TALKER_IDLE);
    area[PIL_RECORD_AT(MIDDLE) + PIL_RECORD_SENT] = 0;
}
