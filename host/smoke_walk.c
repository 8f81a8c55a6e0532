/* Walks through libpil.a (02, l): the lister's example of 01 without links, a talk, what is told of each device, one
   device and as many as there can be, and the refusals in their order, which leave all that is lent as it was. */
#include "pil.h"
#include "smoke.h"

#include <string.h>

enum { PAIR = 2, MOST = PIL_MOST_DEVICES, PAINT = 0xa5, TAKES_ADDRESS = PIL_ABILITY_LISTEN | PIL_ABILITY_AUTO_ADDRESS };

static uint8_t pair[PIL_AREA_LENGTH(PAIR)], longest[PIL_AREA_LENGTH(MOST + 1)];
static uint8_t told[PIL_TOLD_LENGTH(MOST + 1)];

/* Devices that listen and take an address, as 211f has them in the lister's line 1. */
static void set_up(uint8_t *area, unsigned n)
{
    uint8_t items[PIL_ITEMS_LENGTH(MOST)] = {0};

    for (unsigned i = 0; i < n; i++) {
        items[PIL_ITEM_AT(i) + PIL_ITEM_ABILITIES] = TAKES_ADDRESS;
        items[PIL_ITEM_AT(i) + PIL_ITEM_FIXED] = PIL_NO_ADDRESS;
    }
    check("set-up", pil_set_up(area, PIL_AREA_LENGTH(n), items, PIL_ITEMS_LENGTH(n)), PIL_ACCEPTED);
}

/* Walks a frame past n devices, over paint where it tells: the frame out. */
static unsigned walks(const char *what, uint8_t *area, unsigned n, unsigned frame)
{
    struct pil_walked walked;

    memset(told, PAINT, sizeof told);
    walked = pil_walk(area, PIL_RECORDS_LENGTH(n), frame, told, PIL_TOLD_LENGTH(n));
    check(what, walked.refusal, PIL_ACCEPTED);
    check(what, told[PIL_TOLD_LENGTH(n)], PAINT);
    return walked.frame;
}

static void tells(const char *what, unsigned i, unsigned handed, unsigned byte, unsigned end, unsigned event)
{
    const uint8_t *at = told + PIL_TOLD_AT(i);

    check(what, at[PIL_TOLD_HANDED], handed);
    check(what, at[PIL_TOLD_BYTE], byte);
    check(what, at[PIL_TOLD_END], end);
    check(what, at[PIL_TOLD_EVENT], event);
}

static void lister_example(void)
{
    set_up(pair, PAIR);
    check("581 walked", walks("581", pair, PAIR, 0x581), 0x583);
    tells("581, device 0", 0, 0, 0, 0, PIL_EVENT_NONE);
    tells("581, device 1", 1, 0, 0, 0, PIL_EVENT_NONE);
    check("422 walked", walks("422", pair, PAIR, 0x422), 0x422);
    check("422, listener", pair[PIL_RECORD_AT(1) + PIL_RECORD_LISTENER], 1);
    check("041 walked", walks("041", pair, PAIR, 0x041), 0x041);
    tells("041, device 0", 0, 0, 0, 0, PIL_EVENT_NONE);
    tells("041, device 1", 1, 1, 0x41, 0, PIL_EVENT_NONE);
    check("342 walked", walks("342", pair, PAIR, 0x342), 0x342);
    tells("342, device 1", 1, 1, 0x42, 1, PIL_EVENT_NONE);
    check("DCL walked", walks("DCL", pair, PAIR, 0x414), 0x414);
    tells("DCL, device 0", 0, 0, 0, 0, PIL_EVENT_CLEAR);
    tells("DCL, device 1", 1, 0, 0, 0, PIL_EVENT_CLEAR);
    check("GET walked", walks("GET", pair, PAIR, 0x408), 0x408);
    tells("GET, device 0", 0, 0, 0, 0, PIL_EVENT_NONE);
    tells("GET, device 1", 1, 0, 0, 0, PIL_EVENT_TRIGGER);
    check("2,047 walked", walks("2,047", pair, PAIR, 2047), 2047);
}

/* Rows 5 to 7 of 01 at the first of two devices; the second listens and is handed both bytes. */
static void talk(void)
{
    static const uint8_t items[PIL_ITEMS_LENGTH(PAIR)] = {PIL_ABILITY_DATA, 5,
                                                          [PIL_ITEM_AT(1)] = PIL_ABILITY_LISTEN, 6};

    check("set-up", pil_set_up(pair, sizeof pair, items, sizeof items), PIL_ACCEPTED);
    check("load", pil_load_end(pair, sizeof pair, 0, (const uint8_t *)"\x41\x42", 2), PIL_ACCEPTED);
    walks("LAD 6", pair, PAIR, 0x426);
    walks("TAD 5", pair, PAIR, 0x445);
    check("560 walked", walks("560", pair, PAIR, 0x560), 0x041);
    tells("560, device 1", 1, 1, 0x41, 0, PIL_EVENT_NONE);
    check("041 walked", walks("041", pair, PAIR, 0x041), 0x242);
    tells("041, the talker", 0, 0, 0, 0, PIL_EVENT_NONE);
    tells("041, device 1", 1, 1, 0x42, 1, PIL_EVENT_NONE);
    check("242 walked", walks("242", pair, PAIR, 0x242), 0x540);
    tells("242, device 1", 1, 0, 0, 0, PIL_EVENT_NONE);
    check("242, talker", pair[PIL_RECORD_AT(0) + PIL_RECORD_TALKER], PIL_TALKER_ADDRESSED);
}

/* Frames in links stay, and links that are not sound are no cause to refuse. */
static void links_left_alone(void)
{
    uint8_t links[sizeof pair - PIL_RECORDS_LENGTH(PAIR)];

    set_up(pair, PAIR);
    check("put", pil_put(pair, sizeof pair, 0x59e), PIL_ACCEPTED);
    pair[PIL_LINK_AT(PAIR, 1) + PIL_LINK_ZERO] = 1;
    memcpy(links, pair + PIL_LINK_AT(PAIR, 0), sizeof links);
    check("580 walked", walks("580", pair, PAIR, 0x580), 0x582);
    check("580, the links", memcmp(links, pair + PIL_LINK_AT(PAIR, 0), sizeof links), 0);
}

/* One device, and the most: each takes its address, listens, and is handed a byte. */
static void one_and_most(void)
{
    set_up(pair, 1);
    check("59e past one", walks("one", pair, 1, 0x59e), 0x59f);
    check("59e past one, address", pair[PIL_RECORD_AT(0) + PIL_RECORD_ADDRESS], 30);
    set_up(longest, MOST);
    check("length of the most records", PIL_RECORDS_LENGTH(MOST), 1992);
    check("580 past the most", walks("most", longest, MOST, 0x580), 0x59f);
    for (unsigned i = 0; i < MOST; i++) {
        check("580, address", longest[PIL_RECORD_AT(i) + PIL_RECORD_ADDRESS], i);
        walks("LAD", longest, MOST, 0x420 + i);
    }
    check("2ff past the most", walks("2ff", longest, MOST, 0x2ff), 0x2ff);
    for (unsigned i = 0; i < MOST; i++)
        tells("2ff", i, 1, 0xff, 1, PIL_EVENT_NONE);
}

/* Refused with that number and frame 0, and nothing lent is another. */
static void refused(const char *what, uint8_t *area, size_t length, uint64_t frame, size_t told_length,
                    unsigned refusal)
{
    static uint8_t before[sizeof longest], told_before[sizeof told];
    size_t room = area == pair ? sizeof pair : sizeof longest;
    struct pil_walked walked;

    memset(told, PAINT, sizeof told);
    memcpy(before, area, room);
    memcpy(told_before, told, sizeof told);
    walked = pil_walk(area, length, frame, told, told_length);
    check(what, walked.refusal, refusal);
    check(what, walked.frame, 0);
    check(what, memcmp(area, before, room), 0);
    check(what, memcmp(told, told_before, sizeof told), 0);
}

static void shape_refusals(void)
{
    size_t right = PIL_RECORDS_LENGTH(PAIR), tells_right = PIL_TOLD_LENGTH(PAIR);

    set_up(pair, PAIR);
    refused("no records", pair, 0, 0x581, tells_right, PIL_SHAPE);
    refused("a header alone", pair, PIL_HEADER_LENGTH, 0x581, 0, PIL_SHAPE);
    refused("a byte too few", pair, right - 1, 0x581, tells_right, PIL_SHAPE);
    refused("a byte too many", pair, right + 1, 0x581, tells_right, PIL_SHAPE);
    refused("a whole area", pair, sizeof pair, 0x581, tells_right, PIL_SHAPE);
    refused("one device's length", pair, PIL_RECORDS_LENGTH(1), 0x581, PIL_TOLD_LENGTH(1), PIL_SHAPE);
    refused("the length and 2^32", pair, right + ((size_t)1 << 32), 0x581, tells_right, PIL_SHAPE);
    refused("nothing to tell in", pair, right, 0x581, 0, PIL_SHAPE);
    refused("told a byte too few", pair, right, 0x581, tells_right - 1, PIL_SHAPE);
    refused("told a byte too many", pair, right, 0x581, tells_right + 1, PIL_SHAPE);
    refused("told of three", pair, right, 0x581, PIL_TOLD_LENGTH(3), PIL_SHAPE);
    set_up(longest, MOST);
    longest[PIL_HEADER_DEVICES] = MOST + 1;
    memcpy(longest + PIL_RECORD_AT(MOST), longest + PIL_RECORD_AT(0), PIL_RECORD_LENGTH);
    refused("32 devices", longest, PIL_RECORDS_LENGTH(MOST + 1), 0x581, PIL_TOLD_LENGTH(MOST + 1), PIL_SHAPE);
    longest[PIL_HEADER_DEVICES] = 0;
    refused("byte 0 is 0", longest, PIL_RECORDS_LENGTH(MOST), 0x581, PIL_TOLD_LENGTH(MOST), PIL_SHAPE);
}

static void content_refusals(void)
{
    size_t right = PIL_RECORDS_LENGTH(PAIR), tells_right = PIL_TOLD_LENGTH(PAIR);

    for (unsigned i = PIL_HEADER_ZEROS; i < PIL_HEADER_LENGTH; i++) {
        set_up(pair, PAIR);
        pair[i] = 1;
        refused("a header byte", pair, right, 0x581, tells_right, PIL_UNSOUND);
    }
    for (unsigned i = 0; i < PAIR; i++) {
        set_up(pair, PAIR);
        pair[PIL_RECORD_AT(i) + PIL_RECORD_LISTENER] = 2;
        refused("a record", pair, right, 0x581, tells_right, PIL_UNSOUND);
        refused("a record and a frame over 2,047", pair, right, 2048, tells_right, PIL_UNSOUND);
        refused("a record and told too short", pair, right, 0x581, tells_right - 1, PIL_SHAPE);
    }
    set_up(pair, PAIR);
    refused("2,048", pair, right, 2048, tells_right, PIL_BAD_FRAME);
    refused("2^16 and 581", pair, right, 0x10581, tells_right, PIL_BAD_FRAME);
    refused("2^32 and 581", pair, right, ((uint64_t)1 << 32) + 0x581, tells_right, PIL_BAD_FRAME);
    refused("2^64 - 1", pair, right, UINT64_MAX, tells_right, PIL_BAD_FRAME);
    refused("2,048 and told too long", pair, right, 2048, tells_right + 1, PIL_SHAPE);
    refused("2,048 and a byte too few", pair, right - 1, 2048, tells_right, PIL_SHAPE);
}

void walk_cases(void)
{
    lister_example();
    talk();
    links_left_alone();
    one_and_most();
    shape_refusals();
    content_refusals();
}
