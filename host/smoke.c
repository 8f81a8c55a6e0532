/* Runs the rows of 01 and 02, 01's cases at the limits, the choices of a load, remote and local, clears and triggers,
   parallel polls, extended addresses, hops owed, walks, a saved loop, as it is saved now and as it was before, and
   codes of 001's message table through libpil.a, called as a bench calls it. Prints each check that fails and exits 1,
   or how many held. */
#include "pil.h"
#include "smoke.h"

#include <stdio.h>
#include <string.h>

static uint8_t area[PIL_AREA_LENGTH(1)];
static uint8_t *const record = area + PIL_RECORD_AT(0);
static int held, failed;

void check(const char *what, unsigned long got, unsigned long expected)
{
    if (got == expected) {
        held++;
        return;
    }
    failed++;
    printf("%s: %lx, expected %lx\n", what, got, expected);
}

/* One device with all abilities and no fixed address. */
static void fresh(void)
{
    uint8_t item[PIL_ITEM_LENGTH] = {0xff, PIL_NO_ADDRESS};

    check("set-up", pil_set_up(area, sizeof area, item, sizeof item), PIL_ACCEPTED);
}

/* Puts the frame, hops and takes: the frame sent. */
static unsigned sends(unsigned frame)
{
    unsigned sent;

    check("put", pil_put(area, sizeof area, frame), PIL_ACCEPTED);
    sent = pil_hop(area, sizeof area, 0).frame;
    check("frame taken", pil_take(area, sizeof area).frame, sent);
    return sent;
}

static void at_5(void)
{
    fresh();
    check("585 unconfigured", sends(0x585), 0x586);
    check("address", record[PIL_RECORD_ADDRESS], 5);
}

static unsigned load(const char *data, uint64_t end)
{
    return pil_load(area, sizeof area, 0, (const uint8_t *)data, strlen(data), end);
}

static void talker_at_5(const char *data, uint64_t end)
{
    at_5();
    check("load", load(data, end), PIL_ACCEPTED);
    check("445 at 5", sends(0x445), 0x445);
    check("talker", record[PIL_RECORD_TALKER], PIL_TALKER_ADDRESSED);
}

static void address_rows(void)
{
    fresh();
    check("row 2", sends(0x59f), 0x59f);
    check("row 2, unconfigured", record[PIL_RECORD_CONFIGURED], 0);
    check("row 1", sends(0x59e), 0x59f);
    check("row 1, address", record[PIL_RECORD_ADDRESS], 30);
    at_5();
    check("row 3", sends(0x581), 0x581);
    check("row 3, address", record[PIL_RECORD_ADDRESS], 5);
    talker_at_5("", PIL_LAST_PLAIN);
    check("row 4", sends(0x446), 0x446);
    check("row 4, talker", record[PIL_RECORD_TALKER], PIL_TALKER_IDLE);
}

static void data_rows(void)
{
    talker_at_5("\x41\x42", PIL_LAST_END);
    check("row 5", sends(0x560), 0x041);
    check("row 5, talker", record[PIL_RECORD_TALKER], PIL_TALKER_DATA);
    check("row 6", sends(0x041), 0x242);
    check("row 7", sends(0x242), 0x540);
    check("row 7, talker", record[PIL_RECORD_TALKER], PIL_TALKER_ADDRESSED);
    talker_at_5("\x41\x42", PIL_LAST_END);
    sends(0x560);
    check("row 8", sends(0x043), 0x541);
    talker_at_5("\x41\x42", PIL_LAST_END);
    sends(0x560);
    check("row 9", sends(0x141), 0x242);
    talker_at_5("\x41\x42", PIL_LAST_END);
    sends(0x560);
    check("row 10, 542", sends(0x542), 0x542);
    check("row 10, 041", sends(0x041), 0x540);
    check("row 10, 560", sends(0x560), 0x242);
    talker_at_5("\x41\x42", PIL_LAST_END);
    sends(0x560);
    sends(0x041);
    check("row 13", sends(0x042), 0x541);
    check("row 13, talker", record[PIL_RECORD_TALKER], PIL_TALKER_ADDRESSED);
    talker_at_5("\x41\x42", PIL_LAST_PLAIN);
    check("row 14, 560", sends(0x560), 0x041);
    check("row 14, 041", sends(0x041), 0x042);
    check("row 14, 042", sends(0x042), 0x540);
    check("row 14, talker", record[PIL_RECORD_TALKER], PIL_TALKER_ADDRESSED);
    talker_at_5("", PIL_LAST_PLAIN);
    check("560 with no data", sends(0x560), 0x540);
}

/* A load stores its choice, one of no bytes too, a refused one nothing; a wrong choice is 2, after 1 and before 3. */
static void choice_cases(void)
{
    static const uint64_t wrong[] = {2, 255, 256, 257, (uint64_t)1 << 32, (uint64_t)1 << 63, UINT64_MAX};
    static uint8_t loaded[sizeof area];

    fresh();
    check("power-on, choice", record[PIL_RECORD_END], PIL_LAST_PLAIN);
    check("load of no bytes, END", load("", PIL_LAST_END), PIL_ACCEPTED);
    check("load of no bytes, choice", record[PIL_RECORD_END], PIL_LAST_END);
    check("load, plain", load("\x41", PIL_LAST_PLAIN), PIL_ACCEPTED);
    check("load, choice", record[PIL_RECORD_END], PIL_LAST_PLAIN);
    memcpy(loaded, area, sizeof area);
    for (unsigned i = 0; i < sizeof wrong / sizeof *wrong; i++)
        check("load, a wrong choice", load("\x42", wrong[i]), PIL_UNSOUND);
    check("load, a wrong choice and a wrong length", pil_load(area, sizeof area - 1, 0, loaded, 1, 2), PIL_SHAPE);
    check("load, a wrong choice and device 1", pil_load(area, sizeof area, 1, loaded, 1, 2), PIL_UNSOUND);
    check("load, device 1", pil_load(area, sizeof area, 1, loaded, 1, PIL_LAST_END), PIL_NO_DEVICE);
    check("load refused, the area", memcmp(area, loaded, sizeof area), 0);
    check("load_end", pil_load_end(area, sizeof area, 0, loaded, 1), PIL_ACCEPTED);
    check("load_end, choice", record[PIL_RECORD_END], PIL_LAST_END);
    check("load_end, device 1", pil_load_end(area, sizeof area, 1, loaded, 1), PIL_NO_DEVICE);
    record[PIL_RECORD_END] = 2;
    check("choice 2 in a record", pil_put(area, sizeof area, 0), PIL_UNSOUND);
}

static void service_rows(void)
{
    talker_at_5("", PIL_LAST_PLAIN);
    check("status", pil_status(area, sizeof area, 0, 0x20), PIL_ACCEPTED);
    check("wish", pil_wish(area, sizeof area, 0, 1), PIL_ACCEPTED);
    check("row 12, service 1", sends(0x600), 0x700);
    check("row 11", sends(0x561), 0x020);
    check("row 11, service", record[PIL_RECORD_SERVICE], PIL_SERVICE_POLLED);
    check("row 12, service 2", sends(0x600), 0x600);
}

/* Remote and local (02, d; 001, 2.17): from local, remote, and each of them locked, to where a message or the key leads
   while not enabled, and while enabled. */
enum { KEY = PIL_FRAMES, REMOTES = PIL_REMOTE_LOCKED + 1 };

static const struct {
    const char *what;
    unsigned frame, listener;
    uint8_t off[REMOTES], on[REMOTES];
    uint8_t enabled[2]; /* the flag after it, by the flag before it */
} moves[] = {
    {"REN", 0x492, 0, {0, 1, 2, 3}, {0, 1, 2, 3}, {1, 1}},
    {"REN, a listener", 0x492, 1, {0, 1, 2, 3}, {0, 1, 2, 3}, {1, 1}},
    {"NRE", 0x493, 0, {0, 0, 0, 0}, {0, 0, 0, 0}, {0, 0}},
    {"own LAD", 0x425, 0, {0, 1, 2, 3}, {1, 1, 3, 3}, {0, 1}},
    {"another's LAD", 0x426, 0, {0, 1, 2, 3}, {0, 1, 2, 3}, {0, 1}},
    {"own TAD", 0x445, 1, {0, 1, 2, 3}, {0, 1, 2, 3}, {0, 1}},
    {"UNL", 0x43f, 1, {0, 1, 2, 3}, {0, 1, 2, 3}, {0, 1}},
    {"LLO", 0x411, 0, {0, 1, 2, 3}, {2, 3, 2, 3}, {0, 1}},
    {"GTL, a listener", 0x401, 1, {0, 0, 2, 2}, {0, 0, 2, 2}, {0, 1}},
    {"GTL, no listener", 0x401, 0, {0, 1, 2, 3}, {0, 1, 2, 3}, {0, 1}},
    {"IFC", 0x490, 1, {0, 1, 2, 3}, {0, 1, 2, 3}, {0, 1}},
    {"DCL", 0x414, 1, {0, 1, 2, 3}, {0, 1, 2, 3}, {0, 1}},
    {"SDC", 0x404, 1, {0, 1, 2, 3}, {0, 1, 2, 3}, {0, 1}},
    {"GET", 0x408, 1, {0, 1, 2, 3}, {0, 1, 2, 3}, {0, 1}},
    {"key", KEY, 0, {0, 0, 2, 3}, {0, 0, 2, 3}, {0, 1}},
    {"key, a listener", KEY, 1, {0, 0, 2, 3}, {0, 0, 2, 3}, {0, 1}},
};

static void remote_rows(void)
{
    for (unsigned i = 0; i < sizeof moves / sizeof *moves; i++)
        for (unsigned from = 0; from < 2 * REMOTES; from++) {
            unsigned remote = from % REMOTES, enabled = from / REMOTES;

            at_5();
            record[PIL_RECORD_LISTENER] = (uint8_t)moves[i].listener;
            record[PIL_RECORD_REMOTE] = (uint8_t)remote;
            record[PIL_RECORD_ENABLED] = (uint8_t)enabled;
            if (moves[i].frame == KEY)
                check(moves[i].what, pil_key(area, sizeof area, 0), PIL_ACCEPTED);
            else
                check(moves[i].what, sends(moves[i].frame), moves[i].frame);
            check(moves[i].what, record[PIL_RECORD_REMOTE], enabled ? moves[i].on[remote] : moves[i].off[remote]);
            check(moves[i].what, record[PIL_RECORD_ENABLED], moves[i].enabled[enabled]);
        }
}

/* A device without ability 1 is enabled and locked like any other, but no LAD is its own. */
static void no_listener_cases(void)
{
    uint8_t item[PIL_ITEM_LENGTH] = {PIL_ABILITY_DATA, 5};

    check("set-up, no listener", pil_set_up(area, sizeof area, item, sizeof item), PIL_ACCEPTED);
    sends(0x492);
    check("no listener, REN", record[PIL_RECORD_ENABLED], 1);
    sends(0x425);
    check("no listener, LAD", record[PIL_RECORD_REMOTE], PIL_LOCAL);
    sends(0x411);
    check("no listener, LLO", record[PIL_RECORD_REMOTE], PIL_LOCAL_LOCKED);
    record[PIL_RECORD_REMOTE] = PIL_REMOTE;
    check("no listener, key", pil_key(area, sizeof area, 0), PIL_ACCEPTED);
    check("no listener, key to local", record[PIL_RECORD_REMOTE], PIL_LOCAL);
}

static void key_refusals(void)
{
    static uint8_t before[sizeof area];

    at_5();
    check("power-on, local", record[PIL_RECORD_REMOTE], PIL_LOCAL);
    check("power-on, not enabled", record[PIL_RECORD_ENABLED], 0);
    record[PIL_RECORD_REMOTE] = PIL_REMOTE;
    memcpy(before, area, sizeof area);
    check("key, a wrong length", pil_key(area, sizeof area - 1, 0), PIL_SHAPE);
    check("key, a wrong length and device 1", pil_key(area, sizeof area - 1, 1), PIL_SHAPE);
    check("key, device 1", pil_key(area, sizeof area, 1), PIL_NO_DEVICE);
    check("key, device 256", pil_key(area, sizeof area, 256), PIL_NO_DEVICE);
    check("key, device 2^32", pil_key(area, sizeof area, (uint64_t)1 << 32), PIL_NO_DEVICE);
    check("key, device 2^64 - 1", pil_key(area, sizeof area, UINT64_MAX), PIL_NO_DEVICE);
    check("key refused, the area", memcmp(area, before, sizeof area), 0);
    record[PIL_RECORD_REMOTE] = PIL_REMOTE_LOCKED + 1;
    check("key, state 4", pil_key(area, sizeof area, 0), PIL_UNSOUND);
    check("key, state 4 and device 1", pil_key(area, sizeof area, 1), PIL_UNSOUND);
    record[PIL_RECORD_REMOTE] = PIL_REMOTE;
    record[PIL_RECORD_ENABLED] = 2;
    check("key, enabled 2", pil_key(area, sizeof area, 0), PIL_UNSOUND);
    check("hop, enabled 2", pil_hop(area, sizeof area, 0).refusal, PIL_UNSOUND);
}

/* A hop of one device that reports the event, sends the frame on and leaves the record as it was. */
static void tells(const char *what, unsigned frame, unsigned listener, unsigned event)
{
    uint8_t before[PIL_RECORD_LENGTH];
    struct pil_hopped hopped;

    at_5();
    record[PIL_RECORD_LISTENER] = (uint8_t)listener;
    memcpy(before, record, sizeof before);
    check(what, pil_put(area, sizeof area, frame), PIL_ACCEPTED);
    hopped = pil_hop(area, sizeof area, 0);
    check(what, hopped.refusal, PIL_ACCEPTED);
    check(what, hopped.event, event);
    check(what, hopped.frame, frame);
    check(what, hopped.handed, 0);
    check(what, hopped.byte, 0);
    check(what, hopped.end, 0);
    check(what, memcmp(record, before, sizeof before), 0);
    hopped = pil_hop(area, sizeof area, 0);
    check(what, hopped.refusal, PIL_EMPTY);
    check(what, hopped.event, PIL_EVENT_NONE);
}

static void event_cases(void)
{
    tells("DCL, no listener", 0x414, 0, PIL_EVENT_CLEAR);
    tells("DCL, a listener", 0x414, 1, PIL_EVENT_CLEAR);
    tells("SDC, no listener", 0x404, 0, PIL_EVENT_NONE);
    tells("SDC, a listener", 0x404, 1, PIL_EVENT_CLEAR);
    tells("GET, no listener", 0x408, 0, PIL_EVENT_NONE);
    tells("GET, a listener", 0x408, 1, PIL_EVENT_TRIGGER);
    tells("NUL, a listener", 0x400, 1, PIL_EVENT_NONE);
    tells("409, no message, a listener", 0x409, 1, PIL_EVENT_NONE);
}

static void drains(const char *what, uint8_t *loop, size_t length, uint64_t budget, struct pil_drained expected)
{
    struct pil_drained drained = pil_drain(loop, length, budget);

    check(what, drained.refusal, PIL_ACCEPTED);
    check(what, drained.hops, expected.hops);
    check(what, drained.reason, expected.reason);
    check(what, drained.device, expected.device);
    check(what, drained.byte, expected.byte);
    check(what, drained.end, expected.end);
}

/* Two devices, the second a listener. A stop on an event comes after one on a byte and before those on no hop and on
   the budget, which that hop may have spent. */
static void event_stop_cases(void)
{
    static uint8_t loop[PIL_AREA_LENGTH(2)];
    static const uint8_t items[PIL_ITEMS_LENGTH(2)] = {0, 1, [PIL_ITEM_AT(1)] = PIL_ABILITY_LISTEN, 2};

    check("set-up of two", pil_set_up(loop, sizeof loop, items, sizeof items), PIL_ACCEPTED);
    loop[PIL_RECORD_AT(1) + PIL_RECORD_LISTENER] = 1;
    check("put DCL", pil_put(loop, sizeof loop, 0x414), PIL_ACCEPTED);
    check("put SDC", pil_put(loop, sizeof loop, 0x404), PIL_ACCEPTED);
    check("put GET", pil_put(loop, sizeof loop, 0x408), PIL_ACCEPTED);
    drains("drain, budget 0", loop, sizeof loop, 0, (struct pil_drained){0, 0, PIL_STOP_BUDGET, 0, 0, 0});
    drains("DCL at 0, budget 1", loop, sizeof loop, 1, (struct pil_drained){1, 0, PIL_STOP_EVENT, 0, 1, 0});
    drains("DCL at 1, budget 9", loop, sizeof loop, 9, (struct pil_drained){1, 0, PIL_STOP_EVENT, 1, 1, 0});
    drains("SDC, budget 2", loop, sizeof loop, 2, (struct pil_drained){2, 0, PIL_STOP_EVENT, 1, 1, 0});
    drains("GET at 0, budget 1", loop, sizeof loop, 1, (struct pil_drained){1, 0, PIL_STOP_BUDGET, 0, 0, 0});
    drains("GET at 1, budget 1", loop, sizeof loop, 1, (struct pil_drained){1, 0, PIL_STOP_EVENT, 1, 2, 0});
    drains("drained", loop, sizeof loop, 9, (struct pil_drained){0, 0, PIL_STOP_NO_HOP, 0, 0, 0});
    for (unsigned i = 0; i < 3; i++)
        check("take", pil_take(loop, sizeof loop).refusal, PIL_ACCEPTED);
    check("put END", pil_put(loop, sizeof loop, 0x241), PIL_ACCEPTED);
    check("put DCL", pil_put(loop, sizeof loop, 0x414), PIL_ACCEPTED);
    check("hop", pil_hop(loop, sizeof loop, 0).refusal, PIL_ACCEPTED);
    check("hop, clear", pil_hop(loop, sizeof loop, 0).event, PIL_EVENT_CLEAR);
    drains("a byte before DCL", loop, sizeof loop, 9, (struct pil_drained){1, 0, PIL_STOP_HANDED, 1, 0x41, 1});
    drains("DCL behind a byte", loop, sizeof loop, 9, (struct pil_drained){1, 0, PIL_STOP_EVENT, 1, 1, 0});
}

/* Parallel poll (02, f; 001, 2.12 and note 5 of its message table). */

/* One device with all abilities, the poll among them, at 5 and a listener. */
static void polled_at_5(void)
{
    static const uint8_t item[PIL_POLL_ITEM_LENGTH] = {0xff, 5, [PIL_ITEM_MORE] = PIL_MORE_POLL};

    check("set-up of 13 bytes", pil_set_up(area, sizeof area, item, sizeof item), PIL_ACCEPTED);
    check("power-on, further abilities", record[PIL_RECORD_MORE], PIL_MORE_POLL);
    check("power-on, not told", record[PIL_RECORD_POLL], PIL_POLL_NONE);
    check("power-on, poll status", record[PIL_RECORD_POLL_STATUS], 0);
    check("425 at 5", sends(0x425), 0x425);
    check("listener", record[PIL_RECORD_LISTENER], 1);
}

static void states(uint64_t status, unsigned expected)
{
    check("poll status", pil_poll_status(area, sizeof area, 0, status), PIL_ACCEPTED);
    check("poll status, stored", record[PIL_RECORD_POLL_STATUS], expected);
}

/* An IDY at a device told by this PPE. In 001's 5.5 PPE 13 names bit 3; by note 5 it is D6. */
static const struct {
    unsigned ppe, status, in, out;
} answers[] = {
    {0x480, 0, 0x600, 0x601}, {0x480, 1, 0x600, 0x600}, {0x480, 0, 0x601, 0x601}, {0x480, 1, 0x601, 0x601},
    {0x488, 0, 0x600, 0x600}, {0x488, 1, 0x600, 0x601}, {0x488, 0, 0x601, 0x601}, {0x488, 1, 0x601, 0x601},
    {0x481, 0, 0x600, 0x602}, {0x482, 0, 0x6fb, 0x6ff}, {0x483, 0, 0x700, 0x708}, {0x484, 0, 0x7ef, 0x7ff},
    {0x48d, 0, 0x600, 0x600}, {0x48d, 1, 0x600, 0x620}, {0x48d, 1, 0x7df, 0x7ff}, {0x48d, 0, 0x620, 0x620},
    {0x487, 0, 0x600, 0x680}, {0x487, 1, 0x67f, 0x67f}, {0x48f, 1, 0x600, 0x680}, {0x48f, 0, 0x77f, 0x77f},
};

static void answer_rows(void)
{
    for (unsigned i = 0; i < sizeof answers / sizeof *answers; i++) {
        polled_at_5();
        check("PPE", sends(answers[i].ppe), answers[i].ppe);
        check("PPE kept", record[PIL_RECORD_POLL], 16 + (answers[i].ppe & 0xf));
        states(answers[i].status, answers[i].status);
        check("IDY answered", sends(answers[i].in), answers[i].out);
        check("wish", pil_wish(area, sizeof area, 0, 1), PIL_ACCEPTED);
        check("IDY answered and service asked for", sends(answers[i].in), answers[i].out | PIL_C1);
    }
}

/* What a command makes of byte 22 where PPE 13 was told, as a listener and as none; the status stays. */
static const struct {
    const char *what;
    unsigned frame;
    uint8_t listener, other;
} tellings[] = {
    {"PPE 13 at PPE 13", 0x48d, 29, 29}, {"PPE 0", 0x480, 16, 29}, {"PPE 15", 0x48f, 31, 29}, {"PPD", 0x405, 0, 29},
    {"PPU", 0x415, 0, 0}, {"IFC", 0x490, 29, 29}, {"DCL", 0x414, 29, 29}, {"SDC", 0x404, 29, 29},
    {"UNL", 0x43f, 29, 29}, {"own TAD", 0x445, 29, 29}, {"AAU", 0x49a, 29, 29}, {"NRE", 0x493, 29, 29},
    {"47f, no message", 0x47f, 29, 29}, {"DDL 13", 0x4ad, 29, 29}, {"IDY", 0x600, 29, 29},
};

static void telling_rows(void)
{
    for (unsigned i = 0; i < sizeof tellings / sizeof *tellings; i++)
        for (unsigned listener = 0; listener < 2; listener++)
            for (unsigned status = 0; status < 2; status++) {
                polled_at_5();
                check("PPE 13", sends(0x48d), 0x48d);
                record[PIL_RECORD_LISTENER] = (uint8_t)listener;
                states(status, status);
                sends(tellings[i].frame);
                check(tellings[i].what, record[PIL_RECORD_POLL], listener ? tellings[i].listener : tellings[i].other);
                check(tellings[i].what, record[PIL_RECORD_POLL_STATUS], status);
                check(tellings[i].what, record[PIL_RECORD_MORE], PIL_MORE_POLL);
            }
}

/* Without the ability PPE tells nothing, and IDYs go on; with it PPE tells nothing to a device that is no listener. */
static void untold_cases(void)
{
    at_5();
    check("LAD, no poll", sends(0x425), 0x425);
    check("PPE, no poll", sends(0x480), 0x480);
    check("PPE, no poll, not told", record[PIL_RECORD_POLL], PIL_POLL_NONE);
    check("PPD, no poll", sends(0x405), 0x405);
    check("PPU, no poll", sends(0x415), 0x415);
    check("IDY, no poll", sends(0x600), 0x600);
    polled_at_5();
    check("IDY, not told", sends(0x600), 0x600);
    states(1, 1);
    check("IDY, not told, yes", sends(0x600), 0x600);
    check("UNL", sends(0x43f), 0x43f);
    check("PPE, no listener", sends(0x488), 0x488);
    check("PPE, no listener, not told", record[PIL_RECORD_POLL], PIL_POLL_NONE);
}

/* Any number but 0 is yes. */
static void poll_status_cases(void)
{
    static const uint64_t yes[] = {1, 2, 255, 256, 65536, (uint64_t)1 << 32, (uint64_t)1 << 63, UINT64_MAX};
    static uint8_t before[sizeof area];

    polled_at_5();
    for (unsigned i = 0; i < sizeof yes / sizeof *yes; i++) {
        states(yes[i], 1);
        states(yes[i], 1);
        states(0, 0);
    }
    memcpy(before, area, sizeof area);
    check("poll status, a wrong length", pil_poll_status(area, sizeof area - 1, 0, 1), PIL_SHAPE);
    check("poll status, a wrong length and device 1", pil_poll_status(area, sizeof area - 1, 1, 1), PIL_SHAPE);
    check("poll status, device 1", pil_poll_status(area, sizeof area, 1, 1), PIL_NO_DEVICE);
    check("poll status, device 256", pil_poll_status(area, sizeof area, 256, 1), PIL_NO_DEVICE);
    check("poll status, device 2^32", pil_poll_status(area, sizeof area, (uint64_t)1 << 32, 1), PIL_NO_DEVICE);
    check("poll status refused, the area", memcmp(area, before, sizeof area), 0);
    record[PIL_RECORD_MORE] = 0;
    check("poll status without the ability", pil_poll_status(area, sizeof area, 0, 1), PIL_NO_ABILITY);
    check("poll status 0 without the ability", pil_poll_status(area, sizeof area, 0, 0), PIL_NO_ABILITY);
    check("poll status without the ability, device 1", pil_poll_status(area, sizeof area, 1, 1), PIL_NO_DEVICE);
    record[PIL_RECORD_POLL] = 16;
    check("poll status, told without the ability", pil_poll_status(area, sizeof area, 0, 1), PIL_UNSOUND);
    check("poll status, told without the ability, device 1", pil_poll_status(area, sizeof area, 1, 1), PIL_UNSOUND);
}

/* A listener, up to two bytes of its record changed: a hop is refused with 2, or with 5 for want of a frame. */
static void judged(const char *what, unsigned more, unsigned place, unsigned value, unsigned refusal)
{
    polled_at_5();
    record[PIL_RECORD_MORE] = (uint8_t)more;
    record[place] = (uint8_t)value;
    check(what, pil_hop(area, sizeof area, 0).refusal, refusal);
}

static void poll_soundness(void)
{
    judged("no further abilities", 1, PIL_RECORD_MORE, 0, PIL_EMPTY);
    judged("further abilities 4", 1, PIL_RECORD_MORE, 4, PIL_UNSOUND);
    judged("further abilities 255", 1, PIL_RECORD_MORE, 255, PIL_UNSOUND);
    judged("told 1", 1, PIL_RECORD_POLL, 1, PIL_UNSOUND);
    judged("told 15", 1, PIL_RECORD_POLL, 15, PIL_UNSOUND);
    judged("told 16", 1, PIL_RECORD_POLL, 16, PIL_EMPTY);
    judged("told 31", 1, PIL_RECORD_POLL, 31, PIL_EMPTY);
    judged("told 32", 1, PIL_RECORD_POLL, 32, PIL_UNSOUND);
    judged("told 16 without the ability", 0, PIL_RECORD_POLL, 16, PIL_UNSOUND);
    judged("poll status 1", 1, PIL_RECORD_POLL_STATUS, 1, PIL_EMPTY);
    judged("poll status 2", 1, PIL_RECORD_POLL_STATUS, 2, PIL_UNSOUND);
    judged("poll status 1 without the ability", 0, PIL_RECORD_POLL_STATUS, 1, PIL_UNSOUND);
    judged("the poll and no other ability", 1, PIL_RECORD_ABILITIES, 0, PIL_UNSOUND); /* it is a listener */
    record[PIL_RECORD_LISTENER] = 0;
    check("the poll and no other ability, no listener", pil_hop(area, sizeof area, 0).refusal, PIL_EMPTY);
    states(1, 1);
}

/* The area's length says how many devices there are: 156 bytes are 12 items of 13 bytes, and 13 items of 12. */
static void item_cases(void)
{
    static uint8_t loop[PIL_AREA_LENGTH(14)];
    uint8_t items[15 * 14] = {0};

    for (unsigned length = 0; length <= 40; length++) {
        int one = length >= 12 && length <= 14, two = length == 24 || length == 26 || length == 28;

        check("items of one", pil_set_up(loop, PIL_AREA_LENGTH(1), items, length), one ? PIL_ACCEPTED : PIL_SHAPE);
        check("items of two", pil_set_up(loop, PIL_AREA_LENGTH(2), items, length), two ? PIL_ACCEPTED : PIL_SHAPE);
    }
    items[PIL_POLL_ITEM_AT(11) + PIL_ITEM_MORE] = 1;
    check("12 items of 13", pil_set_up(loop, PIL_AREA_LENGTH(12), items, 156), PIL_ACCEPTED);
    check("12 items of 13, the last", loop[PIL_RECORD_AT(11) + PIL_RECORD_MORE], 1);
    check("12 items of 13, the first", loop[PIL_RECORD_AT(0) + PIL_RECORD_MORE], 0);
    items[PIL_POLL_ITEM_AT(11) + PIL_ITEM_MORE] = 4;
    check("12 items of 13, a last byte of 4", pil_set_up(loop, PIL_AREA_LENGTH(12), items, 156), PIL_UNSOUND);
    check("13 items of 12, ID not zero", pil_set_up(loop, PIL_AREA_LENGTH(13), items, 156), PIL_UNSOUND);
    items[PIL_POLL_ITEM_AT(11) + PIL_ITEM_MORE] = 0;
    check("13 items of 12", pil_set_up(loop, PIL_AREA_LENGTH(13), items, 156), PIL_ACCEPTED);
    check("13 items of 12, the last", loop[PIL_RECORD_AT(12) + PIL_RECORD_MORE], 0);
    check("14 items of 13", pil_set_up(loop, PIL_AREA_LENGTH(14), items, 14 * 13), PIL_ACCEPTED);
    check("13 items of 14", pil_set_up(loop, PIL_AREA_LENGTH(13), items, 14 * 13), PIL_ACCEPTED);
    check("13 items of 14 and a byte", pil_set_up(loop, PIL_AREA_LENGTH(13), items, 14 * 13 + 1), PIL_SHAPE);
    check("14 items of 15", pil_set_up(loop, PIL_AREA_LENGTH(14), items, 15 * 14), PIL_SHAPE);
    items[PIL_ITEM_MORE] = 255;
    check("a last byte of 255", pil_set_up(loop, PIL_AREA_LENGTH(1), items, 13), PIL_UNSOUND);
}

enum { RACK = 3, RACK_BIT = 2 };

/* Puts the frame, lets all three hop and takes it. */
static unsigned round_of(uint8_t *rack, unsigned frame)
{
    check("put", pil_put(rack, PIL_AREA_LENGTH(RACK), frame), PIL_ACCEPTED);
    check("drain", pil_drain(rack, PIL_AREA_LENGTH(RACK), RACK).hops, RACK);
    return pil_take(rack, PIL_AREA_LENGTH(RACK)).frame;
}

/* Three devices share a bit: with sense 1 it is the OR of their statuses, with sense 0 it is zero just at their AND. */
static void rack_cases(void)
{
    static uint8_t rack[PIL_AREA_LENGTH(RACK)];
    uint8_t items[PIL_POLL_ITEMS_LENGTH(RACK)] = {0};

    for (unsigned i = 0; i < RACK; i++) {
        items[PIL_POLL_ITEM_AT(i) + PIL_ITEM_ABILITIES] = PIL_ABILITY_LISTEN;
        items[PIL_POLL_ITEM_AT(i) + PIL_ITEM_FIXED] = (uint8_t)i;
        items[PIL_POLL_ITEM_AT(i) + PIL_ITEM_MORE] = PIL_MORE_POLL;
    }
    check("set-up of the rack", pil_set_up(rack, sizeof rack, items, sizeof items), PIL_ACCEPTED);
    for (unsigned i = 0; i < RACK; i++)
        check("LAD", round_of(rack, 0x420 + i), 0x420 + i);
    for (unsigned statuses = 0; statuses < 1 << RACK; statuses++) {
        for (unsigned i = 0; i < RACK; i++)
            check("poll status", pil_poll_status(rack, sizeof rack, i, statuses & 1u << i), PIL_ACCEPTED);
        round_of(rack, 0x488 + RACK_BIT);
        check("sense 1, OR", round_of(rack, 0x600), statuses != 0 ? 0x604 : 0x600);
        round_of(rack, 0x480 + RACK_BIT);
        check("sense 0, AND", round_of(rack, 0x600), statuses != 7 ? 0x604 : 0x600);
        check("a bit put", round_of(rack, 0x685), 0x685);
    }
    check("PPU", round_of(rack, 0x415), 0x415);
    check("IDY after PPU", round_of(rack, 0x600), 0x600);
}

static void counts(const char *what, uint64_t frame, unsigned refusal, unsigned ones, unsigned lowest)
{
    struct pil_polled polled = pil_poll_count(frame);

    check(what, polled.refusal, refusal);
    check(what, polled.ones, ones);
    check(what, polled.lowest, lowest);
}

static void count_cases(void)
{
    counts("count 600", 0x600, PIL_ACCEPTED, 0, PIL_NO_BIT);
    counts("count 700", 0x700, PIL_ACCEPTED, 0, PIL_NO_BIT);
    counts("count 601", 0x601, PIL_ACCEPTED, 1, 0);
    counts("count 620", 0x620, PIL_ACCEPTED, 1, 5);
    counts("count 680", 0x680, PIL_ACCEPTED, 1, 7);
    counts("count 780", 0x780, PIL_ACCEPTED, 1, 7);
    counts("count 6a4", 0x6a4, PIL_ACCEPTED, 3, 2);
    counts("count 7fe", 0x7fe, PIL_ACCEPTED, 7, 1);
    counts("count 7ff", 0x7ff, PIL_ACCEPTED, 8, 0);
    counts("count 0", 0, PIL_BAD_FRAME, 0, 0);
    counts("count 48d", 0x48d, PIL_BAD_FRAME, 0, 0);
    counts("count 5ff", 0x5ff, PIL_BAD_FRAME, 0, 0);
    counts("count 800", 0x800, PIL_BAD_FRAME, 0, 0);
    counts("count 2^16 + 601", 0x10601, PIL_BAD_FRAME, 0, 0);
    counts("count 2^32 + 601", ((uint64_t)1 << 32) + 0x601, PIL_BAD_FRAME, 0, 0);
    counts("count 2^64 - 1", UINT64_MAX, PIL_BAD_FRAME, 0, 0);
}

static void limits(void)
{
    static uint8_t longest[PIL_AREA_LENGTH(PIL_MOST_DEVICES + 1)], bytes[PIL_MOST_DATA + 1];
    static const uint8_t items[PIL_ITEMS_LENGTH(PIL_MOST_DEVICES + 1)];

    check("length of one", PIL_AREA_LENGTH(1), 92);
    check("length of fifteen", PIL_AREA_LENGTH(15), 1128);
    check("most devices", PIL_MOST_DEVICES, 31);
    check("length of thirty-one", PIL_AREA_LENGTH(31), 2312);
    fresh();
    check("put 2,047", pil_put(area, sizeof area, 2047), PIL_ACCEPTED);
    check("put 2,048", pil_put(area, sizeof area, 2048), PIL_BAD_FRAME);
    pil_put(area, sizeof area, 0);
    pil_put(area, sizeof area, 0);
    check("fourth frame", pil_put(area, sizeof area, 0), PIL_ACCEPTED);
    check("fifth frame", pil_put(area, sizeof area, 0), PIL_FULL);
    check("load 32", pil_load(area, sizeof area, 0, bytes, 32, PIL_LAST_PLAIN), PIL_ACCEPTED);
    check("load 33", pil_load(area, sizeof area, 0, bytes, 33, PIL_LAST_PLAIN), PIL_TOO_LONG);
    check("load_end 33", pil_load_end(area, sizeof area, 0, bytes, 33), PIL_TOO_LONG);
    check("31 devices", pil_set_up(longest, PIL_AREA_LENGTH(31), items, PIL_ITEMS_LENGTH(31)), PIL_ACCEPTED);
    check("32 devices", pil_set_up(longest, PIL_AREA_LENGTH(32), items, PIL_ITEMS_LENGTH(32)), PIL_SHAPE);
}

static void owes(const char *what, const uint8_t *loop, size_t length, unsigned refusal, unsigned hops)
{
    struct pil_owing owing = pil_owed(loop, length);

    check(what, owing.refusal, refusal);
    check(what, owing.hops, hops);
}

static void owed_cases(void)
{
    static uint8_t loop[PIL_AREA_LENGTH(PIL_MOST_DEVICES)];
    static const uint8_t items[PIL_ITEMS_LENGTH(PIL_MOST_DEVICES)];
    const unsigned most = 2 * PIL_MOST_DEVICES * (PIL_MOST_DEVICES + 1);

    check("set-up of the most devices", pil_set_up(loop, sizeof loop, items, sizeof items), PIL_ACCEPTED);
    owes("owed, fresh", loop, sizeof loop, PIL_ACCEPTED, 0);
    check("put", pil_put(loop, sizeof loop, 0), PIL_ACCEPTED);
    owes("owed, a put", loop, sizeof loop, PIL_ACCEPTED, PIL_MOST_DEVICES);
    check("hop", pil_hop(loop, sizeof loop, 0).refusal, PIL_ACCEPTED);
    owes("owed, a hop", loop, sizeof loop, PIL_ACCEPTED, PIL_MOST_DEVICES - 1);
    while (pil_put(loop, sizeof loop, 0) == PIL_ACCEPTED)
        pil_drain(loop, sizeof loop, most);
    owes("owed, all links full", loop, sizeof loop, PIL_ACCEPTED, most);
    check("take", pil_take(loop, sizeof loop).refusal, PIL_ACCEPTED);
    owes("owed, a take", loop, sizeof loop, PIL_ACCEPTED, most);
    fresh();
    owes("owed, a wrong length", area, sizeof area - 1, PIL_SHAPE, 0);
    record[PIL_RECORD_ZEROS] = 1;
    owes("owed, a damaged byte", area, sizeof area, PIL_UNSOUND, 0);
}

/* The one device's save: at 5, sending the first of its bytes 41 42, a TAD behind that byte and a UNL before it. The
   header's byte 1 is the edition, the record's byte 19 the choice of END. */
static const uint8_t expected_save[116] = {
    8, 0, 0, 0, 1, 0, 1, 1, 0, 0, 0, 0, 0, 0,
    64, 0, 0, 0, 2, 0, 0xff, 31, 5, 1, 0, 2, 0, 0, 0, 0, 0, 0, 2, 1, 0x41, 0, [14 + 6 + 19] = 1,
    [14 + 6 + 32] = 0x41, 0x42,
    [84] = 10, 0, 0, 0, 3, 0, 1, 0, 0x46, 0x04, 0, 0, 0, 0, 0, 0,
    10, 0, 0, 0, 3, 0, 2, 0, 0x3f, 0x04, 0x41, 0, 0, 0, 0, 0
};

static void saved_loop(void)
{
    talker_at_5("\x41\x42", PIL_LAST_END);
    check("put UNL", pil_put(area, sizeof area, 0x43f), PIL_ACCEPTED);
    check("put SDA", pil_put(area, sizeof area, 0x560), PIL_ACCEPTED);
    check("drain", pil_drain(area, sizeof area, 2).hops, 2);
    check("put TAD 6", pil_put(area, sizeof area, 0x446), PIL_ACCEPTED);
}

static void save_cases(void)
{
    uint8_t save[sizeof expected_save + 1] = {0};

    check("saved length of one", PIL_SAVE_LENGTH(1), 116);
    check("saved length of fifteen", PIL_SAVE_LENGTH(15), 1320);
    check("saved length of thirty-one", PIL_SAVE_LENGTH(31), 2696);
    saved_loop();
    check("save, an output too short", pil_save(area, sizeof area, save, 115), PIL_SHAPE);
    check("save, an output too long", pil_save(area, sizeof area, save, 117), PIL_SHAPE);
    check("save, a wrong length", pil_save(area, sizeof area - 1, save, 116), PIL_SHAPE);
    check("save refused, the output", save[0], 0);
    check("save", pil_save(area, sizeof area, save, 116), PIL_ACCEPTED);
    check("save, its bytes", memcmp(save, expected_save, 116), 0);
    check("save, the byte behind it", save[116], 0);
    record[PIL_RECORD_ZEROS] = 1;
    check("save, a damaged byte", pil_save(area, sizeof area, save, 116), PIL_UNSOUND);
    check("save, a damaged byte and an output too short", pil_save(area, sizeof area, save, 115), PIL_SHAPE);
}

/* Opens a save with one byte made another. */
static unsigned opens_with(size_t place, unsigned value, size_t area_len, size_t save_len)
{
    uint8_t save[sizeof expected_save + 1] = {0};

    memcpy(save, expected_save, sizeof expected_save);
    save[place] = (uint8_t)value;
    return pil_open(area, area_len, save, save_len);
}

static void open_cases(void)
{
    static uint8_t saved[sizeof area], fresh_area[sizeof area];

    saved_loop();
    memcpy(saved, area, sizeof area);
    fresh();
    memcpy(fresh_area, area, sizeof area);
    check("open, cut short", opens_with(0, 8, sizeof area, 115), PIL_BAD_SAVE);
    check("open, a byte too many", opens_with(0, 8, sizeof area, 117), PIL_BAD_SAVE);
    check("open, an empty save", opens_with(0, 8, sizeof area, 0), PIL_BAD_SAVE);
    check("open, a length of 8 + 65536", opens_with(2, 1, sizeof area, 116), PIL_BAD_SAVE);
    check("open, a kind of 2 + 256", opens_with(14 + 5, 1, sizeof area, 116), PIL_BAD_SAVE);
    check("open, a link before the record", opens_with(14 + 4, 3, sizeof area, 116), PIL_BAD_SAVE);
    check("open, no devices", opens_with(6, 0, sizeof area, 116), PIL_BAD_SAVE);
    check("open, two devices", opens_with(6, 2, sizeof area, 116), PIL_BAD_SAVE);
    check("open, no save and a wrong length", opens_with(6, 2, sizeof area - 1, 116), PIL_BAD_SAVE);
    check("open, a wrong length", opens_with(0, 8, sizeof area - 1, 116), PIL_SHAPE);
    check("open, a wrong length and header byte 7", opens_with(6 + 7, 1, sizeof area - 1, 116), PIL_SHAPE);
    check("open, edition 2", opens_with(PIL_SAVE_EDITION, 2, sizeof area, 116), PIL_BAD_SAVE);
    check("open, edition 2 and a wrong length", opens_with(PIL_SAVE_EDITION, 2, sizeof area - 1, 116), PIL_BAD_SAVE);
    check("open, header byte 2", opens_with(6 + 2, 1, sizeof area, 116), PIL_UNSOUND);
    check("open, choice 2", opens_with(14 + 6 + 19, 2, sizeof area, 116), PIL_UNSOUND);
    check("open, state 4 of remote and local", opens_with(14 + 6 + 17, 4, sizeof area, 116), PIL_UNSOUND);
    check("open, enabled 2", opens_with(14 + 6 + 18, 2, sizeof area, 116), PIL_UNSOUND);
    check("open, further abilities 4", opens_with(14 + 6 + 7, 4, sizeof area, 116), PIL_UNSOUND);
    check("open, extended with auto address", opens_with(14 + 6 + 7, 2, sizeof area, 116), PIL_UNSOUND);
    check("open, half assigned and simple", opens_with(14 + 6 + 3, 2, sizeof area, 116), PIL_UNSOUND);
    check("open, a second address of a simple device", opens_with(14 + 6 + 21, 1, sizeof area, 116), PIL_UNSOUND);
    check("open, told without the ability", opens_with(14 + 6 + 22, 16, sizeof area, 116), PIL_UNSOUND);
    check("open, poll status without the ability", opens_with(14 + 6 + 23, 1, sizeof area, 116), PIL_UNSOUND);
    check("open, an old save with a byte 19", opens_with(PIL_SAVE_EDITION, 0, sizeof area, 116), PIL_UNSOUND);
    check("open, a listener over 1", opens_with(14 + 6 + 4, 2, sizeof area, 116), PIL_UNSOUND);
    check("open refused, the area", memcmp(area, fresh_area, sizeof area), 0);
    memset(area, 0xa5, sizeof area);
    check("open", opens_with(0, 8, sizeof area, 116), PIL_ACCEPTED);
    check("open, its area", memcmp(area, saved, sizeof area), 0);
    owes("open, hops owed", area, sizeof area, PIL_ACCEPTED, 1);
}

/* The same save as it was written before loads took a choice: it opens to the same area, with END chosen. A device
   without data has none chosen. */
static void old_save_cases(void)
{
    static uint8_t saved[sizeof area];
    uint8_t save[sizeof expected_save];

    saved_loop();
    memcpy(saved, area, sizeof area);
    memcpy(save, expected_save, sizeof save);
    save[PIL_SAVE_EDITION] = 0;
    save[14 + 6 + 19] = 0;
    memset(area, 0xa5, sizeof area);
    check("open, an old save", pil_open(area, sizeof area, save, sizeof save), PIL_ACCEPTED);
    check("open, an old save's area", memcmp(area, saved, sizeof area), 0);
    fresh();
    memcpy(saved, area, sizeof area);
    check("save", pil_save(area, sizeof area, save, sizeof save), PIL_ACCEPTED);
    check("save, edition", save[PIL_SAVE_EDITION], PIL_EDITION_NOW);
    save[PIL_SAVE_EDITION] = 0;
    memset(area, 0xa5, sizeof area);
    check("open, an old save without data", pil_open(area, sizeof area, save, sizeof save), PIL_ACCEPTED);
    check("open, an old save without data, its area", memcmp(area, saved, sizeof area), 0);
}

static void decodes(const char *what, uint64_t frame, unsigned kind, unsigned offset, unsigned c1)
{
    struct pil_decoded decoded = pil_decode(frame);

    check(what, decoded.refusal, PIL_ACCEPTED);
    check(what, decoded.kind, kind);
    check(what, decoded.offset, offset);
    check(what, decoded.c1, c1);
}

/* Encodes a message of the table, which the decoder has to give back. */
static void encodes(const char *what, unsigned kind, unsigned offset, unsigned c1, unsigned frame)
{
    struct pil_encoded encoded = pil_encode(kind, offset, c1);

    check(what, encoded.refusal, PIL_ACCEPTED);
    check(what, encoded.frame, frame);
    decodes(what, frame, kind, offset, c1);
}

static void not_encoded(const char *what, uint64_t kind, uint64_t offset, uint64_t c1)
{
    struct pil_encoded encoded = pil_encode(kind, offset, c1);

    check(what, encoded.refusal, PIL_BAD_FRAME);
    check(what, encoded.frame, 0);
}

static void codes(void)
{
    encodes("DAB 41", PIL_KIND_DAB, 0x41, 0, 0x041);
    encodes("DAB 41, C1 1", PIL_KIND_DAB, 0x41, 1, 0x141);
    encodes("END ff, C1 1", PIL_KIND_END, 0xff, 1, 0x3ff);
    encodes("LAD 30", PIL_KIND_LAD, 30, 0, 0x43e);
    encodes("UNL", PIL_KIND_UNL, 0, 0, 0x43f);
    encodes("TAD 5", PIL_KIND_TAD, 5, 0, 0x445);
    encodes("PPE 13", PIL_KIND_PPE, 13, 0, 0x48d);
    encodes("IAA", PIL_KIND_IAA, 0, 0, 0x59f);
    encodes("IDY 0, C1 1", PIL_KIND_IDY, 0, 1, 0x700);
    encodes("IDY 255, C1 1", PIL_KIND_IDY, 255, 1, 0x7ff);
    decodes("545, no message", 0x545, PIL_KIND_NONE, 0, 0);
    check("decode 2,048", pil_decode(2048).refusal, PIL_BAD_FRAME);
    not_encoded("kind 0", PIL_KIND_NONE, 0, 0);
    not_encoded("kind 43", PIL_KINDS, 0, 0);
    not_encoded("DAB 256", PIL_KIND_DAB, 256, 0);
    not_encoded("LAD 31", PIL_KIND_LAD, 31, 0);
    not_encoded("LAD 0, C1 1", PIL_KIND_LAD, 0, 1);
    not_encoded("DAB 0, C1 2", PIL_KIND_DAB, 0, 2);
}

int main(void)
{
    address_rows();
    data_rows();
    choice_cases();
    service_rows();
    remote_rows();
    no_listener_cases();
    key_refusals();
    event_cases();
    event_stop_cases();
    answer_rows();
    telling_rows();
    untold_cases();
    poll_status_cases();
    poll_soundness();
    item_cases();
    rack_cases();
    count_cases();
    extended_cases();
    limits();
    owed_cases();
    walk_cases();
    save_cases();
    open_cases();
    old_save_cases();
    codes();
    if (failed)
        return 1;
    printf("smoke: %d checks hold\n", held);
    return 0;
}
