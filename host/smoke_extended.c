/* Extended addresses through libpil.a (02, i; 001, 2.7, 2.8 and 2.15): three sensors behind one primary address with a
   simple printer behind them, row by row, and one sensor alone in the states that rows do not reach. */
#include "pil.h"
#include "smoke.h"

#include <stdio.h>
#include <string.h>

enum {
    SENSORS = 3, PRINTER = 3, DEVICES = 4,
    SENSOR = 0xff - PIL_ABILITY_AUTO_ADDRESS, /* all that an extended device can have */
    PRINTS = PIL_ABILITY_LISTEN | PIL_ABILITY_STATUS | PIL_ABILITY_AUTO_ADDRESS
};

static uint8_t rack[PIL_AREA_LENGTH(DEVICES)], one[PIL_AREA_LENGTH(1)];
static uint8_t *const sensor = one + PIL_RECORD_AT(0);

/* Sensors without an address, and a printer that AAD 6 gives one. The sensors can do the same, but for the given. */
static void set_up_rack(unsigned without)
{
    uint8_t items[PIL_EXTENDED_ITEMS_LENGTH(DEVICES)] = {0};

    for (unsigned i = 0; i < DEVICES; i++) {
        uint8_t *item = items + PIL_EXTENDED_ITEM_AT(i);

        item[PIL_ITEM_ABILITIES] = (uint8_t)(i < SENSORS ? SENSOR - without : PRINTS);
        item[PIL_ITEM_FIXED] = PIL_NO_ADDRESS;
        item[PIL_ITEM_MORE] = i < SENSORS ? PIL_MORE_EXTENDED : 0;
        item[PIL_ITEM_SECOND] = i < SENSORS ? PIL_NO_ADDRESS : 0;
    }
    check("set-up of the rack", pil_set_up(rack, sizeof rack, items, sizeof items), PIL_ACCEPTED);
}

/* Sends a frame right round; a byte handed or an event stops no hop here. */
static unsigned round_rack(unsigned frame)
{
    check("put", pil_put(rack, sizeof rack, frame), PIL_ACCEPTED);
    for (unsigned i = 0; i < DEVICES; i++)
        check("hop", pil_hop(rack, sizeof rack, i).refusal, PIL_ACCEPTED);
    return pil_take(rack, sizeof rack).frame;
}

static unsigned byte_of(unsigned device, unsigned place)
{
    return rack[PIL_RECORD_AT(device) + place];
}

/* Assigning: what comes out, and then of each sensor byte 3, the address now and the second address now. */
static const struct {
    const char *what;
    unsigned frame, out;
    uint8_t sensors[SENSORS][3];
    uint8_t printer; /* its address now */
} assigning[] = {
    {"power-on", 0x400, 0x400, {{0, 31, 31}, {0, 31, 31}, {0, 31, 31}}, 31},
    {"AAU from 0", 0x49a, 0x49a, {{0, 31, 31}, {0, 31, 31}, {0, 31, 31}}, 31},
    {"IES", 0x5df, 0x5df, {{0, 31, 31}, {0, 31, 31}, {0, 31, 31}}, 31},
    {"AEP 5 at 0", 0x5a5, 0x5a5, {{0, 31, 31}, {0, 31, 31}, {0, 31, 31}}, 31},
    {"AES 0", 0x5c0, 0x5c3, {{2, 31, 0}, {2, 31, 1}, {2, 31, 2}}, 31},
    {"AES 9 at 2", 0x5c9, 0x5c9, {{2, 31, 0}, {2, 31, 1}, {2, 31, 2}}, 31},
    {"IEP at 2", 0x5bf, 0x5bf, {{2, 31, 0}, {2, 31, 1}, {2, 31, 2}}, 31},
    {"AAD 6 at 2", 0x586, 0x587, {{2, 31, 0}, {2, 31, 1}, {2, 31, 2}}, 6},
    {"AEP 5", 0x5a5, 0x5a5, {{1, 5, 0}, {1, 5, 1}, {1, 5, 2}}, 6},
    {"AEP 8 at 1", 0x5a8, 0x5a8, {{1, 5, 0}, {1, 5, 1}, {1, 5, 2}}, 6},
    {"AES 0 at 1", 0x5c0, 0x5c0, {{1, 5, 0}, {1, 5, 1}, {1, 5, 2}}, 6},
    {"AAD 1 at 1", 0x581, 0x581, {{1, 5, 0}, {1, 5, 1}, {1, 5, 2}}, 6},
    {"AAU from 1", 0x49a, 0x49a, {{0, 31, 31}, {0, 31, 31}, {0, 31, 31}}, 31},
    {"AAD 6 at 0", 0x586, 0x587, {{0, 31, 31}, {0, 31, 31}, {0, 31, 31}}, 6},
    {"AES 30", 0x5de, 0x5df, {{2, 31, 30}, {0, 31, 31}, {0, 31, 31}}, 6},
    {"AEP 30", 0x5be, 0x5be, {{1, 30, 30}, {0, 31, 31}, {0, 31, 31}}, 6},
    {"AES 29", 0x5dd, 0x5df, {{1, 30, 30}, {2, 31, 29}, {2, 31, 30}}, 6},
    {"AAU from 1 and 2", 0x49a, 0x49a, {{0, 31, 31}, {0, 31, 31}, {0, 31, 31}}, 31},
    {"AES 7", 0x5c7, 0x5ca, {{2, 31, 7}, {2, 31, 8}, {2, 31, 9}}, 31},
    {"AEP 0", 0x5a0, 0x5a0, {{1, 0, 7}, {1, 0, 8}, {1, 0, 9}}, 31},
};

static void assigning_rows(void)
{
    set_up_rack(0);
    for (unsigned k = 0; k < sizeof assigning / sizeof *assigning; k++) {
        check(assigning[k].what, round_rack(assigning[k].frame), assigning[k].out);
        for (unsigned i = 0; i < SENSORS; i++) {
            check(assigning[k].what, byte_of(i, PIL_RECORD_CONFIGURED), assigning[k].sensors[i][0]);
            check(assigning[k].what, byte_of(i, PIL_RECORD_ADDRESS), assigning[k].sensors[i][1]);
            check(assigning[k].what, byte_of(i, PIL_RECORD_SECOND), assigning[k].sensors[i][2]);
            check(assigning[k].what, byte_of(i, PIL_RECORD_FIXED_SECOND), PIL_NO_ADDRESS);
        }
        check(assigning[k].what, byte_of(PRINTER, PIL_RECORD_ADDRESS), assigning[k].printer);
    }
}

/* Addressing, the sensors at 5 with 0, 1 and 2, the printer at 6: after each frame the talkers (t), the listeners (l)
   and the primaries received (T to talk, L to listen) among the four devices. */
struct addressing {
    unsigned frame;
    const char *talkers, *listeners, *primaries;
};

static const struct addressing addressing[] = {
    {0x460, "----", "----", "----"}, /* SAD without its primary */
    {0x445, "----", "----", "TTT-"}, /* TAD 5 alone makes no talker */
    {0x460, "t---", "----", "T---"}, /* SAD 0: the first one, and the others are not meant */
    {0x445, "t---", "----", "TTT-"}, /* TAD 5 again: it is still a talker .. */
    {0x461, "-t--", "----", "-T--"}, /* .. till SAD 1 */
    {0x462, "----", "----", "----"}, /* SAD 2 behind SAD 1: the third has forgotten its primary */
    {0x425, "----", "----", "LLL-"}, /* LAD 5, SAD 0: a listener */
    {0x460, "----", "l---", "L---"},
    {0x425, "----", "l---", "LLL-"}, /* LAD 5, SAD 2: one more, the first stays */
    {0x462, "----", "l-l-", "--L-"},
    {0x425, "----", "l-l-", "LLL-"}, /* LAD 5, NUL: broken */
    {0x400, "----", "l-l-", "----"},
    {0x461, "----", "l-l-", "----"},
    {0x445, "----", "l-l-", "TTT-"}, /* TAD 5, LAD 5, SAD 1: a listener alone */
    {0x425, "----", "l-l-", "LLL-"},
    {0x461, "----", "lll-", "-L--"},
    {0x425, "----", "lll-", "LLL-"}, /* LAD 5, TAD 5, SAD 1: a talker, and with 64 a listener no longer */
    {0x445, "----", "lll-", "TTT-"},
    {0x461, "-t--", "l-l-", "-T--"},
    {0x43f, "-t--", "----", "----"}, /* UNL */
    {0x445, "-t--", "----", "TTT-"}, /* TAD 5, and before SAD 2 a ready frame, data, IDY and no messages */
    {0x500, "-t--", "----", "TTT-"},
    {0x041, "-t--", "----", "TTT-"},
    {0x600, "-t--", "----", "TTT-"},
    {0x47f, "-t--", "----", "TTT-"},
    {0x402, "-t--", "----", "TTT-"},
    {0x462, "--t-", "----", "--T-"},
    {0x462, "--t-", "----", "--T-"}, /* SAD 2 again */
    {0x446, "---t", "----", "----"}, /* TAD 6: the printer talks, SAD is nothing to it */
    {0x460, "---t", "----", "----"},
    {0x426, "---t", "---l", "----"}, /* LAD 6 */
    {0x466, "---t", "---l", "----"},
    {0x425, "---t", "---l", "LLL-"}, /* LAD 5, SAD 0 beside the simple listener */
    {0x460, "---t", "l--l", "L---"},
    {0x445, "----", "l--l", "TTT-"}, /* TAD 5 is another's to the printer */
    {0x45f, "----", "l--l", "----"}, /* UNT */
    {0x460, "----", "l--l", "----"},
    {0x425, "----", "l--l", "LLL-"}, /* LAD 5, IFC */
    {0x490, "----", "----", "----"},
    {0x460, "----", "----", "----"},
};

/* The sensors with ability 64, and then without it: what its own SAD ends, or leaves. */
static const struct addressing unaddressing[] = {
    {0x445, "----", "----", "TTT-"}, {0x460, "t---", "----", "T---"}, /* talks */
    {0x425, "t---", "----", "LLL-"}, {0x460, "----", "l---", "L---"}, /* then listens, and talks no longer */
    {0x445, "----", "l---", "TTT-"}, {0x460, "t---", "----", "T---"}, /* then talks, and listens no longer */
};

static const struct addressing not_unaddressing[] = {
    {0x445, "----", "----", "TTT-"}, {0x460, "t---", "----", "T---"}, {0x425, "t---", "----", "LLL-"},
    {0x460, "t---", "l---", "L---"}, {0x445, "t---", "l---", "TTT-"}, {0x460, "t---", "l---", "T---"},
};

static void assigned_rack(unsigned without)
{
    set_up_rack(without);
    check("AES 0", round_rack(0x5c0), 0x5c3);
    check("AEP 5", round_rack(0x5a5), 0x5a5);
    check("AAD 6", round_rack(0x586), 0x587);
}

/* The device's letters in a row: T and L among the primaries. */
static unsigned primaries_of(char letter)
{
    return letter == 'L' ? 1 : letter == 'T' ? 2 : 0;
}

static void addressed(const char *what, const struct addressing *rows, size_t count)
{
    for (size_t k = 0; k < count; k++) {
        char where[40];

        snprintf(where, sizeof where, "%s, row %zu", what, k);
        round_rack(rows[k].frame);
        for (unsigned i = 0; i < DEVICES; i++) {
            unsigned received = byte_of(i, PIL_RECORD_FIXED_SECOND) / PIL_PRIMARY_RECEIVED
                              + byte_of(i, PIL_RECORD_SECOND) / PIL_PRIMARY_RECEIVED * 2;

            check(where, byte_of(i, PIL_RECORD_TALKER), rows[k].talkers[i] == 't');
            check(where, byte_of(i, PIL_RECORD_LISTENER), rows[k].listeners[i] == 'l');
            check(where, received, primaries_of(rows[k].primaries[i]));
        }
    }
}

static void addressing_rows(void)
{
    assigned_rack(0);
    addressed("addressing", addressing, sizeof addressing / sizeof *addressing);
    assigned_rack(0);
    addressed("with 64", unaddressing, sizeof unaddressing / sizeof *unaddressing);
    assigned_rack(PIL_ABILITY_UNADDRESS);
    addressed("without 64", not_unaddressing, sizeof not_unaddressing / sizeof *not_unaddressing);
}

/* One sensor at 5 with 0, fixed. */

static void one_sensor(unsigned abilities, unsigned more)
{
    uint8_t item[PIL_EXTENDED_ITEM_LENGTH] = {(uint8_t)abilities, 5, 0x50, 2, 'I', 'D',
                                              [PIL_ITEM_MORE] = (uint8_t)more};

    check("set-up of a sensor", pil_set_up(one, sizeof one, item, sizeof item), PIL_ACCEPTED);
}

/* Puts the frame, hops and takes: the frame sent. */
static unsigned sends(unsigned frame)
{
    check("put", pil_put(one, sizeof one, frame), PIL_ACCEPTED);
    check("hop", pil_hop(one, sizeof one, 0).refusal, PIL_ACCEPTED);
    return pil_take(one, sizeof one).frame;
}

/* A frame of every command, the second address and the own primaries left out; and frames that are none. */
static const uint16_t commands[] = {0x400, 0x401, 0x404, 0x405, 0x408, 0x411, 0x414, 0x415, 0x418, 0x426, 0x43f, 0x446,
                                    0x45f, 0x461, 0x480, 0x48f, 0x490, 0x492, 0x493, 0x49a, 0x49b, 0x4a0, 0x4bf, 0x4c0,
                                    0x4df};
static const uint16_t no_commands[] = {0x000, 0x3ff, 0x402, 0x47f, 0x491, 0x4ff, 0x500, 0x540, 0x542, 0x560, 0x564,
                                       0x581, 0x59f, 0x5a5, 0x5bf, 0x5df, 0x5e0, 0x5ff, 0x600, 0x7ff};

/* Own LAD and TAD, the frame, own SAD: a listener and a talker just where the frame breaks neither. */
static void broken_by(unsigned frame, unsigned expected)
{
    one_sensor(SENSOR - PIL_ABILITY_UNADDRESS, PIL_MORE_EXTENDED);
    check("LAD 5", sends(0x425), 0x425);
    check("a frame behind LAD", sends(frame), frame);
    check("SAD 0", sends(0x460), 0x460);
    check("LAD, a frame, SAD", sensor[PIL_RECORD_LISTENER], expected);
    one_sensor(SENSOR, PIL_MORE_EXTENDED);
    check("TAD 5", sends(0x445), 0x445);
    check("a frame behind TAD", sends(frame), frame);
    check("SAD 0", sends(0x460), 0x460);
    check("TAD, a frame, SAD", sensor[PIL_RECORD_TALKER], expected);
}

static void between_cases(void)
{
    for (unsigned i = 0; i < sizeof commands / sizeof *commands; i++)
        broken_by(commands[i], 0);
    for (unsigned i = 0; i < sizeof no_commands / sizeof *no_commands; i++)
        broken_by(no_commands[i], 1);
}

/* Both primaries or one of them, lent to sensors that cannot listen or talk. An own SAD keeps what it finds. */
static const struct {
    unsigned abilities;
    uint8_t listen, talk, listener, talker;
} lent[] = {
    {SENSOR, 0, 0, 0, 0}, {SENSOR, 1, 0, 1, 0}, {SENSOR, 0, 1, 0, 1}, {SENSOR, 1, 1, 0, 1},
    {SENSOR - PIL_ABILITY_UNADDRESS, 1, 1, 1, 1}, {PIL_ABILITY_LISTEN, 1, 1, 1, 0}, {PIL_ABILITY_DATA, 1, 1, 0, 1},
    {PIL_ABILITY_ACCESSORY, 0, 1, 0, 1}, {PIL_ABILITY_LISTEN, 0, 1, 0, 0}, {PIL_ABILITY_DATA, 1, 0, 0, 0},
    {0, 1, 1, 0, 0},
};

static void lent_rows(void)
{
    for (unsigned i = 0; i < sizeof lent / sizeof *lent; i++) {
        unsigned listen = PIL_PRIMARY_RECEIVED * lent[i].listen, talk = PIL_PRIMARY_RECEIVED * lent[i].talk;

        one_sensor(lent[i].abilities, PIL_MORE_EXTENDED);
        sensor[PIL_RECORD_FIXED_SECOND] = (uint8_t)listen;
        sensor[PIL_RECORD_SECOND] = (uint8_t)talk;
        check("SAD 0, lent primaries", sends(0x460), 0x460);
        check("lent primaries, listener", sensor[PIL_RECORD_LISTENER], lent[i].listener);
        check("lent primaries, talker", sensor[PIL_RECORD_TALKER], lent[i].talker);
        check("lent primaries, listen", sensor[PIL_RECORD_FIXED_SECOND], listen);
        check("lent primaries, talk", sensor[PIL_RECORD_SECOND], talk);
        check("own LAD", sends(0x425), 0x425);
        check("own LAD, listen", sensor[PIL_RECORD_FIXED_SECOND], lent[i].abilities & PIL_ABILITY_LISTEN ? 32 : 0);
        check("own LAD, talk", sensor[PIL_RECORD_SECOND], 0);
    }
}

/* Each request for a reply, and the state that it leads to. The own TAD leaves that, the own SAD ends it. */
static void sender_cases(void)
{
    for (unsigned i = 0; i < 4; i++) {
        one_sensor(SENSOR, PIL_MORE_EXTENDED);
        check("load", pil_load(one, sizeof one, 0, (const uint8_t *)"AB", 2, PIL_LAST_PLAIN), PIL_ACCEPTED);
        sends(0x445);
        sends(0x460);
        sends(0x560 + i);
        check("a reply under way", sensor[PIL_RECORD_TALKER], PIL_TALKER_DATA + i);
        check("NRD", sends(0x542), 0x542);
        check("own TAD while sending", sends(0x445), 0x445);
        check("own TAD while sending, talker", sensor[PIL_RECORD_TALKER], PIL_TALKER_DATA + i);
        check("own TAD while sending, NRD", sensor[PIL_RECORD_NRD], 1);
        check("own SAD while sending", sends(0x460), 0x460);
        check("own SAD while sending, talker", sensor[PIL_RECORD_TALKER], PIL_TALKER_ADDRESSED);
        check("own SAD while sending, NRD", sensor[PIL_RECORD_NRD], 0);
        check("own SAD while sending, last", sensor[PIL_RECORD_LAST] + sensor[PIL_RECORD_LAST + 1], 0);
        check("own SAD while sending, reply", sensor[PIL_RECORD_REPLY_SENT], 0);
        check("SDA goes on", sends(0x560), i == 0 ? 0x042 : 0x041);
        check("another's SAD while sending", sends(0x461), 0x461);
        check("another's SAD while sending, talker", sensor[PIL_RECORD_TALKER], PIL_TALKER_IDLE);
    }
}

/* The primary alone gives the loop control (02, d); PPE asks for a listener (02, f), and byte 7 has both abilities. */
static void with_d_and_f(void)
{
    one_sensor(SENSOR, PIL_MORE_EXTENDED | PIL_MORE_POLL);
    sends(0x492);
    sends(0x424);
    check("another's LAD, local", sensor[PIL_RECORD_REMOTE], PIL_LOCAL);
    sends(0x425);
    check("own LAD, remote", sensor[PIL_RECORD_REMOTE], PIL_REMOTE);
    check("own LAD, no listener", sensor[PIL_RECORD_LISTENER], 0);
    sends(0x488);
    check("PPE behind LAD", sensor[PIL_RECORD_POLL], PIL_POLL_NONE);
    sends(0x425);
    sends(0x460);
    sends(0x488);
    check("PPE behind LAD and SAD", sensor[PIL_RECORD_POLL], PIL_POLL_CONFIGURED + 8);
    check("poll status", pil_poll_status(one, sizeof one, 0, 1), PIL_ACCEPTED);
    check("IDY answered", sends(0x600), 0x601);
    one_sensor(SENSOR, PIL_MORE_EXTENDED);
    check("poll status, no poll", pil_poll_status(one, sizeof one, 0, 1), PIL_NO_ABILITY);
}

/* Soundness: a hop is refused with 2, or with 5 for want of a frame. */
static void judged(const char *what, unsigned place, unsigned value, unsigned refusal)
{
    uint8_t was = sensor[place];

    sensor[place] = (uint8_t)value;
    check(what, pil_hop(one, sizeof one, 0).refusal, refusal);
    sensor[place] = was;
}

static void soundness_cases(void)
{
    one_sensor(SENSOR, PIL_MORE_EXTENDED);
    judged("extended", PIL_RECORD_MORE, 2, PIL_EMPTY);
    judged("extended and polled", PIL_RECORD_MORE, 3, PIL_EMPTY);
    judged("further abilities 4", PIL_RECORD_MORE, 4, PIL_UNSOUND);
    judged("extended with auto address", PIL_RECORD_ABILITIES, 0xff, PIL_UNSOUND);
    judged("a listen primary", PIL_RECORD_FIXED_SECOND, 32, PIL_EMPTY);
    judged("byte 20 of 64", PIL_RECORD_FIXED_SECOND, 64, PIL_UNSOUND);
    judged("another fixed second address", PIL_RECORD_FIXED_SECOND, 1, PIL_UNSOUND);
    judged("a talk primary", PIL_RECORD_SECOND, 32, PIL_EMPTY);
    judged("byte 21 of 64", PIL_RECORD_SECOND, 64, PIL_UNSOUND);
    judged("byte 21 of 128", PIL_RECORD_SECOND, 128, PIL_UNSOUND);
    judged("unconfigured at another second address", PIL_RECORD_SECOND, 1, PIL_UNSOUND);
    judged("unconfigured at another address", PIL_RECORD_ADDRESS, 6, PIL_UNSOUND);
    judged("byte 3 of 3", PIL_RECORD_CONFIGURED, 3, PIL_UNSOUND);
    sensor[PIL_RECORD_CONFIGURED] = PIL_CONFIGURED;
    judged("configured", PIL_RECORD_ADDRESS, 30, PIL_EMPTY);
    judged("configured at 31", PIL_RECORD_ADDRESS, 31, PIL_UNSOUND);
    judged("configured at second 30", PIL_RECORD_SECOND, 30, PIL_EMPTY);
    judged("configured at second 31", PIL_RECORD_SECOND, 31, PIL_UNSOUND);
    judged("configured at second 31, a primary", PIL_RECORD_SECOND, 63, PIL_UNSOUND);
    judged("configured and simple", PIL_RECORD_MORE, 0, PIL_UNSOUND);
    sensor[PIL_RECORD_CONFIGURED] = PIL_HALF_ASSIGNED;
    judged("half assigned at 31", PIL_RECORD_ADDRESS, 31, PIL_EMPTY);
    judged("half assigned at 32", PIL_RECORD_ADDRESS, 32, PIL_UNSOUND);
    judged("half assigned at second 31", PIL_RECORD_SECOND, 31, PIL_EMPTY);
    judged("half assigned and simple", PIL_RECORD_MORE, 0, PIL_UNSOUND);
    sensor[PIL_RECORD_CONFIGURED] = PIL_UNCONFIGURED;
    sensor[PIL_RECORD_MORE] = 0;
    judged("simple", PIL_RECORD_SECOND, 0, PIL_EMPTY);
    judged("simple, byte 20", PIL_RECORD_FIXED_SECOND, 1, PIL_UNSOUND);
    judged("simple, byte 20 of 32", PIL_RECORD_FIXED_SECOND, 32, PIL_UNSOUND);
    judged("simple, byte 21", PIL_RECORD_SECOND, 1, PIL_UNSOUND);
    judged("simple, byte 21 of 32", PIL_RECORD_SECOND, 32, PIL_UNSOUND);
}

/* Half assigned at 31, as no AES makes it, a sensor waits for AAU. */
static void waits_for_aau(void)
{
    one_sensor(SENSOR, PIL_MORE_EXTENDED);
    sensor[PIL_RECORD_CONFIGURED] = PIL_HALF_ASSIGNED;
    sensor[PIL_RECORD_SECOND] = PIL_NO_ADDRESS + PIL_PRIMARY_RECEIVED;
    check("AEP at 31", sends(0x5a9), 0x5a9);
    check("AES at 31", sends(0x5c9), 0x5c9);
    check("AEP and AES at 31, byte 3", sensor[PIL_RECORD_CONFIGURED], PIL_HALF_ASSIGNED);
    check("AEP and AES at 31, address", sensor[PIL_RECORD_ADDRESS], 5);
    check("AEP and AES at 31, second", sensor[PIL_RECORD_SECOND], PIL_NO_ADDRESS + PIL_PRIMARY_RECEIVED);
    check("AAU at 31", sends(0x49a), 0x49a);
    check("AAU at 31, byte 3", sensor[PIL_RECORD_CONFIGURED], PIL_UNCONFIGURED);
    check("AAU at 31, second", sensor[PIL_RECORD_SECOND], 0);
    sensor[PIL_RECORD_SECOND] = PIL_PRIMARY_RECEIVED;
    check("AES keeps the primary", sends(0x5c9), 0x5ca);
    check("AES keeps the primary, second", sensor[PIL_RECORD_SECOND], PIL_PRIMARY_RECEIVED + 9);
}

static unsigned sets_up(size_t length, unsigned abilities, unsigned more, unsigned second)
{
    uint8_t item[PIL_EXTENDED_ITEM_LENGTH + 1] = {(uint8_t)abilities, 5, [PIL_ITEM_MORE] = (uint8_t)more,
                                                  (uint8_t)second};

    return pil_set_up(one, sizeof one, item, length);
}

static void item_cases(void)
{
    check("14 bytes, extended", sets_up(14, SENSOR, 2, 17), PIL_ACCEPTED);
    check("power-on, further abilities", sensor[PIL_RECORD_MORE], PIL_MORE_EXTENDED);
    check("power-on, fixed second", sensor[PIL_RECORD_FIXED_SECOND], 17);
    check("power-on, second", sensor[PIL_RECORD_SECOND], 17);
    check("power-on, byte 3", sensor[PIL_RECORD_CONFIGURED], PIL_UNCONFIGURED);
    check("14 bytes, second 31", sets_up(14, SENSOR, 3, 31), PIL_ACCEPTED);
    check("14 bytes, second 32", sets_up(14, SENSOR, 3, 32), PIL_UNSOUND);
    check("14 bytes, second 255", sets_up(14, SENSOR, 2, 255), PIL_UNSOUND);
    check("14 bytes, further 4", sets_up(14, SENSOR, 4, 0), PIL_UNSOUND);
    check("14 bytes, extended with auto address", sets_up(14, 0xff, 2, 0), PIL_UNSOUND);
    check("refused, the area", sensor[PIL_RECORD_SECOND], 31);
    check("14 bytes, simple", sets_up(14, 0xff, 1, 0), PIL_ACCEPTED);
    check("14 bytes, simple with a second", sets_up(14, SENSOR, 1, 1), PIL_UNSOUND);
    check("13 bytes, extended", sets_up(13, SENSOR, 2, 17), PIL_ACCEPTED);
    check("13 bytes, second", sensor[PIL_RECORD_SECOND], 0);
    check("13 bytes, extended with auto address", sets_up(13, 0xff, 3, 0), PIL_UNSOUND);
    check("12 bytes", sets_up(12, 0xff, 2, 17), PIL_ACCEPTED);
    check("12 bytes, simple", sensor[PIL_RECORD_MORE], 0);
    check("15 bytes", sets_up(15, SENSOR, 2, 17), PIL_SHAPE);
}

void extended_cases(void)
{
    assigning_rows();
    addressing_rows();
    between_cases();
    lent_rows();
    sender_cases();
    with_d_and_f();
    soundness_cases();
    waits_for_aau();
    item_cases();
}
