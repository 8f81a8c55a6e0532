/* Random material for histories. Choices lean towards what brings devices into all their states. */
#include "chance.h"
#include "model.h"

#include <string.h>

static uint64_t state;

void chance_seed(uint64_t seed)
{
    state = seed;
}

/* SplitMix64: every seed serves, and equal seeds give equal histories on every machine. */
uint64_t chance(void)
{
    uint64_t z = state += 0x9e3779b97f4a7c15;

    z = (z ^ z >> 30) * 0xbf58476d1ce4e5b9;
    z = (z ^ z >> 27) * 0x94d049bb133111eb;
    return z ^ z >> 31;
}

unsigned below(unsigned n)
{
    return (unsigned)((chance() >> 32) * n >> 32);
}

int one_in(unsigned n)
{
    return below(n) == 0;
}

void chance_bytes(uint8_t *bytes, size_t length)
{
    for (size_t i = 0; i < length; i++)
        bytes[i] = (uint8_t)chance();
}

uint64_t wild_number(uint64_t good)
{
    static const uint64_t limits[] = {0, 1, 15, 16, 31, 32, 42, 43, 255, 256, 2047, 2048, 65535, 65536,
                                      UINT32_MAX, (uint64_t)UINT32_MAX + 1, INT64_MAX, UINT64_MAX};
    uint64_t any = chance();
    uint64_t high = 1 + below(255);

    switch (below(5)) {
    case 0: return good + (high << 8 * (1 + below(7)));
    case 1: return good + 1;
    case 2: return good - 1;
    case 3: return any >> below(64);
    default: return limits[below(sizeof limits / sizeof *limits)];
    }
}

uint8_t damaged_value(uint8_t good)
{
    static const uint8_t limits[] = {0, 1, 2, 3, 4, 5, 6, 7, 8, 9, 15, 16, 30, 31, 32, 33, 128, 255};

    switch (below(4)) {
    case 0: return (uint8_t)(good ^ 1u << below(8));
    case 1: return (uint8_t)(good + (one_in(2) ? 1 : -1));
    case 2: return limits[below(sizeof limits)];
    default: return (uint8_t)chance();
    }
}

unsigned chance_devices(void)
{
    if (one_in(10))
        return one_in(2) ? PIL_MOST_DEVICES : 1 + below(PIL_MOST_DEVICES);
    return 1 + below(one_in(4) ? 8 : 4);
}

/* Items. */

static const unsigned replies = PIL_ABILITY_DATA | PIL_ABILITY_STATUS | PIL_ABILITY_ID | PIL_ABILITY_ACCESSORY;

static unsigned chance_abilities(void)
{
    unsigned abilities = one_in(2) ? 0xff : below(256);

    if (one_in(10))
        abilities &= ~replies;
    if (one_in(3))
        abilities &= ~(unsigned)PIL_ABILITY_UNADDRESS;
    if (!(abilities & PIL_ABILITY_STATUS))
        abilities &= ~(unsigned)PIL_ABILITY_SERVICE;
    if (!(abilities & PIL_ABILITY_LISTEN) || !(abilities & replies))
        abilities &= ~(unsigned)PIL_ABILITY_UNADDRESS;
    return abilities;
}

/* Small addresses mostly, so that devices, LAD, TAD and SAD meet; the last ones for the end of the range. */
static unsigned chance_address(void)
{
    switch (below(5)) {
    case 0: return below(31);
    case 1: return 28 + below(3);
    default: return below(5);
    }
}

size_t chance_item_length(void)
{
    if (one_in(5))
        return PIL_ITEM_LENGTH;
    return one_in(4) ? PIL_POLL_ITEM_LENGTH : PIL_EXTENDED_ITEM_LENGTH;
}

/* Half of the devices are extended, and some more than half can be polled. */
static unsigned chance_more(void)
{
    static const uint8_t mores[] = {0, PIL_MORE_POLL, PIL_MORE_POLL, PIL_MORE_POLL, PIL_MORE_EXTENDED,
                                    PIL_MORE_EXTENDED, PIL_MORE_POLL | PIL_MORE_EXTENDED,
                                    PIL_MORE_POLL | PIL_MORE_EXTENDED};

    return mores[below(sizeof mores)];
}

/* An extended device has no auto address, and a second address where the item is long enough. */
static void chance_extended_item(uint8_t *item, size_t length)
{
    item[PIL_ITEM_ABILITIES] &= (uint8_t)~PIL_ABILITY_AUTO_ADDRESS;
    if (length > PIL_ITEM_SECOND)
        item[PIL_ITEM_SECOND] = (uint8_t)(one_in(4) ? PIL_NO_ADDRESS : chance_address());
}

static void chance_item(uint8_t *item, size_t length)
{
    memset(item, 0, length);
    item[PIL_ITEM_ABILITIES] = (uint8_t)chance_abilities();
    item[PIL_ITEM_FIXED] = (uint8_t)(one_in(2) ? PIL_NO_ADDRESS : chance_address());
    item[PIL_ITEM_ACCESSORY] = (uint8_t)chance();
    item[PIL_ITEM_ID_LENGTH] = (uint8_t)below(PIL_MOST_ID + 1);
    chance_bytes(item + PIL_ITEM_ID, item[PIL_ITEM_ID_LENGTH]);
    if (length > PIL_ITEM_MORE)
        item[PIL_ITEM_MORE] = (uint8_t)chance_more();
    if (length > PIL_ITEM_MORE && item[PIL_ITEM_MORE] & PIL_MORE_EXTENDED)
        chance_extended_item(item, length);
}

void chance_items(uint8_t *items, unsigned n, size_t length)
{
    for (unsigned i = 0; i < n; i++)
        chance_item(items + i * length, length);
}

/* What makes an item longer than 12 bytes not allowed: further abilities that there are not, both ways to get an
   address, or a second address that is none or that a simple device has. */
static void spoil_longer_item(uint8_t *item, size_t length)
{
    switch (below(length > PIL_ITEM_SECOND ? 4 : 2)) {
    case 0: item[PIL_ITEM_MORE] = (uint8_t)(one_in(2) ? 4 : 4 + below(252)); break;
    case 1:
        item[PIL_ITEM_MORE] |= PIL_MORE_EXTENDED;
        item[PIL_ITEM_ABILITIES] |= PIL_ABILITY_AUTO_ADDRESS;
        break;
    case 2: item[PIL_ITEM_SECOND] = (uint8_t)(one_in(2) ? 32 : 32 + below(224)); break;
    default:
        item[PIL_ITEM_MORE] &= (uint8_t)~PIL_MORE_EXTENDED;
        item[PIL_ITEM_SECOND] = (uint8_t)(1 + below(31));
    }
}

void spoil_item(uint8_t *item, size_t length)
{
    static const uint8_t not_allowed[] = {
        PIL_ABILITY_SERVICE, 0xff - PIL_ABILITY_STATUS, PIL_ABILITY_UNADDRESS, 0x7f - PIL_ABILITY_LISTEN,
        PIL_ABILITY_UNADDRESS | PIL_ABILITY_LISTEN, PIL_ABILITY_UNADDRESS | PIL_ABILITY_DATA,
        PIL_ABILITY_UNADDRESS | PIL_ABILITY_AUTO_ADDRESS | PIL_ABILITY_LISTEN};
    unsigned id_length = below(PIL_MOST_ID);
    unsigned past = id_length + below(PIL_MOST_ID - id_length);

    if (length > PIL_ITEM_MORE && one_in(2)) {
        spoil_longer_item(item, length);
        return;
    }
    switch (below(4)) {
    case 0: item[PIL_ITEM_ABILITIES] = not_allowed[below(sizeof not_allowed)]; break;
    case 1: item[PIL_ITEM_FIXED] = (uint8_t)(one_in(2) ? 32 : 32 + below(224)); break;
    case 2: item[PIL_ITEM_ID_LENGTH] = (uint8_t)(one_in(2) ? 9 : 9 + below(247)); break;
    default:
        item[PIL_ITEM_ID_LENGTH] = (uint8_t)id_length;
        item[PIL_ITEM_ID + past] = (uint8_t)(1 + below(255));
    }
}

/* Frames. */

unsigned frame_at(const uint8_t *bytes)
{
    return bytes[0] | (unsigned)bytes[1] << 8;
}

static unsigned code(unsigned kind)
{
    return model_encode(kind, 0, 0).frame;
}

static const uint8_t *chance_record(const uint8_t *area)
{
    return area + PIL_RECORD_AT(below(area[PIL_HEADER_DEVICES]));
}

/* The address that some device has now. */
static unsigned address_in_use(const uint8_t *area)
{
    unsigned address = chance_record(area)[PIL_RECORD_ADDRESS];

    return address < PIL_NO_ADDRESS ? address : chance_address();
}

/* A byte on its way back to a device that sends: as sent, or with another data bit, C1, C2 or both. */
static unsigned returned_byte(unsigned frame)
{
    switch (below(12)) {
    case 0: return frame ^ 1u << below(8);
    case 1: return frame ^ PIL_C1;
    case 2: return frame ^ PIL_C2;
    case 3: return frame ^ (PIL_C1 | PIL_C2);
    default: return frame;
    }
}

/* What the talker with this record waits for: the byte it sent last, an NRD, or a frame that asks for a reply, for data
   mostly where some is left. */
static unsigned awaited_frame(const uint8_t *r)
{
    int data_left = r[PIL_RECORD_SENT] < r[PIL_RECORD_DATA_LENGTH];

    if (r[PIL_RECORD_TALKER] == PIL_TALKER_ADDRESSED)
        return code(PIL_KIND_SDA) + (data_left && one_in(2) ? 0 : below(4));
    if (one_in(12))
        return code(PIL_KIND_NRD);
    return returned_byte(frame_at(r + PIL_RECORD_LAST));
}

/* A device's record, if possible a talker's. */
static const uint8_t *chance_talker_record(const uint8_t *area)
{
    unsigned n = area[PIL_HEADER_DEVICES], start = below(n);

    for (unsigned i = 0; i < n; i++) {
        const uint8_t *r = area + PIL_RECORD_AT((start + i) % n);

        if (r[PIL_RECORD_TALKER] != PIL_TALKER_IDLE)
            return r;
    }
    return area + PIL_RECORD_AT(start);
}

static unsigned single_command(void)
{
    static const uint8_t kinds[] = {PIL_KIND_UNL, PIL_KIND_UNT, PIL_KIND_IFC, PIL_KIND_AAU, PIL_KIND_AAU,
                                    PIL_KIND_NUL, PIL_KIND_RFC, PIL_KIND_ETO, PIL_KIND_ETE, PIL_KIND_TCT,
                                    PIL_KIND_IAA};

    return code(kinds[below(sizeof kinds)]);
}

/* The commands of 02, d, and IFC: for a device that listens mostly one of those that need this, else REN more often
   than NRE, which undoes the others. */
static unsigned remote_command(const uint8_t *r)
{
    static const uint8_t addressed[] = {PIL_KIND_GTL, PIL_KIND_SDC, PIL_KIND_GET};
    static const uint8_t all[] = {PIL_KIND_REN, PIL_KIND_REN, PIL_KIND_NRE, PIL_KIND_LLO, PIL_KIND_LLO, PIL_KIND_DCL,
                                  PIL_KIND_GTL, PIL_KIND_SDC, PIL_KIND_GET, PIL_KIND_IFC};

    if (r[PIL_RECORD_LISTENER] && !one_in(4))
        return code(addressed[below(sizeof addressed)]);
    return code(all[below(sizeof all)]);
}

/* The frames of 02, f, and IFC: for a device told how to answer often an IDY, else PPE as often as all the rest. */
static unsigned poll_frame(const uint8_t *r)
{
    static const uint8_t others[] = {PIL_KIND_PPD, PIL_KIND_PPD, PIL_KIND_PPU, PIL_KIND_PPU, PIL_KIND_IFC};

    if (r[PIL_RECORD_POLL] != PIL_POLL_NONE && one_in(2))
        return code(PIL_KIND_IDY) + (one_in(3) ? 0 : below(0x200));
    if (one_in(2))
        return code(others[below(sizeof others)]);
    return code(PIL_KIND_PPE) + below(16);
}

/* Extended devices. */

static int is_extended(const uint8_t *r)
{
    return (r[PIL_RECORD_MORE] & PIL_MORE_EXTENDED) != 0;
}

/* A primary has been received, and the second address may come. */
static int awaits_second(const uint8_t *r)
{
    return ((r[PIL_RECORD_FIXED_SECOND] | r[PIL_RECORD_SECOND]) & PIL_PRIMARY_RECEIVED) != 0;
}

/* An extended device's record, if possible of one that has received a primary; NULL if there is none. */
static const uint8_t *chance_extended_record(const uint8_t *area)
{
    unsigned n = area[PIL_HEADER_DEVICES], start = below(n);
    const uint8_t *found = NULL;

    for (unsigned i = 0; i < n; i++) {
        const uint8_t *r = area + PIL_RECORD_AT((start + i) % n);

        if (is_extended(r) && (!found || (awaits_second(r) && !awaits_second(found))))
            found = r;
    }
    return found;
}

/* A LAD or TAD, mostly the device's own. */
static unsigned primary_frame(const uint8_t *r)
{
    unsigned kind = one_in(2) ? PIL_KIND_LAD : PIL_KIND_TAD;
    int own = r[PIL_RECORD_ADDRESS] < PIL_NO_ADDRESS && !one_in(5);

    return code(kind) + (own ? r[PIL_RECORD_ADDRESS] : chance_address());
}

/* A SAD, mostly the device's own; for a simple one that of its only address. */
static unsigned second_frame(const uint8_t *r)
{
    unsigned second = is_extended(r) ? r[PIL_RECORD_SECOND] & PIL_SECOND_ADDRESS : r[PIL_RECORD_ADDRESS];

    return code(PIL_KIND_SAD) + (second < PIL_NO_ADDRESS && !one_in(3) ? second : chance_address());
}

/* A frame of the automatic addresses: for a device that waits for one of these mostly that. */
static unsigned assigning_frame(const uint8_t *r)
{
    static const uint8_t awaited[] = {PIL_KIND_AES, PIL_KIND_AAU, PIL_KIND_AEP};
    static const uint8_t all[] = {PIL_KIND_AES, PIL_KIND_IES, PIL_KIND_AEP, PIL_KIND_IEP, PIL_KIND_AAD, PIL_KIND_IAA,
                                  PIL_KIND_AAU};
    unsigned kind = one_in(2) ? awaited[r[PIL_RECORD_CONFIGURED] % sizeof awaited] : all[below(sizeof all)];

    if (kind == PIL_KIND_AES || kind == PIL_KIND_AEP || kind == PIL_KIND_AAD)
        return code(kind) + chance_address();
    return code(kind);
}

/* A frame that may come between a primary and its second address: each command, and frames that are none. */
static unsigned frame_between(const uint8_t *r)
{
    static const uint16_t no_commands[] = {0x402, 0x410, 0x47f, 0x491, 0x49f, 0x4ff};
    unsigned kind = PIL_KIND_NUL + below(PIL_KIND_DDT - PIL_KIND_NUL + 5);

    switch (kind) {
    case PIL_KIND_LAD:
    case PIL_KIND_TAD: return primary_frame(r);
    case PIL_KIND_SAD: return second_frame(r);
    case PIL_KIND_PPE: return code(kind) + below(16);
    case PIL_KIND_DDL:
    case PIL_KIND_DDT: return code(kind) + below(32);
    case PIL_KIND_DDT + 1: return no_commands[below(sizeof no_commands / sizeof *no_commands)];
    case PIL_KIND_DDT + 2: return code(PIL_KIND_RFC) + below(256);
    case PIL_KIND_DDT + 3: return code(PIL_KIND_IDY) + below(0x200);
    case PIL_KIND_DDT + 4: return below(0x400);
    default: return code(kind);
    }
}

/* What suits an extended device: the second half of an address, or a command before it; else the first half of one, or
   an assignment. */
static unsigned extended_frame(const uint8_t *r)
{
    if (awaits_second(r) && !one_in(4))
        return one_in(2) ? second_frame(r) : frame_between(r);
    switch (below(8)) {
    case 0:
    case 1:
    case 2: return primary_frame(r);
    case 3: return second_frame(r);
    case 4:
    case 5:
    case 6: return assigning_frame(r);
    default: return frame_between(r);
    }
}

/* What a step of a script sends. */
enum step { PRIMARY, SECOND, BETWEEN, ASSIGNING, AWAITED };

unsigned chance_script_frame(const uint8_t *r, unsigned script, unsigned step)
{
    static const uint8_t scripts[SCRIPTS][STEPS] = {
        {PRIMARY, SECOND, AWAITED, AWAITED}, {PRIMARY, BETWEEN, SECOND, AWAITED}, {SECOND, PRIMARY, SECOND, SECOND},
        {BETWEEN, PRIMARY, PRIMARY, SECOND}, {ASSIGNING, ASSIGNING, BETWEEN, SECOND},
        {PRIMARY, ASSIGNING, SECOND, AWAITED}, {AWAITED, AWAITED, AWAITED, SECOND}, {BETWEEN, SECOND, ASSIGNING, SECOND}
    };

    switch (scripts[script][step]) {
    case PRIMARY: return primary_frame(r);
    case SECOND: return second_frame(r);
    case BETWEEN: return frame_between(r);
    case ASSIGNING: return assigning_frame(r);
    default: return r[PIL_RECORD_TALKER] == PIL_TALKER_IDLE ? extended_frame(r) : awaited_frame(r);
    }
}

unsigned chance_frame(const uint8_t *area, unsigned taken)
{
    const uint8_t *r = chance_talker_record(area), *extended = chance_extended_record(area);
    unsigned choice = below(100);

    if (extended && one_in(6))
        return extended_frame(extended);
    if (r[PIL_RECORD_TALKER] != PIL_TALKER_IDLE && below(5) < 3)
        return awaited_frame(r);
    if (choice < 30 && taken < code(PIL_KIND_NUL))
        return returned_byte(taken);
    if (choice < 15)
        return remote_command(chance_record(area));
    if (choice < 32)
        return poll_frame(chance_record(area));
    if (choice < 52)
        return code(PIL_KIND_TAD) + (one_in(5) ? below(31) : address_in_use(area));
    if (choice < 64)
        return code(PIL_KIND_LAD) + (one_in(5) ? below(31) : address_in_use(area));
    if (choice < 73)
        return code(PIL_KIND_SDA) + below(4);
    if (choice < 80)
        return code(PIL_KIND_AAD) + chance_address();
    if (choice < 82)
        return code(PIL_KIND_NRD);
    if (choice < 88)
        return code(PIL_KIND_IDY) + below(0x200);
    if (choice < 91)
        return below(0x400);
    if (choice < 93)
        return single_command();
    if (choice < 96)
        return remote_command(chance_record(area));
    if (choice < 98)
        return poll_frame(chance_record(area));
    return below(PIL_FRAMES);
}

/* Sound areas made up. */

/* A talker state that the record's abilities and lengths allow. */
static unsigned chance_talker(const uint8_t *r)
{
    unsigned abilities = r[PIL_RECORD_ABILITIES];

    switch (below(7)) {
    case 0: return abilities & replies ? PIL_TALKER_ADDRESSED : PIL_TALKER_IDLE;
    case 1:
    case 2: return r[PIL_RECORD_DATA_LENGTH] ? PIL_TALKER_DATA : PIL_TALKER_IDLE;
    case 3: return abilities & PIL_ABILITY_STATUS ? PIL_TALKER_STATUS : PIL_TALKER_IDLE;
    case 4: return abilities & PIL_ABILITY_ID && r[PIL_RECORD_ID_LENGTH] ? PIL_TALKER_ID : PIL_TALKER_IDLE;
    case 5: return abilities & PIL_ABILITY_ACCESSORY ? PIL_TALKER_ACCESSORY : PIL_TALKER_IDLE;
    default: return PIL_TALKER_IDLE;
    }
}

/* Bytes of the data sent: often all but the last. */
static unsigned chance_sent(unsigned length, unsigned least)
{
    return length > least && one_in(2) ? length - 1 : least + below(length + 1 - least);
}

static void chance_reply(uint8_t *r)
{
    unsigned talker = chance_talker(r);
    unsigned last = below(0x400);

    r[PIL_RECORD_TALKER] = (uint8_t)talker;
    if (talker < PIL_TALKER_DATA)
        return;
    r[PIL_RECORD_NRD] = (uint8_t)one_in(4);
    r[PIL_RECORD_LAST] = (uint8_t)last;
    r[PIL_RECORD_LAST + 1] = (uint8_t)(last >> 8);
    if (talker == PIL_TALKER_DATA)
        r[PIL_RECORD_SENT] = (uint8_t)chance_sent(r[PIL_RECORD_DATA_LENGTH], 1);
    else if (talker == PIL_TALKER_ID)
        r[PIL_RECORD_REPLY_SENT] = (uint8_t)(1 + below(r[PIL_RECORD_ID_LENGTH]));
    else
        r[PIL_RECORD_REPLY_SENT] = 1;
}

void chance_poll(uint8_t *r)
{
    r[PIL_RECORD_POLL] = (uint8_t)(below(5) < 2 ? PIL_POLL_NONE : PIL_POLL_CONFIGURED + below(16));
    r[PIL_RECORD_POLL_STATUS] = (uint8_t)below(2);
}

void chance_assigned(uint8_t *r)
{
    unsigned fixed = r[PIL_RECORD_FIXED_SECOND] & PIL_SECOND_ADDRESS, state = below(PIL_HALF_ASSIGNED + 1);
    unsigned second = state == PIL_UNCONFIGURED ? fixed : chance_address();

    r[PIL_RECORD_ADDRESS] = state == PIL_UNCONFIGURED ? r[PIL_RECORD_FIXED] : (uint8_t)chance_address();
    if (state == PIL_HALF_ASSIGNED && one_in(3))
        second = PIL_NO_ADDRESS;
    if (state == PIL_HALF_ASSIGNED && one_in(3))
        r[PIL_RECORD_ADDRESS] = PIL_NO_ADDRESS;
    r[PIL_RECORD_CONFIGURED] = (uint8_t)state;
    r[PIL_RECORD_FIXED_SECOND] = (uint8_t)(fixed + PIL_PRIMARY_RECEIVED * below(2));
    r[PIL_RECORD_SECOND] = (uint8_t)(second + PIL_PRIMARY_RECEIVED * below(2));
}

/* A sound record in any state, of the device that the item sets up. */
static void chance_record_of(const uint8_t *item, uint8_t *r)
{
    unsigned abilities;

    memset(r, 0, PIL_RECORD_LENGTH);
    r[PIL_RECORD_ABILITIES] = item[PIL_ITEM_ABILITIES];
    r[PIL_RECORD_MORE] = item[PIL_ITEM_MORE];
    r[PIL_RECORD_FIXED] = r[PIL_RECORD_ADDRESS] = item[PIL_ITEM_FIXED];
    r[PIL_RECORD_ACCESSORY] = item[PIL_ITEM_ACCESSORY];
    r[PIL_RECORD_ID_LENGTH] = item[PIL_ITEM_ID_LENGTH];
    memcpy(r + PIL_RECORD_ID, item + PIL_ITEM_ID, PIL_MOST_ID);
    r[PIL_RECORD_FIXED_SECOND] = r[PIL_RECORD_SECOND] = item[PIL_ITEM_SECOND];
    abilities = r[PIL_RECORD_ABILITIES];
    if (is_extended(r))
        chance_assigned(r);
    if (abilities & PIL_ABILITY_AUTO_ADDRESS && one_in(2)) {
        r[PIL_RECORD_CONFIGURED] = 1;
        r[PIL_RECORD_ADDRESS] = (uint8_t)chance_address();
    }
    r[PIL_RECORD_LISTENER] = abilities & PIL_ABILITY_LISTEN && one_in(2);
    r[PIL_RECORD_SERVICE] = (uint8_t)(abilities & PIL_ABILITY_SERVICE ? below(3) : 0);
    r[PIL_RECORD_STATUS] = (uint8_t)chance();
    if (abilities & PIL_ABILITY_DATA) {
        r[PIL_RECORD_DATA_LENGTH] = (uint8_t)below(one_in(2) ? 4 : PIL_MOST_DATA + 1);
        r[PIL_RECORD_SENT] = (uint8_t)chance_sent(r[PIL_RECORD_DATA_LENGTH], 0);
        chance_bytes(r + PIL_RECORD_DATA, r[PIL_RECORD_DATA_LENGTH]);
    }
    r[PIL_RECORD_REMOTE] = (uint8_t)below(PIL_REMOTE_LOCKED + 1);
    r[PIL_RECORD_ENABLED] = (uint8_t)below(2);
    r[PIL_RECORD_END] = (uint8_t)below(2);
    if (r[PIL_RECORD_MORE] & PIL_MORE_POLL)
        chance_poll(r);
    chance_reply(r);
}

static void chance_sound_record(uint8_t *r)
{
    uint8_t item[PIL_EXTENDED_ITEM_LENGTH];

    chance_item(item, sizeof item);
    chance_record_of(item, r);
}

void chance_extended(uint8_t *r)
{
    uint8_t item[PIL_EXTENDED_ITEM_LENGTH];

    chance_item(item, sizeof item);
    item[PIL_ITEM_MORE] |= PIL_MORE_EXTENDED;
    chance_extended_item(item, sizeof item);
    chance_record_of(item, r);
}

void chance_sound_area(uint8_t *area, unsigned n)
{
    memset(area, 0, PIL_AREA_LENGTH(n));
    area[PIL_HEADER_DEVICES] = (uint8_t)n;
    for (unsigned i = 0; i < n; i++)
        chance_sound_record(area + PIL_RECORD_AT(i));
    for (unsigned i = 0; i <= n; i++) {
        uint8_t *link = area + PIL_LINK_AT(n, i);

        link[PIL_LINK_COUNT] = (uint8_t)below(PIL_LINK_DEPTH + 1);
        for (unsigned k = 0; k < link[PIL_LINK_COUNT]; k++) {
            unsigned frame = chance_frame(area, below(0x400));

            link[PIL_LINK_FRAMES + 2 * k] = (uint8_t)frame;
            link[PIL_LINK_FRAMES + 2 * k + 1] = (uint8_t)(frame >> 8);
        }
    }
}
