/* The model: each rule of the papers 01 and 02 as a small function named after it, straight on the bytes of the area.
   It is written from them alone and shares nothing with the library but the names in pil.h. */
#include "model.h"

#include <stdio.h>
#include <string.h>

#ifndef MODEL_FAULT
#define MODEL_FAULT 0
#endif

enum {
    REPLIES = PIL_ABILITY_DATA | PIL_ABILITY_STATUS | PIL_ABILITY_ID | PIL_ABILITY_ACCESSORY,
    MORE = PIL_MORE_POLL | PIL_MORE_EXTENDED, /* all further abilities */
    MOST_SECOND = PIL_SECOND_ADDRESS + PIL_PRIMARY_RECEIVED, /* the most that bytes 20 and 21 can be */
    ETO = 0x540,
    ETE = 0x541,
    DATA_PLACES = 8, /* D1 to D8 */
    HEADER_EDITION = PIL_SAVE_EDITION - PIL_SAVE_HEAD_LENGTH /* the edition's place in a saved header */
};

static unsigned get16(const uint8_t *at)
{
    return at[0] | (unsigned)at[1] << 8;
}

static void set16(uint8_t *at, unsigned value)
{
    at[0] = (uint8_t)value;
    at[1] = (uint8_t)(value >> 8);
}

static uint32_t get32(const uint8_t *at)
{
    return get16(at) | (uint32_t)get16(at + 2) << 16;
}

/* No stretch asked about is longer than the data. */
static int all_zero(const uint8_t *bytes, size_t from, size_t end)
{
    static const uint8_t zeros[PIL_MOST_DATA];

    return memcmp(bytes + from, zeros, end - from) == 0;
}

/* Frames and their kinds. */

/* 01, Frames and their kinds: first and last code of each kind; the kinds stand in the order of their codes. */
static const struct { uint16_t first, last; } messages[PIL_KINDS] = {
    [PIL_KIND_DAB] = {0x000, 0x1ff}, [PIL_KIND_END] = {0x200, 0x3ff}, [PIL_KIND_NUL] = {0x400, 0x400},
    [PIL_KIND_GTL] = {0x401, 0x401}, [PIL_KIND_SDC] = {0x404, 0x404}, [PIL_KIND_PPD] = {0x405, 0x405},
    [PIL_KIND_GET] = {0x408, 0x408}, [PIL_KIND_LLO] = {0x411, 0x411}, [PIL_KIND_DCL] = {0x414, 0x414},
    [PIL_KIND_PPU] = {0x415, 0x415}, [PIL_KIND_EAR] = {0x418, 0x418}, [PIL_KIND_LAD] = {0x420, 0x43e},
    [PIL_KIND_UNL] = {0x43f, 0x43f}, [PIL_KIND_TAD] = {0x440, 0x45e}, [PIL_KIND_UNT] = {0x45f, 0x45f},
    [PIL_KIND_SAD] = {0x460, 0x47e}, [PIL_KIND_PPE] = {0x480, 0x48f}, [PIL_KIND_IFC] = {0x490, 0x490},
    [PIL_KIND_REN] = {0x492, 0x492}, [PIL_KIND_NRE] = {0x493, 0x493}, [PIL_KIND_AAU] = {0x49a, 0x49a},
    [PIL_KIND_LPD] = {0x49b, 0x49b}, [PIL_KIND_DDL] = {0x4a0, 0x4bf}, [PIL_KIND_DDT] = {0x4c0, 0x4df},
    [PIL_KIND_RFC] = {0x500, 0x500}, [PIL_KIND_ETO] = {0x540, 0x540}, [PIL_KIND_ETE] = {0x541, 0x541},
    [PIL_KIND_NRD] = {0x542, 0x542}, [PIL_KIND_SDA] = {0x560, 0x560}, [PIL_KIND_SST] = {0x561, 0x561},
    [PIL_KIND_SDI] = {0x562, 0x562}, [PIL_KIND_SAI] = {0x563, 0x563}, [PIL_KIND_TCT] = {0x564, 0x564},
    [PIL_KIND_AAD] = {0x580, 0x59e}, [PIL_KIND_IAA] = {0x59f, 0x59f}, [PIL_KIND_AEP] = {0x5a0, 0x5be},
    [PIL_KIND_IEP] = {0x5bf, 0x5bf}, [PIL_KIND_AES] = {0x5c0, 0x5de}, [PIL_KIND_IES] = {0x5df, 0x5df},
    [PIL_KIND_AMP] = {0x5e0, 0x5fe}, [PIL_KIND_IMP] = {0x5ff, 0x5ff}, [PIL_KIND_IDY] = {0x600, 0x7ff},
};

/* The kinds of one code that stand alone: among commands 400-41f and 490-49f, among ready frames 500-57f. */
static unsigned kind_of_single(unsigned frame)
{
    switch (frame) {
    case 0x400: return PIL_KIND_NUL;
    case 0x401: return PIL_KIND_GTL;
    case 0x404: return PIL_KIND_SDC;
    case 0x405: return PIL_KIND_PPD;
    case 0x408: return PIL_KIND_GET;
    case 0x411: return PIL_KIND_LLO;
    case 0x414: return PIL_KIND_DCL;
    case 0x415: return PIL_KIND_PPU;
    case 0x418: return PIL_KIND_EAR;
    case 0x490: return PIL_KIND_IFC;
    case 0x492: return PIL_KIND_REN;
    case 0x493: return PIL_KIND_NRE;
    case 0x49a: return PIL_KIND_AAU;
    case 0x49b: return PIL_KIND_LPD;
    case 0x500: return PIL_KIND_RFC;
    case 0x540: return PIL_KIND_ETO;
    case 0x541: return PIL_KIND_ETE;
    case 0x542: return PIL_KIND_NRD;
    case 0x560: return PIL_KIND_SDA;
    case 0x561: return PIL_KIND_SST;
    case 0x562: return PIL_KIND_SDI;
    case 0x563: return PIL_KIND_SAI;
    case 0x564: return PIL_KIND_TCT;
    default: return PIL_KIND_NONE;
    }
}

/* The other commands and ready frames come in groups of 32 codes, and the last of a group is often another kind. */
static unsigned kind_of_command_or_ready(unsigned frame)
{
    int last = frame % 32 == 31;

    switch (frame & ~31u) {
    case 0x420: return last ? PIL_KIND_UNL : PIL_KIND_LAD;
    case 0x440: return last ? PIL_KIND_UNT : PIL_KIND_TAD;
    case 0x460: return last ? PIL_KIND_NONE : PIL_KIND_SAD;
    case 0x480: return frame <= 0x48f ? PIL_KIND_PPE : kind_of_single(frame);
    case 0x4a0: return PIL_KIND_DDL;
    case 0x4c0: return PIL_KIND_DDT;
    case 0x580: return last ? PIL_KIND_IAA : PIL_KIND_AAD;
    case 0x5a0: return last ? PIL_KIND_IEP : PIL_KIND_AEP;
    case 0x5c0: return last ? PIL_KIND_IES : PIL_KIND_AES;
    case 0x5e0: return last ? PIL_KIND_IMP : PIL_KIND_AMP;
    default: return kind_of_single(frame);
    }
}

/* By the control bits: 00x data byte, 01x end byte, 100 command, 101 ready frame, 11x identify. */
static unsigned kind_of(unsigned frame)
{
    switch (frame >> 8) {
    case 0:
    case 1: return PIL_KIND_DAB;
    case 2:
    case 3: return PIL_KIND_END;
    case 4:
    case 5: return kind_of_command_or_ready(frame);
    default: return PIL_KIND_IDY;
    }
}

/* The kinds with a bit for a service request: 001, the message table. */
static int has_c1(uint64_t kind)
{
    return kind == PIL_KIND_DAB || kind == PIL_KIND_END || kind == PIL_KIND_IDY;
}

struct decoded {
    unsigned kind, offset, c1;
};

/* What a frame of the kind says (02, g): no other place takes offset or C1 out of a frame. The kind is given, so that a
   rule that was reached by its kind looks nothing up. */
static inline struct decoded decoded(unsigned kind, unsigned frame)
{
    unsigned data_bits = PIL_DATA_BITS | (MODEL_FAULT == 6 ? PIL_C1 : 0);

    if (has_c1(kind))
        return (struct decoded){kind, frame & data_bits, (frame & PIL_C1) != 0};
    return (struct decoded){kind, kind == PIL_KIND_NONE ? 0 : frame - messages[kind].first, 0};
}

/* What a DAB or END says. */
static inline struct decoded decoded_byte(unsigned frame)
{
    return frame < messages[PIL_KIND_END].first ? decoded(PIL_KIND_DAB, frame) : decoded(PIL_KIND_END, frame);
}

struct pil_decoded model_decode(uint64_t frame)
{
    struct decoded d;

    if (frame >= PIL_FRAMES)
        return (struct pil_decoded){.refusal = PIL_BAD_FRAME};
    d = decoded(kind_of((unsigned)frame), (unsigned)frame);
    return (struct pil_decoded){.kind = (uint8_t)d.kind, .offset = (uint16_t)d.offset, .c1 = (uint8_t)d.c1};
}

/* Codes with C1 have the offsets of those without. */
static unsigned last_offset(uint64_t kind)
{
    unsigned last = (unsigned)(messages[kind].last - messages[kind].first);

    return has_c1(kind) ? last - PIL_C1 : last;
}

/* C1 is 0 or 1, and 0 on a kind without one. */
static int c1_allowed(uint64_t kind, uint64_t c1)
{
    uint64_t seen = MODEL_FAULT == 8 ? c1 % 256 : c1;

    return seen == 0 || (seen == 1 && (has_c1(kind) || MODEL_FAULT == 7));
}

struct pil_encoded model_encode(uint64_t kind, uint64_t offset, uint64_t c1)
{
    if (kind == PIL_KIND_NONE || kind >= PIL_KINDS || offset > last_offset(kind) || !c1_allowed(kind, c1))
        return (struct pil_encoded){.refusal = PIL_BAD_FRAME};
    return (struct pil_encoded){.frame = (uint16_t)(messages[kind].first + offset + PIL_C1 * c1)};
}

/* Counts go over an IDY alone (02, f). */
static int is_identify(uint64_t frame)
{
    if (frame >= PIL_FRAMES)
        return 0;
    return kind_of((unsigned)frame) == PIL_KIND_IDY || MODEL_FAULT == 83;
}

/* The ones of an IDY's data bits (02, f), looked for from D8 down: the last one found is the lowest. */
struct pil_polled model_poll_count(uint64_t frame)
{
    struct pil_polled polled = {.lowest = MODEL_FAULT == 102 ? 0 : PIL_NO_BIT};
    struct decoded d;

    if (MODEL_FAULT == 107)
        frame %= UINT16_MAX + 1;
    if (!is_identify(frame))
        return (struct pil_polled){.refusal = PIL_BAD_FRAME};
    d = decoded(PIL_KIND_IDY, (unsigned)frame);
    for (unsigned place = DATA_PLACES; place-- > 0;) {
        if (!(d.offset & 1u << place))
            continue;
        if (MODEL_FAULT != 80 || polled.ones == 0)
            polled.lowest = (uint8_t)place;
        polled.ones += MODEL_FAULT != 81 || place < DATA_PLACES - 1;
    }
    if (MODEL_FAULT == 82)
        polled.ones = (uint8_t)(polled.ones + d.c1);
    return polled;
}

/* Soundness: 01, The lent area. */

static int more_extended(unsigned more)
{
    return MODEL_FAULT == 115 ? more == PIL_MORE_EXTENDED : (more & PIL_MORE_EXTENDED) != 0;
}

/* 001, 2.12, has a device with PP1 need the listener function; 02, f, asks for none. 2.14: a device has one of the
   automatic addresses. */
static int abilities_allowed(unsigned abilities, unsigned more)
{
    if (MODEL_FAULT == 109 && (more & PIL_MORE_POLL) && !(abilities & PIL_ABILITY_LISTEN))
        return 0;
    if (more_extended(more) && (abilities & PIL_ABILITY_AUTO_ADDRESS) && MODEL_FAULT != 116)
        return 0;
    if ((abilities & PIL_ABILITY_SERVICE) && !(abilities & PIL_ABILITY_STATUS))
        return 0;
    if ((abilities & PIL_ABILITY_UNADDRESS) && !((abilities & PIL_ABILITY_LISTEN) && (abilities & REPLIES)))
        return 0;
    return 1;
}

/* Byte 7 of the record that an item of this length becomes (02, f). */
static unsigned more_of_item(const uint8_t *item, size_t length)
{
    if (MODEL_FAULT == 117 && length > PIL_ITEM_SECOND)
        return item[length - 1];
    return length > PIL_ITEM_MORE && MODEL_FAULT != 93 ? item[PIL_ITEM_MORE] : 0;
}

/* Its second addresses (02, i), which power on with no primary received. */
static unsigned second_of_item(const uint8_t *item, size_t length)
{
    return length > PIL_ITEM_SECOND && MODEL_FAULT != 118 ? item[PIL_ITEM_SECOND] : 0;
}

/* A simple device has none. */
static int second_allowed(const uint8_t *item, size_t length)
{
    unsigned second = second_of_item(item, length);

    if (!more_extended(more_of_item(item, length)))
        return second == 0 || (MODEL_FAULT == 119 && second <= PIL_SECOND_ADDRESS);
    if (MODEL_FAULT == 120 && length <= PIL_ITEM_SECOND)
        return 0;
    return second <= PIL_SECOND_ADDRESS + (MODEL_FAULT == 121);
}

static int item_allowed(const uint8_t *item, size_t length)
{
    return abilities_allowed(item[PIL_ITEM_ABILITIES], more_of_item(item, length))
        && more_of_item(item, length) <= MORE + (MODEL_FAULT == 101) - (MODEL_FAULT == 122)
        && second_allowed(item, length)
        && item[PIL_ITEM_FIXED] <= PIL_NO_ADDRESS
        && item[PIL_ITEM_ID_LENGTH] <= PIL_MOST_ID
        && all_zero(item + PIL_ITEM_ID, item[PIL_ITEM_ID_LENGTH], PIL_MOST_ID);
}

static int ranges_hold(const uint8_t *r)
{
    return r[PIL_RECORD_FIXED] <= PIL_NO_ADDRESS
        && r[PIL_RECORD_ADDRESS] <= PIL_NO_ADDRESS
        && r[PIL_RECORD_CONFIGURED] <= PIL_HALF_ASSIGNED + (MODEL_FAULT == 123)
        && r[PIL_RECORD_LISTENER] <= 1
        && r[PIL_RECORD_TALKER] <= PIL_TALKER_ACCESSORY
        && r[PIL_RECORD_SERVICE] <= PIL_SERVICE_POLLED
        && r[PIL_RECORD_MORE] <= MORE + (MODEL_FAULT == 92)
        && r[PIL_RECORD_NRD] <= 1
        && r[PIL_RECORD_ID_LENGTH] <= PIL_MOST_ID
        && r[PIL_RECORD_DATA_LENGTH] <= PIL_MOST_DATA
        && r[PIL_RECORD_SENT] <= r[PIL_RECORD_DATA_LENGTH]
        && r[PIL_RECORD_REMOTE] <= PIL_REMOTE_LOCKED + (MODEL_FAULT == 57)
        && r[PIL_RECORD_ENABLED] <= 1 + (MODEL_FAULT == 58)
        && r[PIL_RECORD_END] <= PIL_LAST_END + (MODEL_FAULT == 31);
}

static int extended(const uint8_t *r)
{
    return more_extended(r[PIL_RECORD_MORE]);
}

/* The second address and the flag of byte 20 or 21. */
static unsigned second_address(const uint8_t *r, unsigned byte)
{
    return r[byte] & PIL_SECOND_ADDRESS;
}

static int primary_received(const uint8_t *r, unsigned byte)
{
    return (r[byte] & PIL_PRIMARY_RECEIVED) != 0;
}

static int simple_address_sound(const uint8_t *r)
{
    if ((r[PIL_RECORD_FIXED_SECOND] != 0 && MODEL_FAULT != 108) || (r[PIL_RECORD_SECOND] != 0 && MODEL_FAULT != 124))
        return 0;
    if (r[PIL_RECORD_CONFIGURED] > PIL_CONFIGURED && MODEL_FAULT != 125)
        return 0;
    if (r[PIL_RECORD_CONFIGURED])
        return (r[PIL_RECORD_ABILITIES] & PIL_ABILITY_AUTO_ADDRESS) && r[PIL_RECORD_ADDRESS] != PIL_NO_ADDRESS;
    return r[PIL_RECORD_ADDRESS] == r[PIL_RECORD_FIXED];
}

/* At 0 both present addresses are the fixed ones, at 1 both are legal. */
static int unconfigured_sound(const uint8_t *r)
{
    unsigned second = second_address(r, PIL_RECORD_SECOND);

    if (MODEL_FAULT == 126 && second == PIL_NO_ADDRESS)
        return 0;
    return (r[PIL_RECORD_ADDRESS] == r[PIL_RECORD_FIXED] || MODEL_FAULT == 127)
        && (second == second_address(r, PIL_RECORD_FIXED_SECOND) || MODEL_FAULT == 128);
}

static int configured_sound(const uint8_t *r)
{
    if (MODEL_FAULT == 129 && !(r[PIL_RECORD_ABILITIES] & PIL_ABILITY_AUTO_ADDRESS))
        return 0;
    if (MODEL_FAULT == 130 && second_address(r, PIL_RECORD_FIXED_SECOND) == PIL_NO_ADDRESS)
        return 0;
    return (r[PIL_RECORD_ADDRESS] != PIL_NO_ADDRESS || MODEL_FAULT == 131)
        && (second_address(r, PIL_RECORD_SECOND) != PIL_NO_ADDRESS || MODEL_FAULT == 132);
}

/* Any addresses in range: 02, i, asks for no more, though AES gives no 31 and leaves the fixed primary. */
static int half_assigned_sound(const uint8_t *r)
{
    if (MODEL_FAULT == 133 && second_address(r, PIL_RECORD_SECOND) == PIL_NO_ADDRESS)
        return 0;
    return (MODEL_FAULT != 134 || r[PIL_RECORD_ADDRESS] != PIL_NO_ADDRESS)
        && (MODEL_FAULT != 135 || r[PIL_RECORD_ADDRESS] == r[PIL_RECORD_FIXED]);
}

/* Bytes 20 and 21 have two bits left over. The flags ask for no ability, and both may be set. */
static int second_bytes_sound(const uint8_t *r)
{
    int listen = primary_received(r, PIL_RECORD_FIXED_SECOND), talk = primary_received(r, PIL_RECORD_SECOND);

    if (MODEL_FAULT == 136 && listen && talk)
        return 0;
    if (MODEL_FAULT == 137 && listen && !(r[PIL_RECORD_ABILITIES] & PIL_ABILITY_LISTEN))
        return 0;
    if (MODEL_FAULT == 138 && talk && !(r[PIL_RECORD_ABILITIES] & REPLIES))
        return 0;
    return (r[PIL_RECORD_FIXED_SECOND] <= MOST_SECOND || MODEL_FAULT == 139)
        && (r[PIL_RECORD_SECOND] <= MOST_SECOND || MODEL_FAULT == 140);
}

static int extended_address_sound(const uint8_t *r)
{
    if (!second_bytes_sound(r))
        return 0;
    switch (r[PIL_RECORD_CONFIGURED]) {
    case PIL_UNCONFIGURED: return unconfigured_sound(r);
    case PIL_CONFIGURED: return configured_sound(r);
    default: return half_assigned_sound(r);
    }
}

static int address_sound(const uint8_t *r)
{
    return extended(r) ? extended_address_sound(r) : simple_address_sound(r);
}

/* The abilities one of which a talker state needs. */
static unsigned abilities_for(unsigned talker)
{
    switch (talker) {
    case PIL_TALKER_ADDRESSED: return REPLIES;
    case PIL_TALKER_DATA: return PIL_ABILITY_DATA;
    case PIL_TALKER_STATUS: return PIL_ABILITY_STATUS;
    case PIL_TALKER_ID: return PIL_ABILITY_ID;
    case PIL_TALKER_ACCESSORY: return PIL_ABILITY_ACCESSORY;
    default: return 0;
    }
}

static int states_have_abilities(const uint8_t *r)
{
    unsigned abilities = r[PIL_RECORD_ABILITIES];

    if (r[PIL_RECORD_LISTENER] && !(abilities & PIL_ABILITY_LISTEN))
        return 0;
    if (r[PIL_RECORD_SERVICE] != PIL_SERVICE_NONE && !(abilities & PIL_ABILITY_SERVICE))
        return 0;
    if (r[PIL_RECORD_DATA_LENGTH] > 0 && !(abilities & PIL_ABILITY_DATA))
        return 0;
    if (MODEL_FAULT == 70 && r[PIL_RECORD_REMOTE] != PIL_LOCAL && !(abilities & PIL_ABILITY_LISTEN))
        return 0;
    if (MODEL_FAULT == 71 && r[PIL_RECORD_REMOTE] != PIL_LOCAL && !r[PIL_RECORD_ENABLED])
        return 0;
    return r[PIL_RECORD_TALKER] == PIL_TALKER_IDLE || (abilities & abilities_for(r[PIL_RECORD_TALKER]));
}

static int sending(const uint8_t *r)
{
    return r[PIL_RECORD_TALKER] >= PIL_TALKER_DATA;
}

static int reply_sound(const uint8_t *r)
{
    unsigned reply_sent = r[PIL_RECORD_REPLY_SENT];

    if (!sending(r))
        return r[PIL_RECORD_NRD] == 0 && get16(r + PIL_RECORD_LAST) == 0 && reply_sent == 0;
    if (get16(r + PIL_RECORD_LAST) >= 2 * PIL_C2)
        return 0;
    switch (r[PIL_RECORD_TALKER]) {
    case PIL_TALKER_DATA: return r[PIL_RECORD_SENT] >= 1 && reply_sent == 0;
    case PIL_TALKER_ID: return reply_sent >= 1 && reply_sent <= r[PIL_RECORD_ID_LENGTH];
    default: return reply_sent == 1;
    }
}

static int pollable(const uint8_t *r)
{
    if (MODEL_FAULT == 141)
        return r[PIL_RECORD_MORE] == PIL_MORE_POLL;
    return (r[PIL_RECORD_MORE] & (MODEL_FAULT == 142 ? MORE : PIL_MORE_POLL)) != 0;
}

/* Configuration and individual status (02, f), which only a device that can be polled has. */
static int poll_sound(const uint8_t *r)
{
    unsigned told = r[PIL_RECORD_POLL], status = r[PIL_RECORD_POLL_STATUS];

    if (!pollable(r))
        return (told == PIL_POLL_NONE || MODEL_FAULT == 89) && (status == 0 || MODEL_FAULT == 90);
    if (told != PIL_POLL_NONE && told < PIL_POLL_CONFIGURED && MODEL_FAULT != 88)
        return 0;
    return told < 2 * PIL_POLL_CONFIGURED + (MODEL_FAULT == 100) && status <= 1 + (MODEL_FAULT == 91);
}

static int zero_past_lengths(const uint8_t *r)
{
    return all_zero(r + PIL_RECORD_ID, r[PIL_RECORD_ID_LENGTH], PIL_MOST_ID)
        && all_zero(r + PIL_RECORD_DATA, r[PIL_RECORD_DATA_LENGTH], PIL_MOST_DATA);
}

static int record_sound(const uint8_t *r)
{
    return ranges_hold(r) && abilities_allowed(r[PIL_RECORD_ABILITIES], r[PIL_RECORD_MORE]) && address_sound(r)
        && states_have_abilities(r) && reply_sound(r) && poll_sound(r) && zero_past_lengths(r);
}

static int link_sound(const uint8_t *link)
{
    const uint8_t *frames = link + PIL_LINK_FRAMES;

    if (link[PIL_LINK_COUNT] > PIL_LINK_DEPTH || link[PIL_LINK_ZERO] != 0)
        return 0;
    for (unsigned i = 0; i < link[PIL_LINK_COUNT]; i++)
        if (get16(frames + 2 * i) >= PIL_FRAMES)
            return 0;
    return all_zero(frames, 2 * link[PIL_LINK_COUNT], 2 * PIL_LINK_DEPTH);
}

/* The header and the first so many records and links. */
static int parts_sound(const uint8_t *area, unsigned records, unsigned links)
{
    unsigned n = area[PIL_HEADER_DEVICES];

    if (!all_zero(area, PIL_HEADER_ZEROS, PIL_HEADER_LENGTH) && (links > 0 || MODEL_FAULT != 247))
        return 0;
    for (unsigned i = 0; i < records; i++)
        if (!record_sound(area + PIL_RECORD_AT(i)))
            return 0;
    for (unsigned i = 0; i < links; i++)
        if (!link_sound(area + PIL_LINK_AT(n, i)))
            return 0;
    return 1;
}

static int area_sound(const uint8_t *area)
{
    unsigned n = area[PIL_HEADER_DEVICES];

    return parts_sound(area, n, n + 1);
}

/* The length is that of the loop that byte 0 names; an area shorter than one device's may have no byte 0. */
static int shape_right(const uint8_t *area, size_t area_len)
{
    unsigned n = area_len < PIL_AREA_LENGTH(1) ? 0 : area[PIL_HEADER_DEVICES];

    return n >= 1 && n <= PIL_MOST_DEVICES - (MODEL_FAULT == 20)
        && (MODEL_FAULT == 23 ? (uint8_t)area_len == (uint8_t)PIL_AREA_LENGTH(n) : area_len == PIL_AREA_LENGTH(n));
}

/* Refusals 1 and 2, which every call but set-up gives in the same way. */
static uint8_t shape_and_soundness(const uint8_t *area, size_t area_len)
{
    if (!shape_right(area, area_len))
        return PIL_SHAPE;
    return area_sound(area) ? PIL_ACCEPTED : PIL_UNSOUND;
}

/* Links. */

static uint8_t *link_of(uint8_t *area, size_t i)
{
    return area + PIL_LINK_AT(area[PIL_HEADER_DEVICES], i);
}

static int link_empty(const uint8_t *link)
{
    return link[PIL_LINK_COUNT] == 0;
}

static int link_full(const uint8_t *link)
{
    return link[PIL_LINK_COUNT] == PIL_LINK_DEPTH;
}

static void link_add(uint8_t *link, unsigned frame)
{
    set16(link + PIL_LINK_FRAMES + 2 * link[PIL_LINK_COUNT], frame);
    link[PIL_LINK_COUNT]++;
}

/* All places behind the oldest move up, unused ones too. */
static unsigned link_take_oldest(uint8_t *link)
{
    unsigned left = --link[PIL_LINK_COUNT];
    unsigned place = MODEL_FAULT == 3 ? left : 0, behind = PIL_LINK_DEPTH - 1 - place;
    uint8_t *taken = link + PIL_LINK_FRAMES + 2 * place;
    unsigned frame = get16(taken);

    memmove(taken, taken + 2, 2 * behind);
    set16(taken + 2 * behind, 0);
    return frame;
}

/* What a device does with a frame: 01, the part of that name. r is the device's record. */

static void clear_reply(uint8_t *r)
{
    r[PIL_RECORD_NRD] = 0;
    set16(r + PIL_RECORD_LAST, 0);
    r[PIL_RECORD_REPLY_SENT] = 0;
}

/* Goes to talker state 0 or 1, out of a sending state too. */
static void stop_sending(uint8_t *r, unsigned talker)
{
    r[PIL_RECORD_TALKER] = (uint8_t)talker;
    clear_reply(r);
}

/* A DAB, END or IDY as it is sent: C1 set if service is 1, otherwise as it is. */
static unsigned with_service_bit(const uint8_t *r, unsigned frame)
{
    if (r[PIL_RECORD_SERVICE] == PIL_SERVICE_ASKING)
        return frame | PIL_C1;
    if (MODEL_FAULT == 2 && r[PIL_RECORD_SERVICE] == PIL_SERVICE_NONE)
        return frame & ~(unsigned)PIL_C1;
    return frame;
}

/* Remote and local: 02, d, and 001, 2.17. Who has control and whether the key is locked are two things, and byte 17
   holds the pair. */

static int is_remote(const uint8_t *r)
{
    return r[PIL_RECORD_REMOTE] == PIL_REMOTE || r[PIL_RECORD_REMOTE] == PIL_REMOTE_LOCKED;
}

static int is_locked(const uint8_t *r)
{
    return r[PIL_RECORD_REMOTE] == PIL_LOCAL_LOCKED || r[PIL_RECORD_REMOTE] == PIL_REMOTE_LOCKED;
}

static void control(uint8_t *r, int remote, int locked)
{
    if (locked)
        r[PIL_RECORD_REMOTE] = remote ? PIL_REMOTE_LOCKED : PIL_LOCAL_LOCKED;
    else
        r[PIL_RECORD_REMOTE] = remote ? PIL_REMOTE : PIL_LOCAL;
}

/* A LAD: the device's own (2.17: MLA), with ability 1 and while enabled, gives the loop control. */
static void listen_address_for_control(uint8_t *r, unsigned address)
{
    int own = address == r[PIL_RECORD_ADDRESS] || MODEL_FAULT == 55;
    int able = (r[PIL_RECORD_ABILITIES] & PIL_ABILITY_LISTEN) || MODEL_FAULT == 56;

    if (own && able && (r[PIL_RECORD_ENABLED] || MODEL_FAULT == 42))
        control(r, 1, is_locked(r) && MODEL_FAULT != 65);
}

static void remote_enable(uint8_t *r)
{
    r[PIL_RECORD_ENABLED] = 1;
    if (MODEL_FAULT == 72 && r[PIL_RECORD_LISTENER])
        control(r, 1, is_locked(r));
}

/* To local and unlocked. 2.17 tells only that the flag goes, and its figure is lost: 02, d, decides. */
static void not_remote_enable(uint8_t *r)
{
    if (MODEL_FAULT != 46)
        r[PIL_RECORD_ENABLED] = 0;
    control(r, 0, MODEL_FAULT == 45 && is_locked(r));
}

static void local_lockout(uint8_t *r)
{
    if ((r[PIL_RECORD_ENABLED] || MODEL_FAULT == 41) && (is_remote(r) || MODEL_FAULT != 64))
        control(r, is_remote(r), 1);
}

static void go_to_local(uint8_t *r)
{
    if ((r[PIL_RECORD_LISTENER] || MODEL_FAULT == 43) && (r[PIL_RECORD_ENABLED] || MODEL_FAULT != 63))
        control(r, 0, is_locked(r) && MODEL_FAULT != 44);
}

/* The panel key (2.17: rtl), which the lock puts out of use. */
static void press_key(uint8_t *r)
{
    if (is_remote(r) && (!is_locked(r) || MODEL_FAULT == 47) && (r[PIL_RECORD_ENABLED] || MODEL_FAULT != 62))
        control(r, 0, is_locked(r));
    if (MODEL_FAULT == 61 && !is_remote(r))
        control(r, 0, 0);
}

/* What a hop reports of a frame: 02, d, and 001, 2.10 and 2.11. DCL is for all devices, SDC and GET are for those
   addressed to listen. */
static unsigned event_of(const uint8_t *r, unsigned kind)
{
    int listener = r[PIL_RECORD_LISTENER];

    switch (kind) {
    case PIL_KIND_DCL: return listener || MODEL_FAULT != 51 ? PIL_EVENT_CLEAR : PIL_EVENT_NONE;
    case PIL_KIND_SDC: return listener || MODEL_FAULT == 50 ? PIL_EVENT_CLEAR : PIL_EVENT_NONE;
    case PIL_KIND_GET:
        if (!listener && MODEL_FAULT != 60)
            return PIL_EVENT_NONE;
        return MODEL_FAULT == 49 ? PIL_EVENT_CLEAR : PIL_EVENT_TRIGGER;
    default: return PIL_EVENT_NONE;
    }
}

/* Parallel poll: 02, f, and 001, 2.12 and note 5 of the message table. Byte 22 keeps what PPE told, S and BBB. */

/* PPE, for those addressed to listen. */
static void poll_enable(uint8_t *r, unsigned told)
{
    if ((!r[PIL_RECORD_LISTENER] && MODEL_FAULT != 78) || (!pollable(r) && MODEL_FAULT != 79))
        return;
    if (MODEL_FAULT == 106 && r[PIL_RECORD_POLL] != PIL_POLL_NONE)
        return;
    r[PIL_RECORD_POLL] = (uint8_t)(PIL_POLL_CONFIGURED + (MODEL_FAULT == 96 ? told & PIL_POLL_BIT : told));
    if (MODEL_FAULT == 113)
        r[PIL_RECORD_POLL_STATUS] = 0;
}

/* PPD, for those addressed to listen. */
static void poll_disable(uint8_t *r)
{
    if (!r[PIL_RECORD_LISTENER] && MODEL_FAULT != 77)
        return;
    r[PIL_RECORD_POLL] = PIL_POLL_NONE;
    if (MODEL_FAULT == 85)
        r[PIL_RECORD_POLL_STATUS] = 0;
}

/* PPU, for all devices. */
static void poll_unconfigure(uint8_t *r)
{
    if (r[PIL_RECORD_LISTENER] || MODEL_FAULT != 76)
        r[PIL_RECORD_POLL] = PIL_POLL_NONE;
    if (MODEL_FAULT == 84)
        r[PIL_RECORD_POLL_STATUS] = 0;
}

/* Note 5: with S 1 a device makes its bit a one to say yes, with S 0 to say no. */
static int makes_one(const uint8_t *r)
{
    int yes = r[PIL_RECORD_POLL_STATUS] != 0, s = (r[PIL_RECORD_POLL] & PIL_POLL_SENSE) != 0;

    return s != (MODEL_FAULT == 73) ? yes : !yes;
}

/* Note 5: 000 is D1, 001 is D2, and so on. */
static unsigned response_bit(const uint8_t *r)
{
    return 1u << ((r[PIL_RECORD_POLL] + (MODEL_FAULT == 74)) & PIL_POLL_BIT);
}

/* An IDY with the device's response. To say nothing means to send on what came: no bit is cleared. */
static unsigned poll_response(const uint8_t *r, unsigned frame)
{
    if (r[PIL_RECORD_POLL] == PIL_POLL_NONE && (MODEL_FAULT != 98 || !pollable(r)))
        return frame;
    if (MODEL_FAULT == 114 && !r[PIL_RECORD_LISTENER])
        return frame;
    if (!makes_one(r))
        return MODEL_FAULT == 75 ? frame & ~response_bit(r) : frame;
    return (MODEL_FAULT == 97 ? frame & ~(unsigned)PIL_DATA_BITS : frame) | response_bit(r);
}

static unsigned identify(const uint8_t *r, unsigned frame)
{
    if (MODEL_FAULT == 103 && r[PIL_RECORD_POLL] != PIL_POLL_NONE)
        return poll_response(r, frame);
    return with_service_bit(r, poll_response(r, frame));
}

/* The individual status of 2.12. */
static void individual_status(uint8_t *r, uint64_t status)
{
    if (MODEL_FAULT == 110 && r[PIL_RECORD_POLL] == PIL_POLL_NONE)
        return;
    if (MODEL_FAULT == 105)
        status %= UINT8_MAX + 1;
    r[PIL_RECORD_POLL_STATUS] = MODEL_FAULT == 86 ? (uint8_t)status : status != 0;
}

static int able_to_listen(const uint8_t *r)
{
    return (r[PIL_RECORD_ABILITIES] & PIL_ABILITY_LISTEN) != 0;
}

static int able_to_talk(const uint8_t *r)
{
    return (r[PIL_RECORD_ABILITIES] & REPLIES) != 0;
}

/* The whole address to listen is received: one frame of it, or two. */
static void addressed_to_listen(uint8_t *r)
{
    r[PIL_RECORD_LISTENER] = 1;
    if (r[PIL_RECORD_ABILITIES] & PIL_ABILITY_UNADDRESS)
        stop_sending(r, PIL_TALKER_IDLE);
}

/* And that to talk. */
static void addressed_to_talk(uint8_t *r)
{
    stop_sending(r, PIL_TALKER_ADDRESSED);
    if (r[PIL_RECORD_ABILITIES] & PIL_ABILITY_UNADDRESS)
        r[PIL_RECORD_LISTENER] = 0;
}

static void listen_address(uint8_t *r, unsigned address)
{
    listen_address_for_control(r, address);
    if (address == r[PIL_RECORD_ADDRESS] && able_to_listen(r))
        addressed_to_listen(r);
}

static void talk_address(uint8_t *r, unsigned address)
{
    if ((address == r[PIL_RECORD_ADDRESS] || MODEL_FAULT == 265) && able_to_talk(r))
        addressed_to_talk(r);
    else if (MODEL_FAULT != 264)
        stop_sending(r, PIL_TALKER_IDLE);
}

/* Of remote and local and of the poll it changes nothing. */
static void interface_clear(uint8_t *r)
{
    r[PIL_RECORD_LISTENER] = 0;
    stop_sending(r, PIL_TALKER_IDLE);
    if (MODEL_FAULT == 48)
        control(r, 0, is_locked(r));
    if (MODEL_FAULT == 66)
        r[PIL_RECORD_ENABLED] = 0;
    if (MODEL_FAULT == 99)
        r[PIL_RECORD_POLL] = PIL_POLL_NONE;
}

static void auto_address_unconfigure(uint8_t *r)
{
    if ((r[PIL_RECORD_ABILITIES] & PIL_ABILITY_AUTO_ADDRESS) && MODEL_FAULT != 261) {
        r[PIL_RECORD_CONFIGURED] = 0;
        r[PIL_RECORD_ADDRESS] = r[PIL_RECORD_FIXED];
    }
}

/* Gives the frame sent. With fault 1 AAD is taken again and counted up, with fault 263 taken again and sent on. */
static unsigned auto_address(uint8_t *r, unsigned address, unsigned frame)
{
    if (r[PIL_RECORD_CONFIGURED] == 1 && MODEL_FAULT == 263)
        r[PIL_RECORD_ADDRESS] = (uint8_t)address;
    if (r[PIL_RECORD_CONFIGURED] && MODEL_FAULT != 1)
        return frame;
    if (!(r[PIL_RECORD_ABILITIES] & PIL_ABILITY_AUTO_ADDRESS) && (MODEL_FAULT != 205 || !extended(r)))
        return frame;
    r[PIL_RECORD_ADDRESS] = (uint8_t)address;
    r[PIL_RECORD_CONFIGURED] = 1;
    return frame + (MODEL_FAULT != 262);
}

/* Extended addresses: 02, i, and 001, 2.7, 2.8 and 2.15. The flag of byte 20 is LPAS, that of byte 21 TPAS: the primary
   was received, and the next command may be the second address. */

static void forget_primary(uint8_t *r, unsigned byte)
{
    r[byte] &= PIL_SECOND_ADDRESS;
}

/* To LPIS and TPIS. */
static void forget_primaries(uint8_t *r)
{
    forget_primary(r, PIL_RECORD_FIXED_SECOND);
    forget_primary(r, PIL_RECORD_SECOND);
}

/* What some faults have the primary do already, and only the second address may. */
static void listen_primary_at_once(uint8_t *r)
{
    if (MODEL_FAULT == 143)
        r[PIL_RECORD_LISTENER] = 1;
    if (MODEL_FAULT == 144 && (r[PIL_RECORD_ABILITIES] & PIL_ABILITY_UNADDRESS))
        stop_sending(r, PIL_TALKER_IDLE);
}

static void talk_primary_at_once(uint8_t *r)
{
    if (MODEL_FAULT == 145)
        stop_sending(r, PIL_TALKER_ADDRESSED);
    if (MODEL_FAULT == 146 && (r[PIL_RECORD_ABILITIES] & PIL_ABILITY_UNADDRESS))
        r[PIL_RECORD_LISTENER] = 0;
    if (MODEL_FAULT == 147)
        stop_sending(r, PIL_TALKER_IDLE);
}

static int own_primary(const uint8_t *r, unsigned address)
{
    return address == r[MODEL_FAULT == 238 ? PIL_RECORD_FIXED : PIL_RECORD_ADDRESS];
}

/* A LAD. The device's own is enough to give the loop control (02, d). */
static void listen_primary(uint8_t *r, unsigned address)
{
    int own = own_primary(r, address), able = able_to_listen(r);

    if (MODEL_FAULT != 148)
        listen_address_for_control(r, address);
    if ((own || MODEL_FAULT == 149) && (able || MODEL_FAULT == 150)) {
        r[PIL_RECORD_FIXED_SECOND] |= PIL_PRIMARY_RECEIVED;
        if (MODEL_FAULT != 151)
            forget_primary(r, PIL_RECORD_SECOND);
        listen_primary_at_once(r);
    } else if ((own || MODEL_FAULT != 152) && (!own || MODEL_FAULT != 153)) {
        forget_primaries(r);
    }
}

/* A TAD. The talker stays as it is till the second address, at any other TAD it is idle. */
static void talk_primary(uint8_t *r, unsigned address)
{
    int own = own_primary(r, address), able = able_to_talk(r);

    if ((own || MODEL_FAULT == 154) && (able || MODEL_FAULT == 155)) {
        r[PIL_RECORD_SECOND] |= PIL_PRIMARY_RECEIVED;
        if (MODEL_FAULT != 156)
            forget_primary(r, PIL_RECORD_FIXED_SECOND);
        talk_primary_at_once(r);
        return;
    }
    if (MODEL_FAULT != 157)
        stop_sending(r, PIL_TALKER_IDLE);
    if ((own || MODEL_FAULT != 158) && (!own || MODEL_FAULT != 159))
        forget_primaries(r);
}

/* The own second address behind the primary to listen. */
static void listen_second(uint8_t *r)
{
    if (MODEL_FAULT == 160)
        r[PIL_RECORD_LISTENER] = 1;
    else
        addressed_to_listen(r);
    if (MODEL_FAULT == 161)
        stop_sending(r, PIL_TALKER_IDLE);
    if (MODEL_FAULT == 162 && r[PIL_RECORD_ENABLED])
        control(r, 1, is_locked(r));
}

/* And behind that to talk. A sender is addressed again, and its reply forgotten. */
static void talk_second(uint8_t *r)
{
    unsigned listener = r[PIL_RECORD_LISTENER];

    if (MODEL_FAULT == 163 && sending(r))
        return;
    if (MODEL_FAULT == 164)
        r[PIL_RECORD_TALKER] = PIL_TALKER_ADDRESSED;
    else
        addressed_to_talk(r);
    if (MODEL_FAULT == 165)
        r[PIL_RECORD_LISTENER] = (uint8_t)listener;
    if (MODEL_FAULT == 166)
        r[PIL_RECORD_LISTENER] = 0;
}

/* MSA: first as a listener, then as a talker. Where a flag lacks its ability it is kept and does nothing. */
static void own_second_address(uint8_t *r)
{
    int listen = primary_received(r, PIL_RECORD_FIXED_SECOND) || MODEL_FAULT == 167;
    int talk = primary_received(r, PIL_RECORD_SECOND) || MODEL_FAULT == 168;

    listen = listen && (able_to_listen(r) || MODEL_FAULT == 169);
    talk = talk && (able_to_talk(r) || MODEL_FAULT == 170);
    if (MODEL_FAULT == 171 && talk)
        talk_second(r);
    if (listen)
        listen_second(r);
    if (talk && MODEL_FAULT != 171 && (MODEL_FAULT != 172 || !listen))
        talk_second(r);
    if (MODEL_FAULT == 173 || (MODEL_FAULT == 174 && !listen && !talk))
        forget_primaries(r);
}

/* OSA: another device of this primary is meant. */
static void other_second_address(uint8_t *r)
{
    if ((primary_received(r, PIL_RECORD_SECOND) || MODEL_FAULT == 175) && MODEL_FAULT != 176)
        stop_sending(r, PIL_TALKER_IDLE);
    if (MODEL_FAULT == 177 && primary_received(r, PIL_RECORD_FIXED_SECOND))
        r[PIL_RECORD_LISTENER] = 0;
    if (MODEL_FAULT != 178)
        forget_primaries(r);
}

static void secondary_address(uint8_t *r, unsigned address)
{
    unsigned byte = MODEL_FAULT == 179 ? PIL_RECORD_FIXED_SECOND : PIL_RECORD_SECOND;

    if (address == (MODEL_FAULT == 239 ? r[byte] : second_address(r, byte)))
        own_second_address(r);
    else
        other_second_address(r);
}

/* AAU needs no ability here. */
static void auto_extended_unconfigure(uint8_t *r)
{
    if (MODEL_FAULT == 180 || (MODEL_FAULT == 181 && r[PIL_RECORD_CONFIGURED] == PIL_HALF_ASSIGNED))
        return;
    r[PIL_RECORD_CONFIGURED] = PIL_UNCONFIGURED;
    if (MODEL_FAULT != 182)
        r[PIL_RECORD_ADDRESS] = r[PIL_RECORD_FIXED];
    if (MODEL_FAULT != 183)
        r[PIL_RECORD_SECOND] = (uint8_t)((r[PIL_RECORD_SECOND] & PIL_PRIMARY_RECEIVED)
                                         | second_address(r, PIL_RECORD_FIXED_SECOND));
    if (MODEL_FAULT == 184)
        r[PIL_RECORD_LISTENER] = 0;
    if (MODEL_FAULT == 185)
        stop_sending(r, PIL_TALKER_IDLE);
}

/* The assignment state in which an AES is taken. */
static int awaits_secondary(const uint8_t *r)
{
    switch (r[PIL_RECORD_CONFIGURED]) {
    case PIL_UNCONFIGURED: return 1;
    case PIL_CONFIGURED: return MODEL_FAULT == 186;
    default: return MODEL_FAULT == 187;
    }
}

/* And that for an AEP, where the second address is a legal one. */
static int awaits_primary(const uint8_t *r)
{
    switch (r[PIL_RECORD_CONFIGURED]) {
    case PIL_UNCONFIGURED: return MODEL_FAULT == 188;
    case PIL_CONFIGURED: return MODEL_FAULT == 189;
    default: return second_address(r, PIL_RECORD_SECOND) != PIL_NO_ADDRESS || MODEL_FAULT == 190;
    }
}

/* Gives the frame sent, NES or IES. */
static unsigned auto_extended_secondary(uint8_t *r, unsigned address, unsigned frame)
{
    if (!extended(r))
        return frame + (MODEL_FAULT == 191 && r[PIL_RECORD_CONFIGURED] == PIL_UNCONFIGURED);
    if (!awaits_secondary(r))
        return frame;
    r[PIL_RECORD_SECOND] = (uint8_t)((MODEL_FAULT == 192 ? 0 : r[PIL_RECORD_SECOND] & PIL_PRIMARY_RECEIVED) | address);
    if (MODEL_FAULT == 193)
        r[PIL_RECORD_FIXED_SECOND] = r[PIL_RECORD_SECOND];
    r[PIL_RECORD_CONFIGURED] = MODEL_FAULT == 194 ? PIL_CONFIGURED : PIL_HALF_ASSIGNED;
    if (MODEL_FAULT == 195)
        r[PIL_RECORD_LISTENER] = 0;
    if (MODEL_FAULT == 196)
        stop_sending(r, PIL_TALKER_IDLE);
    return frame + (MODEL_FAULT != 197 && (MODEL_FAULT != 198 || address + 1 != PIL_NO_ADDRESS));
}

/* Gives the frame sent, which is the same: a primary is for a whole group. */
static unsigned auto_extended_primary(uint8_t *r, unsigned address, unsigned frame)
{
    if (!extended(r))
        return MODEL_FAULT == 199 ? auto_address(r, address, frame) : frame;
    if (!awaits_primary(r))
        return frame;
    r[PIL_RECORD_ADDRESS] = (uint8_t)address;
    if (MODEL_FAULT == 200)
        r[PIL_RECORD_FIXED] = (uint8_t)address;
    if (MODEL_FAULT != 201)
        r[PIL_RECORD_CONFIGURED] = PIL_CONFIGURED;
    if (MODEL_FAULT == 202)
        r[PIL_RECORD_LISTENER] = 0;
    if (MODEL_FAULT == 203)
        stop_sending(r, PIL_TALKER_IDLE);
    return frame + (MODEL_FAULT == 204);
}

/* Bytes that the reply of a sending state has left. */
static unsigned left_to_send(const uint8_t *r, unsigned talker)
{
    switch (talker) {
    case PIL_TALKER_DATA: return r[PIL_RECORD_DATA_LENGTH] - r[PIL_RECORD_SENT];
    case PIL_TALKER_ID: return r[PIL_RECORD_ID_LENGTH] - r[PIL_RECORD_REPLY_SENT];
    default: return 1 - r[PIL_RECORD_REPLY_SENT];
    }
}

/* Only data ends in an END, and only where that was chosen (02, h). */
static unsigned next_data_byte(uint8_t *r)
{
    unsigned byte = r[PIL_RECORD_DATA + r[PIL_RECORD_SENT]];
    int ends = r[PIL_RECORD_END] == PIL_LAST_END || MODEL_FAULT == 24;

    r[PIL_RECORD_SENT]++;
    return ends && r[PIL_RECORD_SENT] == r[PIL_RECORD_DATA_LENGTH] ? byte | PIL_C2 : byte;
}

static unsigned next_other_byte(uint8_t *r)
{
    unsigned place = r[PIL_RECORD_REPLY_SENT]++;

    switch (r[PIL_RECORD_TALKER]) {
    case PIL_TALKER_STATUS: return r[PIL_RECORD_STATUS];
    case PIL_TALKER_ID: return r[PIL_RECORD_ID + place];
    default: return r[PIL_RECORD_ACCESSORY];
    }
}

/* Sends the next byte of the reply of the state it is in; some must be left. */
static unsigned send_next(uint8_t *r)
{
    unsigned byte = r[PIL_RECORD_TALKER] == PIL_TALKER_DATA ? next_data_byte(r) : next_other_byte(r);
    unsigned frame = with_service_bit(r, byte);

    set16(r + PIL_RECORD_LAST, frame);
    return frame;
}

/* SDA, SST, SDI or SAI, which asks for the reply of the given sending state. */
static unsigned asked_to_send(uint8_t *r, unsigned talker, unsigned frame)
{
    if (r[PIL_RECORD_TALKER] != PIL_TALKER_ADDRESSED || !(r[PIL_RECORD_ABILITIES] & abilities_for(talker)))
        return frame;
    if (left_to_send(r, talker) == 0)
        return ETO;
    if (talker == PIL_TALKER_STATUS && r[PIL_RECORD_SERVICE] == PIL_SERVICE_ASKING)
        r[PIL_RECORD_SERVICE] = PIL_SERVICE_POLLED;
    r[PIL_RECORD_TALKER] = (uint8_t)talker;
    return send_next(r);
}

/* A byte come back agrees with the last frame sent in its data bits and C2 (02, b). Any device may have set C1. */
static int agrees(const uint8_t *r, unsigned frame)
{
    struct decoded back = decoded_byte(frame), sent = decoded_byte(get16(r + PIL_RECORD_LAST));

    return back.offset == sent.offset && (MODEL_FAULT == 4 || back.kind == sent.kind)
        && (MODEL_FAULT != 5 || back.c1 == sent.c1);
}

static unsigned own_byte_returned(uint8_t *r, unsigned frame)
{
    unsigned end;

    if (!agrees(r, frame))
        end = ETE;
    else if (r[PIL_RECORD_NRD] || left_to_send(r, r[PIL_RECORD_TALKER]) == 0)
        end = ETO;
    else
        return send_next(r);
    stop_sending(r, PIL_TALKER_ADDRESSED);
    return end;
}

static struct pil_hopped data_or_end(uint8_t *r, unsigned frame)
{
    struct pil_hopped hopped = {0};

    if (sending(r)) {
        hopped.frame = (uint16_t)own_byte_returned(r, frame);
        return hopped;
    }
    hopped.frame = (uint16_t)with_service_bit(r, frame);
    if (r[PIL_RECORD_LISTENER]) {
        hopped.handed = 1;
        hopped.byte = (uint8_t)decoded_byte(frame).offset;
        hopped.end = decoded_byte(frame).kind == PIL_KIND_END;
    }
    return hopped;
}

/* A command, which goes on unchanged; here those that simple and extended devices obey alike. */
static void obey_command(uint8_t *r, unsigned kind, unsigned frame)
{
    switch (kind) {
    case PIL_KIND_UNL: r[PIL_RECORD_LISTENER] = 0; break;
    case PIL_KIND_UNT: stop_sending(r, PIL_TALKER_IDLE); break;
    case PIL_KIND_IFC: interface_clear(r); break;
    case PIL_KIND_REN: remote_enable(r); break;
    case PIL_KIND_NRE: not_remote_enable(r); break;
    case PIL_KIND_LLO: local_lockout(r); break;
    case PIL_KIND_GTL: go_to_local(r); break;
    case PIL_KIND_PPE: poll_enable(r, decoded(PIL_KIND_PPE, frame).offset); break;
    case PIL_KIND_PPD: poll_disable(r); break;
    case PIL_KIND_PPU: poll_unconfigure(r); break;
    default: break;
    }
}

/* A simple device has no second address, and lets SAD go by. */
static void simple_obeys(uint8_t *r, unsigned kind, unsigned frame)
{
    switch (kind) {
    case PIL_KIND_LAD: listen_address(r, decoded(PIL_KIND_LAD, frame).offset); break;
    case PIL_KIND_TAD: talk_address(r, decoded(PIL_KIND_TAD, frame).offset); break;
    case PIL_KIND_AAU: auto_address_unconfigure(r); break;
    case PIL_KIND_SAD:
        if (MODEL_FAULT == 236)
            stop_sending(r, PIL_TALKER_IDLE);
        if (MODEL_FAULT == 237 && able_to_listen(r) && decoded(PIL_KIND_SAD, frame).offset == r[PIL_RECORD_ADDRESS])
            addressed_to_listen(r);
        break;
    default: obey_command(r, kind, frame);
    }
}

/* The commands that send back to LPIS and TPIS: all of them (02, i: kinds 3 to 24), and no ready frame. With each of
   the faults 208 to 226 there is one that does not. */
static int ends_primaries(unsigned kind)
{
    static const uint8_t kinds[] = {PIL_KIND_NUL, PIL_KIND_GTL, PIL_KIND_SDC, PIL_KIND_PPD, PIL_KIND_GET, PIL_KIND_LLO,
                                    PIL_KIND_DCL, PIL_KIND_PPU, PIL_KIND_EAR, PIL_KIND_UNL, PIL_KIND_UNT, PIL_KIND_PPE,
                                    PIL_KIND_IFC, PIL_KIND_REN, PIL_KIND_NRE, PIL_KIND_AAU, PIL_KIND_LPD, PIL_KIND_DDL,
                                    PIL_KIND_DDT};
    const unsigned first_fault = 208, faults = sizeof kinds;

    if (MODEL_FAULT >= first_fault && MODEL_FAULT < first_fault + faults && kind == kinds[MODEL_FAULT - first_fault])
        return 0;
    if (MODEL_FAULT == 227 && kind == PIL_KIND_NONE)
        return 1;
    return kind >= PIL_KIND_NUL && kind <= PIL_KIND_DDT;
}

/* A command that a fault has an extended device leave alone. */
static int passed_over(unsigned kind)
{
    return (MODEL_FAULT == 231 && kind == PIL_KIND_UNT) || (MODEL_FAULT == 232 && kind == PIL_KIND_UNL)
        || (MODEL_FAULT == 233 && kind == PIL_KIND_IFC);
}

/* MLA, MTA and MSA see to the flags themselves. */
static void extended_obeys(uint8_t *r, unsigned kind, unsigned frame)
{
    switch (kind) {
    case PIL_KIND_LAD: listen_primary(r, decoded(PIL_KIND_LAD, frame).offset); return;
    case PIL_KIND_TAD: talk_primary(r, decoded(PIL_KIND_TAD, frame).offset); return;
    case PIL_KIND_SAD: secondary_address(r, decoded(PIL_KIND_SAD, frame).offset); return;
    case PIL_KIND_AAU: auto_extended_unconfigure(r); break;
    default:
        if (!passed_over(kind))
            obey_command(r, kind, frame);
    }
    if (ends_primaries(kind))
        forget_primaries(r);
}

static void note_not_ready(uint8_t *r)
{
    if (sending(r))
        r[PIL_RECORD_NRD] = 1;
}

/* Gives the frame sent for a frame other than data or end. */
static unsigned command_ready_or_identify(uint8_t *r, unsigned kind, unsigned frame)
{
    switch (kind) {
    case PIL_KIND_SDA: return asked_to_send(r, PIL_TALKER_DATA, frame);
    case PIL_KIND_SST: return asked_to_send(r, PIL_TALKER_STATUS, frame);
    case PIL_KIND_SDI: return asked_to_send(r, PIL_TALKER_ID, frame);
    case PIL_KIND_SAI: return asked_to_send(r, PIL_TALKER_ACCESSORY, frame);
    case PIL_KIND_AAD: return auto_address(r, decoded(PIL_KIND_AAD, frame).offset, frame);
    case PIL_KIND_AES: return auto_extended_secondary(r, decoded(PIL_KIND_AES, frame).offset, frame);
    case PIL_KIND_AEP: return auto_extended_primary(r, decoded(PIL_KIND_AEP, frame).offset, frame);
    case PIL_KIND_IDY: return identify(r, frame);
    case PIL_KIND_NRD: note_not_ready(r); return frame;
    default: (extended(r) ? extended_obeys : simple_obeys)(r, kind, frame); return frame;
    }
}

/* Frames that a fault has an extended device take for more than they are. */
static void taken_for_more(uint8_t *r, unsigned kind)
{
    if (MODEL_FAULT == 206 && kind == PIL_KIND_IES)
        auto_extended_secondary(r, PIL_NO_ADDRESS, 0);
    if (MODEL_FAULT == 207 && kind == PIL_KIND_IEP)
        auto_extended_primary(r, PIL_NO_ADDRESS, 0);
    if (MODEL_FAULT == 228 && kind > PIL_KIND_DDT && kind < PIL_KIND_IDY)
        forget_primaries(r);
    if (MODEL_FAULT == 230 && kind == PIL_KIND_IDY)
        forget_primaries(r);
}

static struct pil_hopped device_takes(uint8_t *r, unsigned frame)
{
    struct pil_hopped hopped = {0};
    unsigned kind;

    if (MODEL_FAULT == 229 && frame <= messages[PIL_KIND_END].last)
        forget_primaries(r);
    if (frame <= messages[PIL_KIND_END].last)
        return data_or_end(r, frame);
    kind = kind_of(frame);
    taken_for_more(r, kind);
    hopped.event = (uint8_t)event_of(r, kind);
    if (MODEL_FAULT == 67 && hopped.event == PIL_EVENT_CLEAR)
        r[PIL_RECORD_LISTENER] = 0;
    if (MODEL_FAULT == 111 && hopped.event == PIL_EVENT_CLEAR)
        r[PIL_RECORD_POLL] = PIL_POLL_NONE;
    hopped.frame = (uint16_t)command_ready_or_identify(r, kind, frame);
    return hopped;
}

/* The calls: 01, the part of that name. Conditions are asked in the order of the refusals' numbers. */

/* Makes a record of zeros the power-on record of the item. */
static void power_on(uint8_t *r, const uint8_t *item, size_t length)
{
    r[PIL_RECORD_ABILITIES] = item[PIL_ITEM_ABILITIES];
    r[PIL_RECORD_MORE] = (uint8_t)more_of_item(item, length);
    r[PIL_RECORD_FIXED] = item[PIL_ITEM_FIXED];
    r[PIL_RECORD_ADDRESS] = item[PIL_ITEM_FIXED];
    r[PIL_RECORD_FIXED_SECOND] = (uint8_t)second_of_item(item, length);
    if (MODEL_FAULT != 234)
        r[PIL_RECORD_SECOND] = (uint8_t)second_of_item(item, length);
    r[PIL_RECORD_ACCESSORY] = item[PIL_ITEM_ACCESSORY];
    r[PIL_RECORD_ID_LENGTH] = item[PIL_ITEM_ID_LENGTH];
    memcpy(r + PIL_RECORD_ID, item + PIL_ITEM_ID, PIL_MOST_ID);
}

/* The number of devices whose area has this length, 0 if there is none. */
static unsigned devices_of_length(size_t area_len)
{
    size_t none = PIL_AREA_LENGTH(0), each = PIL_AREA_LENGTH(1) - none;
    unsigned most = PIL_MOST_DEVICES + (MODEL_FAULT == 21);

    if (area_len <= none || area_len > PIL_AREA_LENGTH(most) || (area_len - none) % each != 0)
        return 0;
    return (unsigned)((area_len - none) / each);
}

/* The length of each item where n of them, all alike, have this length together; 0 if there is no such item (02, f and
   i). */
static size_t length_of_item(size_t items_len, unsigned n)
{
    size_t each = items_len / n;

    if (items_len % n != 0 && MODEL_FAULT != 94)
        return 0;
    return each == PIL_ITEM_LENGTH || each == PIL_POLL_ITEM_LENGTH
        || (each == PIL_EXTENDED_ITEM_LENGTH && MODEL_FAULT != 235)
        || (MODEL_FAULT == 95 && each == PIL_EXTENDED_ITEM_LENGTH + 1) ? each : 0;
}

uint8_t model_set_up(uint8_t *area, size_t area_len, const uint8_t *items, size_t items_len)
{
    unsigned n = devices_of_length(area_len);
    size_t length = n == 0 ? 0 : length_of_item(items_len, n);
    size_t step = MODEL_FAULT == 112 ? PIL_ITEM_LENGTH : length;

    if (length == 0)
        return PIL_SHAPE;
    for (unsigned i = 0; i < n; i++)
        if (!item_allowed(items + i * step, length))
            return PIL_UNSOUND;
    memset(area, 0, area_len);
    area[PIL_HEADER_DEVICES] = (uint8_t)n;
    for (unsigned i = 0; i < n; i++)
        power_on(area + PIL_RECORD_AT(i), items + i * step, length);
    return PIL_ACCEPTED;
}

uint8_t model_put(uint8_t *area, size_t area_len, uint64_t frame)
{
    uint8_t refusal = shape_and_soundness(area, area_len);

    if (refusal)
        return refusal;
    if (frame >= PIL_FRAMES)
        return PIL_BAD_FRAME;
    if (link_full(link_of(area, 0)))
        return PIL_FULL;
    link_add(link_of(area, 0), (unsigned)frame);
    return PIL_ACCEPTED;
}

/* A hop of a device that can hop. */
static struct pil_hopped hop(uint8_t *area, unsigned device)
{
    unsigned frame = link_take_oldest(link_of(area, device));
    struct pil_hopped hopped = device_takes(area + PIL_RECORD_AT(device), frame);

    link_add(link_of(area, device + 1), hopped.frame);
    return hopped;
}

static uint8_t hop_refusal(uint8_t *area, uint64_t device)
{
    if (device >= area[PIL_HEADER_DEVICES])
        return PIL_NO_DEVICE;
    if (link_empty(link_of(area, device)))
        return PIL_EMPTY;
    return link_full(link_of(area, device + 1)) ? PIL_FULL : PIL_ACCEPTED;
}

struct pil_hopped model_hop(uint8_t *area, size_t area_len, uint64_t device)
{
    uint8_t refusal = shape_and_soundness(area, area_len);

    if (!refusal)
        refusal = hop_refusal(area, device);
    if (refusal)
        return (struct pil_hopped){.refusal = refusal};
    return hop(area, (unsigned)device);
}

struct pil_taken model_take(uint8_t *area, size_t area_len)
{
    uint8_t refusal = shape_and_soundness(area, area_len);
    uint8_t *tail;

    if (refusal)
        return (struct pil_taken){.refusal = refusal};
    tail = link_of(area, area[PIL_HEADER_DEVICES]);
    if (link_empty(tail))
        return (struct pil_taken){.refusal = PIL_EMPTY};
    return (struct pil_taken){.frame = (uint16_t)link_take_oldest(tail)};
}

/* Refusals 1, 2 and 3 of a local call. */
static uint8_t device_refusal(const uint8_t *area, size_t area_len, uint64_t device)
{
    uint8_t refusal = shape_and_soundness(area, area_len);

    if (refusal)
        return refusal;
    return device >= area[PIL_HEADER_DEVICES] ? PIL_NO_DEVICE : PIL_ACCEPTED;
}

/* And 7, where it needs an ability. */
static uint8_t local_refusal(const uint8_t *area, size_t area_len, uint64_t device, unsigned ability)
{
    uint8_t refusal = device_refusal(area, area_len, device);

    if (refusal)
        return refusal;
    return area[PIL_RECORD_AT(device) + PIL_RECORD_ABILITIES] & ability ? PIL_ACCEPTED : PIL_NO_ABILITY;
}

static int choice_allowed(uint64_t end)
{
    return (MODEL_FAULT == 28 ? end % 256 : end) <= PIL_LAST_END + (MODEL_FAULT == 27);
}

/* A wrong choice is 2, beside an unsound area (02, h): so before 3 and all that follow it, and after 1. */
static uint8_t choice_refusal(uint8_t refusal, uint64_t end)
{
    if (choice_allowed(end) || (refusal == PIL_SHAPE && MODEL_FAULT != 30))
        return refusal;
    return MODEL_FAULT == 29 && refusal == PIL_NO_DEVICE ? refusal : PIL_UNSOUND;
}

uint8_t model_load(uint8_t *area, size_t area_len, uint64_t device, const uint8_t *bytes, size_t bytes_len,
                   uint64_t end)
{
    uint8_t refusal = choice_refusal(local_refusal(area, area_len, device, PIL_ABILITY_DATA), end);
    uint8_t *r;

    if (refusal)
        return refusal;
    if (bytes_len > PIL_MOST_DATA)
        return PIL_TOO_LONG;
    r = area + PIL_RECORD_AT(device);
    if (MODEL_FAULT == 26)
        r[PIL_RECORD_END] = (uint8_t)end;
    if (r[PIL_RECORD_TALKER] == PIL_TALKER_DATA)
        return PIL_BUSY;
    if (bytes_len > 0 || MODEL_FAULT != 25)
        r[PIL_RECORD_END] = (uint8_t)end;
    r[PIL_RECORD_DATA_LENGTH] = (uint8_t)bytes_len;
    r[PIL_RECORD_SENT] = 0;
    memset(r + PIL_RECORD_DATA, 0, PIL_MOST_DATA);
    memcpy(r + PIL_RECORD_DATA, bytes, bytes_len);
    return PIL_ACCEPTED;
}

uint8_t model_load_end(uint8_t *area, size_t area_len, uint64_t device, const uint8_t *bytes, size_t bytes_len)
{
    return model_load(area, area_len, device, bytes, bytes_len, MODEL_FAULT == 32 ? PIL_LAST_PLAIN : PIL_LAST_END);
}

uint8_t model_status(uint8_t *area, size_t area_len, uint64_t device, uint8_t status)
{
    uint8_t refusal = local_refusal(area, area_len, device, PIL_ABILITY_STATUS);

    if (!refusal)
        area[PIL_RECORD_AT(device) + PIL_RECORD_STATUS] = status;
    return refusal;
}

uint8_t model_wish(uint8_t *area, size_t area_len, uint64_t device, uint64_t wish)
{
    uint8_t refusal = local_refusal(area, area_len, device, PIL_ABILITY_SERVICE);
    uint8_t *service;

    if (refusal)
        return refusal;
    service = area + PIL_RECORD_AT(device) + PIL_RECORD_SERVICE;
    if (wish == 0)
        *service = PIL_SERVICE_NONE;
    else if (*service == PIL_SERVICE_NONE)
        *service = PIL_SERVICE_ASKING;
    return PIL_ACCEPTED;
}

/* The key does nothing in most states, and is accepted in all of them. */
uint8_t model_key(uint8_t *area, size_t area_len, uint64_t device)
{
    uint8_t refusal = MODEL_FAULT == 68 ? local_refusal(area, area_len, device, PIL_ABILITY_LISTEN)
                                        : device_refusal(area, area_len, device);

    if (!refusal)
        press_key(area + PIL_RECORD_AT(device));
    return refusal;
}

uint8_t model_poll_status(uint8_t *area, size_t area_len, uint64_t device, uint64_t status)
{
    uint8_t refusal = MODEL_FAULT == 104 ? local_refusal(area, area_len, device, PIL_ABILITY_LISTEN)
                                         : device_refusal(area, area_len, device);

    if (refusal)
        return refusal;
    if (!pollable(area + PIL_RECORD_AT(device)) && MODEL_FAULT != 87)
        return PIL_NO_ABILITY;
    individual_status(area + PIL_RECORD_AT(device), status);
    return PIL_ACCEPTED;
}

/* The highest-numbered device that can hop, -1 if none can. */
static int highest_that_can_hop(uint8_t *area)
{
    int device = area[PIL_HEADER_DEVICES] - 1;

    while (device >= 0 && (link_empty(link_of(area, (size_t)device)) || link_full(link_of(area, (size_t)device + 1))))
        device--;
    return device;
}

/* A drain stops after a hop that handed a byte or, asked for after that, reported an event: gives 1 if it did. The
   event is the byte, and there is no end bit (02, d). */
static int stops_after(struct pil_drained *drained, int device, const struct pil_hopped *hopped, uint64_t budget)
{
    if (hopped->handed) {
        drained->reason = PIL_STOP_HANDED;
        drained->byte = hopped->byte;
        drained->end = hopped->end;
    } else if (hopped->event && MODEL_FAULT != 52 && (drained->hops < budget || MODEL_FAULT != 59)) {
        drained->reason = MODEL_FAULT == 54 ? PIL_STOP_HANDED : PIL_STOP_EVENT;
        drained->byte = MODEL_FAULT == 69 ? 0 : hopped->event;
        drained->end = MODEL_FAULT == 53;
    } else {
        return 0;
    }
    drained->device = (uint8_t)device;
    return 1;
}

struct pil_drained model_drain(uint8_t *area, size_t area_len, uint64_t budget)
{
    struct pil_drained drained = {.refusal = shape_and_soundness(area, area_len)};

    while (!drained.refusal) {
        int device = highest_that_can_hop(area);
        struct pil_hopped hopped;

        if (device < 0 || drained.hops == budget) {
            drained.reason = device < 0 ? PIL_STOP_NO_HOP : PIL_STOP_BUDGET;
            break;
        }
        hopped = hop(area, (unsigned)device);
        drained.hops++;
        if (stops_after(&drained, device, &hopped, budget))
            break;
    }
    return drained;
}

/* The hops that a link's frames owe, each one for every device ahead of it. */
static unsigned owed_by_link(const uint8_t *link, unsigned ahead)
{
    unsigned frames = link[PIL_LINK_COUNT];

    if (MODEL_FAULT == 11 && frames > 0)
        frames = 1;
    return frames * (MODEL_FAULT == 9 ? ahead - 1 : ahead);
}

/* 02, k. Ahead of a frame in link i are the devices from i on, ahead of one in the tail none. */
struct pil_owing model_owed(const uint8_t *area, size_t area_len)
{
    struct pil_owing owing = {.refusal = shape_and_soundness(area, area_len)};
    unsigned n;

    if (owing.refusal)
        return owing;
    n = area[PIL_HEADER_DEVICES];
    for (unsigned i = 0; i < n; i++)
        owing.hops += owed_by_link(area + PIL_LINK_AT(n, i), n - i);
    if (MODEL_FAULT == 10)
        owing.hops += owed_by_link(area + PIL_LINK_AT(n, n), 1);
    return owing;
}

/* The plain engine: 02, l. It has no links: what a device sends, the next one takes. */

/* The number of devices whose header and records these are, 0 if the length is wrong. */
static unsigned devices_of_records(const uint8_t *records, size_t records_len)
{
    unsigned n = records_len < PIL_RECORDS_LENGTH(1) ? 0 : records[PIL_HEADER_DEVICES];
    unsigned most = PIL_MOST_DEVICES - (MODEL_FAULT == 242) + (MODEL_FAULT == 243);

    if (MODEL_FAULT == 244 && records_len % PIL_RECORD_LENGTH == PIL_HEADER_LENGTH)
        n = (unsigned)(records_len / PIL_RECORD_LENGTH);
    if (n > most)
        return 0;
    if (MODEL_FAULT == 241 && records_len % 256 == PIL_RECORDS_LENGTH(n) % 256)
        return n;
    if (MODEL_FAULT == 245 && records_len == PIL_AREA_LENGTH(n))
        return n;
    return records_len == PIL_RECORDS_LENGTH(n) ? n : 0;
}

/* As much of soundness as there is without links. With fault 258 the other records wait for the walk. */
static int walk_sound(const uint8_t *records, unsigned n)
{
    return parts_sound(records, MODEL_FAULT == 258 ? 1 : n - (MODEL_FAULT == 248), 0);
}

static int frame_allowed(uint64_t frame)
{
    return (MODEL_FAULT == 250 ? frame % (UINT16_MAX + 1) : frame) < PIL_FRAMES + (MODEL_FAULT == 249);
}

static uint8_t walk_refusal(const uint8_t *records, unsigned n, uint64_t frame, size_t told_len)
{
    int told_right = n > 0 && (told_len == PIL_TOLD_LENGTH(n) || MODEL_FAULT == 240);

    if (n == 0 || (!told_right && MODEL_FAULT != 246))
        return PIL_SHAPE;
    if (MODEL_FAULT == 256 && !frame_allowed(frame))
        return PIL_BAD_FRAME;
    if (!walk_sound(records, n))
        return PIL_UNSOUND;
    if (!told_right)
        return PIL_SHAPE;
    return frame_allowed(frame) ? PIL_ACCEPTED : PIL_BAD_FRAME;
}

/* Tells of device i of n what its hop would answer. With fault 260 what is told stands by what it is, not by device. */
static void tell(uint8_t *told, unsigned i, unsigned n, const struct pil_hopped *hopped)
{
    uint8_t *at = told + (MODEL_FAULT == 260 ? i : PIL_TOLD_AT(i));
    unsigned step = MODEL_FAULT == 260 ? n : 1;

    if (MODEL_FAULT == 251 && !hopped->handed && !hopped->event)
        return;
    at[PIL_TOLD_HANDED * step] = hopped->handed;
    at[PIL_TOLD_BYTE * step] = hopped->byte;
    at[PIL_TOLD_END * step] = MODEL_FAULT == 253 ? 0 : hopped->end;
    at[PIL_TOLD_EVENT * step] = MODEL_FAULT == 252 ? 0 : hopped->event;
}

/* Past each of n devices; gives the frame that comes out. */
static struct pil_walked walk(uint8_t *records, unsigned n, unsigned frame, uint8_t *told)
{
    unsigned put = frame, came = frame;

    for (unsigned i = 0; i < n - (MODEL_FAULT == 255); i++) {
        uint8_t *r = records + PIL_RECORD_AT(i);
        struct pil_hopped hopped;

        if (MODEL_FAULT == 258 && !record_sound(r))
            return (struct pil_walked){.refusal = PIL_UNSOUND};
        came = frame;
        hopped = device_takes(r, MODEL_FAULT == 254 ? put : frame);
        tell(told, i, n, &hopped);
        frame = hopped.frame;
    }
    return (struct pil_walked){.frame = (uint16_t)(MODEL_FAULT == 259 ? came : frame)};
}

struct pil_walked model_walk(uint8_t *records, size_t records_len, uint64_t frame, uint8_t *told, size_t told_len)
{
    unsigned n = devices_of_records(records, records_len);
    uint8_t refusal = walk_refusal(records, n, frame, told_len);

    if (MODEL_FAULT == 257 && refusal == PIL_BAD_FRAME)
        memset(told, 0, told_len);
    if (refusal)
        return (struct pil_walked){.refusal = refusal};
    return walk(records, n, (unsigned)frame, told);
}

/* Saved loops: 02, a and h. The bodies of a save in a row are the bytes of its area, but for the edition. */

/* What is left of a save to read, and where its next body goes. */
struct reading {
    const uint8_t *at;
    size_t left;
    uint8_t *to;
};

/* Writes a body behind its head; gives the place behind it. */
static uint8_t *write_body(uint8_t *at, unsigned kind, const uint8_t *body, unsigned length)
{
    set16(at + PIL_SAVE_BODY_LENGTH, length);
    set16(at + PIL_SAVE_BODY_LENGTH + 2, 0);
    set16(at + PIL_SAVE_KIND, kind);
    memcpy(at + PIL_SAVE_HEAD_LENGTH, body, length);
    return at + PIL_SAVE_HEAD_LENGTH + length;
}

uint8_t model_save(const uint8_t *area, size_t area_len, uint8_t *save, size_t save_len)
{
    uint8_t *at;
    unsigned n;

    if (!shape_right(area, area_len))
        return PIL_SHAPE;
    n = area[PIL_HEADER_DEVICES];
    if (save_len != PIL_SAVE_LENGTH(n) && (MODEL_FAULT != 18 || area_sound(area)))
        return PIL_SHAPE;
    if (!area_sound(area))
        return PIL_UNSOUND;
    at = write_body(save, PIL_SAVED_HEADER, area, PIL_HEADER_LENGTH);
    save[PIL_SAVE_EDITION] = MODEL_FAULT == 33 ? PIL_EDITION_OLD : PIL_EDITION_NOW;
    for (unsigned i = 0; i < n; i++)
        at = write_body(at, PIL_SAVED_RECORD, area + PIL_RECORD_AT(i), PIL_RECORD_LENGTH);
    for (unsigned i = 0; i <= n; i++)
        at = write_body(at, PIL_SAVED_LINK, area + PIL_LINK_AT(n, i), PIL_LINK_LENGTH);
    return PIL_ACCEPTED;
}

static int head_right(const uint8_t *head, unsigned kind, unsigned length)
{
    uint32_t length_told = get32(head + PIL_SAVE_BODY_LENGTH);
    unsigned kind_told = get16(head + PIL_SAVE_KIND);

    return (MODEL_FAULT == 12 ? length_told % 256 : length_told) == length
        && (MODEL_FAULT == 13 ? kind_told % 256 : kind_told) == kind;
}

/* Reads the next body, which must be there, of this kind and of this length. */
static inline int read_body(struct reading *r, unsigned kind, unsigned length)
{
    size_t whole = PIL_SAVE_HEAD_LENGTH + length;

    if (r->left < whole || !head_right(r->at, kind, length))
        return 0;
    memcpy(r->to, r->at + PIL_SAVE_HEAD_LENGTH, length);
    r->at += whole;
    r->left -= whole;
    r->to += length;
    return 1;
}

static int is_edition(unsigned edition)
{
    return edition <= PIL_EDITION_NOW + (MODEL_FAULT == 34) || MODEL_FAULT == 35;
}

/* Reads all of a save into a loop's area; gives 0 where it is none. The contents are not judged. */
static int read_save(struct reading *r)
{
    const uint8_t *devices = r->to + PIL_HEADER_DEVICES, *edition = r->to + HEADER_EDITION;

    if (!read_body(r, PIL_SAVED_HEADER, PIL_HEADER_LENGTH) || !is_edition(*edition))
        return 0;
    if (*devices < 1 || *devices > (MODEL_FAULT == 22 ? PIL_MOST_DEVICES / 2 : PIL_MOST_DEVICES + (MODEL_FAULT == 19)))
        return 0;
    for (unsigned i = 0; i < *devices; i++)
        if (!read_body(r, PIL_SAVED_RECORD, PIL_RECORD_LENGTH))
            return 0;
    for (unsigned i = 0; i <= *devices; i++)
        if (!read_body(r, PIL_SAVED_LINK, PIL_LINK_LENGTH))
            return 0;
    return r->left == 0 || MODEL_FAULT == 14;
}

/* Whether the loop read is that of an old save. The area has a zero where a save has its edition. */
static int take_edition(uint8_t *loop)
{
    int old = loop[HEADER_EDITION] == PIL_EDITION_OLD;

    if (MODEL_FAULT != 35 || loop[HEADER_EDITION] == PIL_EDITION_NOW)
        loop[HEADER_EDITION] = 0;
    return old;
}

/* The records are judged as they stand in the save; in an old one none may have a choice (02, h). */
static int saved_sound(const uint8_t *loop, int old)
{
    if (!area_sound(loop))
        return 0;
    for (unsigned i = 0; old && i < loop[PIL_HEADER_DEVICES]; i++)
        if (loop[PIL_RECORD_AT(i) + PIL_RECORD_END] != 0 && MODEL_FAULT != 39)
            return 0;
    return 1;
}

/* The loop of an old save, whose data still ends in an END: each device with data has chosen it (02, h). */
static void choose_end(uint8_t *loop)
{
    for (unsigned i = 0; i < loop[PIL_HEADER_DEVICES] && MODEL_FAULT != 37; i++) {
        uint8_t *r = loop + PIL_RECORD_AT(i);

        if (r[PIL_RECORD_DATA_LENGTH] > 0 || MODEL_FAULT == 38)
            r[PIL_RECORD_END] = PIL_LAST_END;
    }
}

/* The order of the refusals is the request's: 10, 1, 2. */
uint8_t model_open(uint8_t *area, size_t area_len, const uint8_t *save, size_t save_len)
{
    uint8_t loop[PIL_AREA_LENGTH(PIL_MOST_DEVICES + (MODEL_FAULT == 19))];
    int read = read_save(&(struct reading){save, save_len, loop}), old;

    if (MODEL_FAULT == 16 && devices_of_length(area_len) == 0)
        return PIL_SHAPE;
    if (!read)
        return PIL_BAD_SAVE;
    old = take_edition(loop);
    if (MODEL_FAULT == 15)
        memset(loop + PIL_HEADER_ZEROS, 0, PIL_HEADER_LENGTH - PIL_HEADER_ZEROS);
    if (MODEL_FAULT == 17 && !saved_sound(loop, old))
        return PIL_UNSOUND;
    if (area_len != PIL_AREA_LENGTH(loop[PIL_HEADER_DEVICES]))
        return PIL_SHAPE;
    if (!saved_sound(loop, old))
        return PIL_UNSOUND;
    if (old || MODEL_FAULT == 40)
        choose_end(loop);
    if (MODEL_FAULT == 36)
        loop[HEADER_EDITION] = !old;
    memcpy(area, loop, area_len);
    return PIL_ACCEPTED;
}

/* The lister: 01, Rows for the table, its last part. */

struct listing {
    uint8_t area[PIL_AREA_LENGTH(PIL_MOST_DEVICES)];
    size_t area_len;
    char *out;
    size_t length;
};

/* The value of count lower-case hexadecimal digits, -1 for any other form. */
static int digits(const char *text, size_t count)
{
    int value = 0;

    for (size_t i = 0; i < count; i++) {
        if (text[i] >= '0' && text[i] <= '9')
            value = 16 * value + (text[i] - '0');
        else if (text[i] >= 'a' && text[i] <= 'f')
            value = 16 * value + (text[i] - 'a' + 10);
        else
            return -1;
    }
    return value;
}

/* Line 1: "loop" and, for each device, a space, its abilities and its fixed address. Gives 0 if it is wrong. */
static int first_line(struct listing *list, const char *line, size_t length)
{
    uint8_t items[PIL_ITEMS_LENGTH(PIL_MOST_DEVICES)] = {0};
    size_t n = length < 4 ? 0 : (length - 4) / 5;

    if (length != 4 + 5 * n || memcmp(line, "loop", 4) != 0 || n > PIL_MOST_DEVICES)
        return 0;
    for (size_t i = 0; i < n; i++) {
        const char *field = line + 4 + 5 * i;
        int value = digits(field + 1, 4);

        if (field[0] != ' ' || value < 0)
            return 0;
        items[PIL_ITEMS_LENGTH(i) + PIL_ITEM_ABILITIES] = (uint8_t)(value >> 8);
        items[PIL_ITEMS_LENGTH(i) + PIL_ITEM_FIXED] = (uint8_t)value;
    }
    list->area_len = PIL_AREA_LENGTH(n);
    return model_set_up(list->area, list->area_len, items, PIL_ITEMS_LENGTH(n)) == PIL_ACCEPTED;
}

/* A later line: a frame, sent right round. Gives 0 if it is wrong. */
static int frame_line(struct listing *list, const char *line, size_t length)
{
    int frame = length == 3 ? digits(line, 3) : -1;

    if (frame < 0 || model_put(list->area, list->area_len, (uint64_t)frame) != PIL_ACCEPTED)
        return 0;
    for (unsigned i = 0; i < list->area[PIL_HEADER_DEVICES]; i++) {
        struct pil_hopped hopped = model_hop(list->area, list->area_len, i);

        if (hopped.handed)
            list->length += (size_t)sprintf(list->out + list->length, "hand %u %02x %u\n", i,
                                            hopped.byte, hopped.end);
    }
    list->length += (size_t)sprintf(list->out + list->length, "%03x %03x\n", (unsigned)frame,
                                    model_take(list->area, list->area_len).frame);
    return 1;
}

size_t model_list(const char *text, size_t length, char *out)
{
    struct listing list = {.out = out};
    const char *line = text, *end = text + length;
    unsigned number = 1;

    if (length > MODEL_MOST_TEXT)
        return (size_t)sprintf(out, "long\n");
    do {
        const char *newline = line == end ? NULL : memchr(line, '\n', (size_t)(end - line));
        size_t line_length = (size_t)((newline ? newline : end) - line);

        if (!(number == 1 ? first_line : frame_line)(&list, line, line_length))
            return list.length + (size_t)sprintf(out + list.length, "bad %u\n", number);
        line = newline ? newline + 1 : end;
        number++;
    } while (line < end);
    return list.length;
}
