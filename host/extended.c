/* The tables of extended.h: what a frame is, and what becomes of addresses, primaries, listener and talker by it. */
#include "extended.h"

#include <string.h>

const char *const called_names[CALLED] = {
    "its own LAD", "its own LAD without ability 1", "another's LAD", "its own TAD", "its own TAD without 2 to 16",
    "another's TAD", "its own SAD", "another's SAD", "NUL", "GTL", "SDC", "PPD", "GET", "LLO", "DCL", "PPU", "EAR",
    "UNL", "UNT", "PPE", "IFC", "REN", "NRE", "AAU", "LPD", "DDL", "DDT", "no message, 400-4ff", "AES", "IES", "AEP",
    "IEP", "AAD", "IAA", "another ready frame", "IDY", "DAB or END"
};

static const struct {
    uint16_t first, last;
    enum called called;
} codes[] = {
    {0x000, 0x3ff, GOT_DATA}, {0x400, 0x400, GOT_NUL}, {0x401, 0x401, GOT_GTL}, {0x404, 0x404, GOT_SDC},
    {0x405, 0x405, GOT_PPD}, {0x408, 0x408, GOT_GET}, {0x411, 0x411, GOT_LLO}, {0x414, 0x414, GOT_DCL},
    {0x415, 0x415, GOT_PPU}, {0x418, 0x418, GOT_EAR}, {0x420, 0x43e, OTHER_LAD}, {0x43f, 0x43f, GOT_UNL},
    {0x440, 0x45e, OTHER_TAD}, {0x45f, 0x45f, GOT_UNT}, {0x460, 0x47e, OTHER_SAD}, {0x480, 0x48f, GOT_PPE},
    {0x490, 0x490, GOT_IFC}, {0x492, 0x492, GOT_REN}, {0x493, 0x493, GOT_NRE}, {0x49a, 0x49a, GOT_AAU},
    {0x49b, 0x49b, GOT_LPD}, {0x4a0, 0x4bf, GOT_DDL}, {0x4c0, 0x4df, GOT_DDT}, {0x580, 0x59e, GOT_AAD},
    {0x59f, 0x59f, GOT_IAA}, {0x5a0, 0x5be, GOT_AEP}, {0x5bf, 0x5bf, GOT_IEP}, {0x5c0, 0x5de, GOT_AES},
    {0x5df, 0x5df, GOT_IES}, {0x600, 0x7ff, GOT_IDY},
    {0x400, 0x4ff, NO_COMMAND}, {0x500, 0x5ff, OTHER_READY} /* what is left of these */
};

enum { LISTEN = 1, TALK = 2 + 4 + 8 + 16, UNADDRESS = 64, ADDRESSES = 32, STAYS = 255 };

/* Listener and talker after the own SAD, by the primaries whose ability is there, without 64 and with it. */
static const uint8_t listener_after_sad[PRIMARIES][2] = {{STAYS, STAYS}, {1, 1}, {STAYS, 0}, {1, 0}};
static const uint8_t talker_after_sad[PRIMARIES][2] = {{STAYS, STAYS}, {STAYS, 0}, {1, 1}, {1, 1}};

int is_extended(const uint8_t *record)
{
    return record[PIL_RECORD_MORE] / 2 % 2;
}

static enum called range_of(unsigned frame)
{
    unsigned i = 0;

    while (frame < codes[i].first || frame > codes[i].last)
        i++;
    return codes[i].called;
}

/* LAD, TAD and SAD begin at multiples of 32. */
enum called called(const uint8_t *record, unsigned frame)
{
    enum called by = range_of(frame);
    int primary = frame % ADDRESSES == record[PIL_RECORD_ADDRESS];

    if (by == OTHER_LAD && primary)
        return record[PIL_RECORD_ABILITIES] & LISTEN ? OWN_LAD : UNABLE_LAD;
    if (by == OTHER_TAD && primary)
        return record[PIL_RECORD_ABILITIES] & TALK ? OWN_TAD : UNABLE_TAD;
    if (by == OTHER_SAD && frame % ADDRESSES == record[PIL_RECORD_SECOND] % ADDRESSES)
        return OWN_SAD;
    return by;
}

enum primaries primaries(const uint8_t *record)
{
    return (enum primaries)(record[PIL_RECORD_FIXED_SECOND] / 32 + record[PIL_RECORD_SECOND] / 32 * 2);
}

enum primaries able_primaries(const uint8_t *record)
{
    unsigned able = (record[PIL_RECORD_ABILITIES] & LISTEN ? LISTEN_PRIMARY : 0)
                  | (record[PIL_RECORD_ABILITIES] & TALK ? TALK_PRIMARY : 0);

    return (enum primaries)(primaries(record) & able);
}

enum assigned assigned(const uint8_t *record)
{
    if (record[PIL_RECORD_CONFIGURED] < 2)
        return record[PIL_RECORD_CONFIGURED] ? ASSIGNED : UNASSIGNED;
    return record[PIL_RECORD_SECOND] % ADDRESSES == 31 ? HALF_AT_31 : HALF;
}

/* Any command but the device's own LAD, TAD and SAD ends both. */
static unsigned primaries_after(const uint8_t *was, enum called by)
{
    if (by == OWN_LAD)
        return LISTEN_PRIMARY;
    if (by == OWN_TAD)
        return TALK_PRIMARY;
    return by == OWN_SAD || by >= COMMANDS_CALLED ? primaries(was) : NO_PRIMARY;
}

/* Bytes 2, 3, 20 and 21, which AES, AEP and AAU alone assign. */
static int assigned_right(const uint8_t *was, const uint8_t *now, enum called by, unsigned frame)
{
    unsigned fixed = was[PIL_RECORD_FIXED_SECOND] % ADDRESSES, second = was[PIL_RECORD_SECOND] % ADDRESSES;
    unsigned address = was[PIL_RECORD_ADDRESS], configured = was[PIL_RECORD_CONFIGURED];
    unsigned after = primaries_after(was, by);

    if (by == GOT_AES && assigned(was) == UNASSIGNED) {
        configured = 2;
        second = frame % ADDRESSES;
    } else if (by == GOT_AEP && assigned(was) == HALF) {
        configured = 1;
        address = frame % ADDRESSES;
    } else if (by == GOT_AAU) {
        configured = 0;
        address = was[PIL_RECORD_FIXED];
        second = fixed;
    }
    return now[PIL_RECORD_FIXED] == was[PIL_RECORD_FIXED] && now[PIL_RECORD_ADDRESS] == address
        && now[PIL_RECORD_CONFIGURED] == configured && now[PIL_RECORD_FIXED_SECOND] == fixed + 32 * (after % 2)
        && now[PIL_RECORD_SECOND] == second + 32 * (after / 2);
}

static unsigned listener_after(const uint8_t *was, enum called by)
{
    if (by == GOT_UNL || by == GOT_IFC)
        return 0;
    if (by == OWN_SAD)
        return listener_after_sad[able_primaries(was)][(was[PIL_RECORD_ABILITIES] & UNADDRESS) != 0];
    return STAYS;
}

static unsigned talker_after(const uint8_t *was, enum called by)
{
    if (by == GOT_UNT || by == GOT_IFC || by == OTHER_TAD || by == UNABLE_TAD)
        return 0;
    if (by == OTHER_SAD)
        return primaries(was) & TALK_PRIMARY ? 0 : STAYS;
    if (by == OWN_SAD)
        return talker_after_sad[able_primaries(was)][(was[PIL_RECORD_ABILITIES] & UNADDRESS) != 0];
    return STAYS;
}

/* A talker that is addressed anew or idle has no reply under way. */
static int talker_right(const uint8_t *was, const uint8_t *now, unsigned after)
{
    static const uint8_t places[] = {PIL_RECORD_NRD, PIL_RECORD_LAST, PIL_RECORD_LAST + 1, PIL_RECORD_REPLY_SENT};

    for (unsigned i = 0; i < sizeof places; i++)
        if (now[places[i]] != (after == STAYS ? was[places[i]] : 0))
            return 0;
    return now[PIL_RECORD_TALKER] == (after == STAYS ? was[PIL_RECORD_TALKER] : after);
}

/* Talkers and what they send after the other frames are not of 2.15. */
static int is_judged(enum called by)
{
    return by <= GOT_IAA;
}

static int extended_right(const uint8_t *was, const uint8_t *now, unsigned frame, unsigned sent)
{
    enum called by = called(was, frame);
    unsigned listener = listener_after(was, by);

    if (!assigned_right(was, now, by, frame))
        return 0;
    if (now[PIL_RECORD_LISTENER] != (listener == STAYS ? was[PIL_RECORD_LISTENER] : listener))
        return 0;
    if (!is_judged(by))
        return 1;
    return talker_right(was, now, talker_after(was, by))
        && sent == frame + (by == GOT_AES && assigned(was) == UNASSIGNED);
}

/* SAD, AES, AEP and the illegal codes pass a simple device by. */
static int simple_right(const uint8_t *was, const uint8_t *now, unsigned frame, unsigned sent)
{
    enum called by = range_of(frame);
    int passes = by == OTHER_SAD || (by >= GOT_AES && by <= GOT_IEP);

    if (now[PIL_RECORD_FIXED_SECOND] != 0 || now[PIL_RECORD_SECOND] != 0)
        return 0;
    return !passes || (sent == frame && memcmp(was, now, PIL_RECORD_LENGTH) == 0);
}

int addressed_right(const uint8_t *was, const uint8_t *now, unsigned frame, unsigned sent)
{
    return is_extended(was) ? extended_right(was, now, frame, sent) : simple_right(was, now, frame, sent);
}
