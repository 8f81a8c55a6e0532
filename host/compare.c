/* Compares libpil with the model, call by call: answers, all bytes lent out and in, those beside them, hops owed.
   Use: compare [seed [calls]]. Exit 0: all equal; 1: a difference; 2: a full run reached too little; 3: wrong use. */
#include "both.h"
#include "chance.h"
#include "extended.h"
#include "lent.h"
#include "order.h"
#include "polls.h"
#include "spoil.h"
#include "walks.h"

#include <inttypes.h>
#include <signal.h>
#include <stdio.h>
#include <stdlib.h>
#include <string.h>

#if __has_include("pil_kinds.h")
#include "pil_kinds.h"
#define HAVE_KINDS 1
#else
#define HAVE_KINDS 0
#endif

enum {
    PIL, MODEL,
    ROOM = GUARD + PIL_AREA_LENGTH(PIL_MOST_DEVICES + 1) + GUARD, /* longer than the longest area */
    SAVED_ROOM = GUARD + PIL_SAVE_LENGTH(PIL_MOST_DEVICES + 1) + GUARD, /* longer than the longest save */
    INPUT_ROOM = SAVE_ROOM,                                 /* items, bytes to load or a save to open */
    LONGER_ITEM = PIL_EXTENDED_ITEM_LENGTH + 1,             /* than any item */
    ITEMS_ROOM = LONGER_ITEM * (PIL_MOST_DEVICES + 2),      /* longest items tried */
    MOST_LOAD = 40,                                         /* longest load tried */
    DEFAULT_SEED = 20240,
    DEFAULT_CALLS = 1300000,
    FULL_RUN = 1000000, /* calls from which on the counts below are demanded */
    LEAST = 100, /* how often each refusal must be given, and bytes come back, messages, hops owed, loads, ends of data,
                    events, set-ups, saves, openings, poll statuses, counts of polls, variants of devices and walks be
                    met in each way */
    LEAST_MOVES = 10, /* how often each message must come to a device in each state of remote and local, of polls and of
                         extended addresses, each IDY meet each answer, each event come to a sender, and each number of
                         ones be counted */
    LONG = 8,    /* a loop of so many devices or more is a long one */
    MOST_OWED = 2 * PIL_MOST_DEVICES * (PIL_MOST_DEVICES + 1), /* hops */
    FORMER_MOST = 15, /* devices of the longest loop before 02, j */
    KEPT = 8,    /* saves that are kept for later */
    REFUSALS = PIL_BAD_SAVE + 1,
    TALKERS = PIL_TALKER_ACCESSORY + 1,
    REMOTES = PIL_REMOTE_LOCKED + 1,
    STANDINGS = 2 * REMOTES, /* states of remote and local, while not enabled and while enabled */
    REASONS = PIL_STOP_EVENT + 1
};

/* How a byte comes back to the device that sent it: the control bits in which it differs, or a data bit. */
enum returned { AS_SENT, OTHER_C1, OTHER_C2, OTHER_C1_AND_C2, OTHER_DATA, RETURNED };

/* Loads by what they ask for: by a choice, by a number that is none, or by load_end. */
enum asking { BY_CHOICE, BY_NO_CHOICE, BY_LOAD_END, ASKINGS };

/* The refusals that a load can give, acceptance first. */
static const uint8_t load_refusals[] = {PIL_ACCEPTED, PIL_SHAPE, PIL_UNSOUND, PIL_NO_DEVICE, PIL_NO_ABILITY,
                                        PIL_TOO_LONG, PIL_BUSY};

enum { LOAD_REFUSALS = sizeof load_refusals };

/* A choice that is stored over the other one, by a load of bytes or of none. */
enum storing { PLAIN_WITH_BYTES, END_WITH_BYTES, PLAIN_WITH_NONE, END_WITH_NONE, STORINGS };

/* What moves a device between remote and local (02, d), and what might be taken for it: its own LAD where it lacks
   ability 1, the LAD of another, GTL where it is no listener, and IFC. */
enum mover {
    BY_REN, BY_NRE, BY_OWN_LAD, BY_UNABLE_LAD, BY_OTHER_LAD, BY_LLO, BY_GTL, BY_UNADDRESSED_GTL, BY_IFC, BY_KEY, MOVERS
};

static const char *const movers[MOVERS] = {
    "REN", "NRE", "its own LAD", "its own LAD without ability 1", "another's LAD", "LLO", "GTL at a listener",
    "GTL at no listener", "IFC", "the key"
};

/* How a device stands after it, by how it stood: the states of pil.h, and 4 more while enabled. All else leaves it. */
static const uint8_t standing_after[MOVERS + 1][STANDINGS] = {
    [BY_REN] = {4, 5, 6, 7, 4, 5, 6, 7},
    [BY_NRE] = {0, 0, 0, 0, 0, 0, 0, 0},
    [BY_OWN_LAD] = {0, 1, 2, 3, 5, 5, 7, 7},
    [BY_UNABLE_LAD] = {0, 1, 2, 3, 4, 5, 6, 7},
    [BY_OTHER_LAD] = {0, 1, 2, 3, 4, 5, 6, 7},
    [BY_LLO] = {0, 1, 2, 3, 6, 7, 6, 7},
    [BY_GTL] = {0, 0, 2, 2, 4, 4, 6, 6},
    [BY_UNADDRESSED_GTL] = {0, 1, 2, 3, 4, 5, 6, 7},
    [BY_IFC] = {0, 1, 2, 3, 4, 5, 6, 7},
    [BY_KEY] = {0, 0, 2, 3, 4, 4, 6, 7},
    [MOVERS] = {0, 1, 2, 3, 4, 5, 6, 7},
};

/* The commands that clear or trigger, at a listener and at any other device, and the event that the hop reports. */
enum acting { DCL_LISTENER, DCL_OTHER, SDC_LISTENER, SDC_OTHER, GET_LISTENER, GET_OTHER, ACTINGS };

static const uint8_t event_of[ACTINGS + 1] = {PIL_EVENT_CLEAR, PIL_EVENT_CLEAR, PIL_EVENT_CLEAR, PIL_EVENT_NONE,
                                              PIL_EVENT_TRIGGER, PIL_EVENT_NONE, PIL_EVENT_NONE};

/* A drain that stopped on an event: a clear or a trigger, with budget left or spent by that hop. */
enum event_stop { CLEAR_LEFT, TRIGGER_LEFT, CLEAR_SPENT, TRIGGER_SPENT, EVENT_STOPS };

/* How a set-up ends: with items of 12 bytes accepted or refused with 2; with items of 13 bytes accepted or refused with
   2, for a last byte alone or for others; with items of 14 bytes the same, and for their last two bytes; with 1, for
   items of lengths mixed, of 15 bytes, or of another length. */
enum setting {
    SHORT_ITEMS, SHORT_UNSOUND, LONG_ITEMS, LONG_LAST, LONG_UNSOUND, EXTENDED_ITEMS, EXTENDED_LAST, EXTENDED_LAST_TWO,
    EXTENDED_UNSOUND, MIXED_ITEMS, LONGER_ITEMS, OTHER_ITEMS, SETTINGS
};

/* A loop that was set up or made up, by its devices. */
enum mix { ALL_SIMPLE, ALL_EXTENDED, BOTH_VARIANTS, MIXES };

/* What an extended device has heard of an address, hop by hop: nothing, its own LAD or TAD, or a command behind it. */
enum heard { HEARD_NONE, HEARD_LAD, HEARD_TAD, BROKEN_LAD, BROKEN_TAD, HEARDS };

/* What a simple device must let go by: SAD, AES, and AEP. */
enum passing { PASSED_SAD, PASSED_AES, PASSED_AEP, PASSINGS };

/* The frames that assign addresses, or might be taken for such: GOT_AES to GOT_IAA, and AAU. */
enum { ASSIGNERS = GOT_IAA - GOT_AES + 2 };

/* A poll status set: no or yes where it was the same, or was the other; and yes by a number whose low byte is zero. */
enum stating { NO_AS_BEFORE, YES_AS_BEFORE, YES_TO_NO, NO_TO_YES, YES_BY_HIGH, STATINGS };

/* What is counted: a frame that is no IDY, a number that is no frame, an IDY without C1, and one with it. */
enum counting { NO_IDY, NO_FRAME, IDY_C1_0, IDY_C1_1, COUNTINGS };

/* How an encoding ends: accepted, or refused for one cause alone or for several. */
enum encoding { WITH_C1_0, WITH_C1_1, BAD_KIND, BAD_OFFSET, C1_OVER_1, C1_WITHOUT_ONE, SEVERAL_CAUSES, ENCODINGS };

/* What is owed: none, some, the most that so many devices can owe, or a refusal. */
enum owing { OWES_NONE, OWES_SOME, SHORT_OWES_MOST, LONG_OWES_MOST, OWING_SHAPE, OWING_UNSOUND, OWINGS };

/* How a saving ends: accepted, or refused for the area's shape, the output's length (where the area is sound, and where
   it is not) or the contents. */
enum saving { SAVED, SAVED_SHAPE, SAVED_LENGTH, SAVED_LENGTH_UNSOUND, SAVED_UNSOUND, SAVINGS };

/* How an opening ends: accepted, or refused with 10 (where one, the other or both of 1 and 2 hold as well), with 1
   (where 2 holds as well) or with 2. */
enum opening {
    OPENED, BAD_FORM, BAD_FORM_1, BAD_FORM_2, BAD_FORM_1_2, BAD_LENGTH, BAD_LENGTH_2, BAD_CONTENTS, OPENINGS
};

/* A save that is opened: just made, or made before in this history or in another, of as many devices or of others. */
enum origin { JUST_MADE, THIS_HISTORY, SAME_COUNT, OTHER_COUNT, ORIGINS };

/* What becomes of an old save (02, h): opened, with devices that have data or none, or refused for a byte 19 alone. */
enum old_save { OLD_OPENED, END_CHOSEN, END_NOT_CHOSEN, OLD_WITH_CHOICE, OLD_SAVES };

/* A history by its devices: as many as there could be before 02, j, more, or as many as there can be; an accepted
   opening of more than there could be; a set-up of one too many; and a length that is wrong but in its lowest byte. */
enum size { FORMER, MORE, MOST, MORE_OPENED, TOO_MANY, LOW_BYTE_RIGHT, SIZES };

/* Those from WALK on are not lent the area: a walk has a copy of its first part. */
enum which {
    SET_UP, PUT, HOP, TAKE, LOAD, LOAD_END, STATUS, WISH, KEY, POLL_STATUS, DRAIN, OWED, SAVE, OPEN, WALK, DECODE,
    ENCODE, POLL_COUNT, WHICH
};

static const char *const names[WHICH] = {"set_up", "put", "hop", "take", "load", "load_end", "status", "wish", "key",
                                         "poll_status", "drain", "owed", "save", "open", "walk", "decode", "encode",
                                         "poll_count"};

/* A call with its arguments; the bytes of set_up, load, load_end and open stand in input. */
struct call {
    enum which which;
    size_t area_len;
    uint64_t number; /* frame, device, budget or kind */
    uint64_t second; /* choice, status, wish, poll status or offset */
    uint64_t third;  /* C1 */
    size_t input_len;
    size_t saved_len; /* of the output of save */
    struct lent lent; /* to a walk */
};

/* Every field that any call answers. */
struct answer {
    uint64_t refusal, frame, handed, byte, end, event, hops, reason, device, kind, offset, c1, ones, lowest;
};

static uint8_t rooms[2][ROOM], before[ROOM];
static uint8_t saved[2][SAVED_ROOM], saved_before[SAVED_ROOM]; /* the outputs of save */
static uint8_t input[INPUT_ROOM], input_before[INPUT_ROOM];
static uint64_t seed = DEFAULT_SEED, wanted = DEFAULT_CALLS, made;
static const struct call *under_way;
static uint64_t refusals[REFUSALS], talkers[TALKERS], reasons[REASONS], returned[RETURNED], encodings[ENCODINGS];
static uint64_t owings[OWINGS], savings[SAVINGS], openings[OPENINGS], origins[ORIGINS], spoilings[SPOILINGS];
static uint64_t loads[ASKINGS][LOAD_REFUSALS], storings[STORINGS], lasts[PIL_LAST_END + 1], old_saves[OLD_SAVES];
static uint64_t keys[REFUSALS], moves[MOVERS + 1][STANDINGS], standings[STANDINGS], actings[ACTINGS + 1];
static uint64_t sender_events[PIL_EVENT_TRIGGER + 1], event_stops[EVENT_STOPS], calls_of[WHICH], sizes[SIZES];
static uint64_t head_bits, editions;
static uint64_t settings[SETTINGS + 1], poll_statuses[REFUSALS], statings[STATINGS];
static uint64_t countings[COUNTINGS], ones[DATA_BITS + 1], lowests[PIL_NO_BIT + 1];
static uint64_t tellings[TELLERS + 1][POLLEDS], ppes_obeyed[2][PPES]; /* by devices not told before, told otherwise */
static uint64_t idys[2][POLLEDS], answers_due[2][2][PPES]; /* not asking, asking; bit zero, one, status no, yes */
static uint64_t mixes[MIXES], callings[CALLED][PRIMARIES], assignings[ASSIGNERS][ASSIGNEDS], passings[PASSINGS];
static uint64_t assigneds[2][ASSIGNEDS]; /* after a hop, of extended devices without and with the poll */
/* At the own SAD, by the primaries whose ability is there, without and with ability 64. */
static uint64_t own_talkers[PRIMARIES][2][TALKERS], own_listeners[PRIMARIES][2][2];
static uint64_t unable_seconds[2], other_seconds[2][TALKERS], primary_moves[STANDINGS], seconds[HEARDS][2];

/* The history under way: its number, its number of devices, the frame taken last, and whether one frame, many or all
   that the links can hold are under way. */
static uint64_t history_now;
static unsigned n, taken;
static enum { PACED, CROWDED, FILLING } pace;

/* By each device of this history since its hops were followed. */
static enum heard heard[PIL_MOST_DEVICES];

/* Saves of this history and of others, to be opened later. */
static struct kept {
    struct save save;
    uint64_t history; /* 0: none yet */
} kept[KEPT];

static uint8_t *area_of(int side)
{
    return rooms[side] + GUARD;
}

static uint8_t *save_of(int side)
{
    return saved[side] + GUARD;
}

static void set_both(size_t place, unsigned value)
{
    area_of(PIL)[place] = area_of(MODEL)[place] = (uint8_t)value;
}

static void set_rooms(const uint8_t *bytes)
{
    memcpy(rooms[PIL], bytes, ROOM);
    memcpy(rooms[MODEL], bytes, ROOM);
}

/* One call, on one side. */

static struct answer hopped_answer(struct pil_hopped h)
{
    return (struct answer){.refusal = h.refusal, .frame = h.frame, .handed = h.handed, .byte = h.byte, .end = h.end,
                           .event = h.event};
}

static struct answer drained_answer(struct pil_drained d)
{
    return (struct answer){.refusal = d.refusal, .hops = d.hops, .reason = d.reason, .device = d.device,
                           .byte = d.byte, .end = d.end};
}

static struct answer owing_answer(struct pil_owing o)
{
    return (struct answer){.refusal = o.refusal, .hops = o.hops};
}

static struct answer taken_answer(struct pil_taken t)
{
    return (struct answer){.refusal = t.refusal, .frame = t.frame};
}

static struct answer walked_answer(struct pil_walked w)
{
    return (struct answer){.refusal = w.refusal, .frame = w.frame};
}

static struct answer decoded_answer(struct pil_decoded d)
{
    return (struct answer){.refusal = d.refusal, .kind = d.kind, .offset = d.offset, .c1 = d.c1};
}

static struct answer encoded_answer(struct pil_encoded e)
{
    return (struct answer){.refusal = e.refusal, .frame = e.frame};
}

static struct answer polled_answer(struct pil_polled p)
{
    return (struct answer){.refusal = p.refusal, .ones = p.ones, .lowest = p.lowest};
}

static struct answer refusal_answer(uint8_t refusal)
{
    return (struct answer){.refusal = refusal};
}

static struct answer make(int side, const struct call *c)
{
    const struct calls *of = &both[side];
    uint8_t *area = area_of(side);

    switch (c->which) {
    case SET_UP: return refusal_answer(of->set_up(area, c->area_len, input, c->input_len));
    case PUT: return refusal_answer(of->put(area, c->area_len, c->number));
    case HOP: return hopped_answer(of->hop(area, c->area_len, c->number));
    case TAKE: return taken_answer(of->take(area, c->area_len));
    case LOAD: return refusal_answer(of->load(area, c->area_len, c->number, input, c->input_len, c->second));
    case LOAD_END: return refusal_answer(of->load_end(area, c->area_len, c->number, input, c->input_len));
    case STATUS: return refusal_answer(of->status(area, c->area_len, c->number, (uint8_t)c->second));
    case WISH: return refusal_answer(of->wish(area, c->area_len, c->number, c->second));
    case KEY: return refusal_answer(of->key(area, c->area_len, c->number));
    case POLL_STATUS: return refusal_answer(of->poll_status(area, c->area_len, c->number, c->second));
    case DRAIN: return drained_answer(of->drain(area, c->area_len, c->number));
    case OWED: return owing_answer(of->owed(area, c->area_len));
    case SAVE: return refusal_answer(of->save(area, c->area_len, save_of(side), c->saved_len));
    case OPEN: return refusal_answer(of->open(area, c->area_len, input, c->input_len));
    case WALK: return walked_answer(walk_on(side, &c->lent, c->number));
    case DECODE: return decoded_answer(of->decode(c->number));
    case POLL_COUNT: return polled_answer(of->poll_count(c->number));
    default: return encoded_answer(of->encode(c->number, c->second, c->third));
    }
}

/* What is printed when something differs. */

static void print_answer(int side, const struct answer *a)
{
    printf("  %-5s answers refusal %" PRIu64 " frame %03" PRIx64 " handed %" PRIu64 " byte %02" PRIx64
           " end %" PRIu64 " event %" PRIu64 " hops %" PRIu64 " reason %" PRIu64 " device %" PRIu64 " kind %" PRIu64
           " offset %" PRIu64 " C1 %" PRIu64 " ones %" PRIu64 " lowest %" PRIu64 "\n",
           both[side].name, a->refusal, a->frame, a->handed, a->byte, a->end, a->event, a->hops, a->reason, a->device,
           a->kind, a->offset, a->c1, a->ones, a->lowest);
}

static void print_bytes(const char *what, const uint8_t *bytes, size_t length)
{
    printf("  %s:", what);
    for (size_t i = 0; i < length; i++)
        printf("%s%02x", i % 32 == 0 ? "\n    " : i % 8 == 0 ? " " : "", bytes[i]);
    printf("\n");
}

static void print_call(const char *how, const struct call *c)
{
    printf("difference at call %" PRIu64 " of seed %" PRIu64 ": %s\n", made, seed, how);
    printf("  %s, area length %zu, number %" PRIu64 ", second %" PRIu64 ", third %" PRIu64 ", input length %zu, output "
           "length %zu, lengths of records %zu and told %zu\n", names[c->which], c->area_len, c->number, c->second,
           c->third, c->input_len, c->saved_len, c->lent.records_len, c->lent.told_len);
}

static _Noreturn void differs(const char *how, const struct call *c, const struct answer answers[2])
{
    print_call(how, c);
    print_answer(PIL, &answers[PIL]);
    print_answer(MODEL, &answers[MODEL]);
    print_first("pil's area and the model's", rooms[PIL], rooms[MODEL], ROOM);
    print_first("pil's area and the area before", rooms[PIL], before, ROOM);
    if (c->which == SAVE) {
        print_first("pil's save and the model's", saved[PIL], saved[MODEL], SAVED_ROOM);
        print_first("pil's save and the output before", saved[PIL], saved_before, SAVED_ROOM);
    }
    if (c->which == WALK)
        print_walk();
    print_bytes("area before", before + GUARD, c->area_len < ROOM - 2 * GUARD ? c->area_len : ROOM - 2 * GUARD);
    print_bytes("input", input_before, c->input_len < INPUT_ROOM ? c->input_len : INPUT_ROOM);
    printf("  repeat: compare %" PRIu64 " %" PRIu64 "\n", seed, made);
    exit(1);
}

/* A call that never returns is a difference too. */
static _Noreturn void stopped(int signal_number)
{
    char how[40];
    struct answer none[2] = {{0}, {0}};

    snprintf(how, sizeof how, "signal %d", signal_number);
    if (under_way)
        differs(how, under_way, none);
    printf("%s outside the compared calls, seed %" PRIu64 "\n", how, seed);
    exit(1);
}

static void catch_signals(void)
{
    static const int signals[] = {SIGILL, SIGSEGV, SIGFPE, SIGABRT};

    for (size_t i = 0; i < sizeof signals / sizeof *signals; i++)
        signal(signals[i], stopped);
}

/* One call, on both sides. */

/* The frame that the device has taken at its hop. */
static unsigned frame_taken(uint64_t device)
{
    const uint8_t *area = before + GUARD;

    return frame_at(area + PIL_LINK_AT(area[PIL_HEADER_DEVICES], device) + PIL_LINK_FRAMES);
}

/* Remote state and enable flag of a sound record, as one number. */
static unsigned standing(const uint8_t *r)
{
    return r[PIL_RECORD_REMOTE] + (unsigned)REMOTES * r[PIL_RECORD_ENABLED];
}

/* What the frame is to the device; MOVERS if it has nothing to do with remote and local. */
static enum mover mover(const uint8_t *r, unsigned frame)
{
    const unsigned first_lad = 0x420, last_lad = 0x43e;

    if (frame >= first_lad && frame <= last_lad) {
        if (frame - first_lad != r[PIL_RECORD_ADDRESS])
            return BY_OTHER_LAD;
        return r[PIL_RECORD_ABILITIES] & PIL_ABILITY_LISTEN ? BY_OWN_LAD : BY_UNABLE_LAD;
    }
    switch (frame) {
    case 0x401: return r[PIL_RECORD_LISTENER] ? BY_GTL : BY_UNADDRESSED_GTL;
    case 0x411: return BY_LLO;
    case 0x490: return BY_IFC;
    case 0x492: return BY_REN;
    case 0x493: return BY_NRE;
    default: return MOVERS;
    }
}

/* ACTINGS if it neither clears nor triggers. */
static enum acting acting(const uint8_t *r, unsigned frame)
{
    switch (frame) {
    case 0x404: return r[PIL_RECORD_LISTENER] ? SDC_LISTENER : SDC_OTHER;
    case 0x408: return r[PIL_RECORD_LISTENER] ? GET_LISTENER : GET_OTHER;
    case 0x414: return r[PIL_RECORD_LISTENER] ? DCL_LISTENER : DCL_OTHER;
    default: return ACTINGS;
    }
}

/* Whether the hop sent a byte of the device's data, and whether all of it is sent now. */
static int data_sent(unsigned device)
{
    size_t sent = PIL_RECORD_AT(device) + PIL_RECORD_SENT;

    return area_of(PIL)[sent] != before[GUARD + sent];
}

static int all_sent(unsigned device)
{
    const uint8_t *r = area_of(PIL) + PIL_RECORD_AT(device);

    return r[PIL_RECORD_SENT] == r[PIL_RECORD_DATA_LENGTH];
}

static int is_end(const struct answer *hopped)
{
    return (hopped->frame & PIL_C2) != 0;
}

/* What the frame told the device of polls, and for an IDY what answer was due. */
static void count_poll(const uint8_t *r, unsigned frame)
{
    enum polled stood = polled(r);
    unsigned told = told_after(r, frame), number = r[PIL_RECORD_POLL] % PPES;

    tellings[teller(r, frame)][stood]++;
    if (told != 0 && told != r[PIL_RECORD_POLL])
        ppes_obeyed[stood >= TOLD][told % PPES]++;
    if (frame < FIRST_IDY)
        return;
    idys[r[PIL_RECORD_SERVICE] == PIL_SERVICE_ASKING][stood]++;
    if (stood >= TOLD)
        answers_due[(frame & answer_bit(r)) != 0][stood == TOLD_YES][number]++;
}

static enum heard heard_after(enum heard was, enum called by)
{
    if (by == OWN_LAD)
        return HEARD_LAD;
    if (by == OWN_TAD)
        return HEARD_TAD;
    if (by == OWN_SAD || by >= COMMANDS_CALLED)
        return was;
    if (by == OTHER_SAD)
        return HEARD_NONE;
    return was == HEARD_LAD ? BROKEN_LAD : was == HEARD_TAD ? BROKEN_TAD : was;
}

/* There were hops, or changes of the area, that are not followed one by one. */
static void forget_heard(void)
{
    memset(heard, 0, sizeof heard);
}

/* A SAD came to an extended device: what it found there. */
static void count_second(const uint8_t *r, int own)
{
    int unaddress = (r[PIL_RECORD_ABILITIES] & PIL_ABILITY_UNADDRESS) != 0, talker = r[PIL_RECORD_TALKER];
    unsigned unable = primaries(r) & ~(unsigned)able_primaries(r);

    if (!own) {
        other_seconds[(primaries(r) & TALK_PRIMARY) != 0][talker]++;
        return;
    }
    own_talkers[able_primaries(r)][unaddress][talker]++;
    own_listeners[able_primaries(r)][unaddress][r[PIL_RECORD_LISTENER]]++;
    unable_seconds[0] += (unable & LISTEN_PRIMARY) != 0;
    unable_seconds[1] += (unable & TALK_PRIMARY) != 0;
}

/* An extended device hopped: what the frame was to it, and how it stood. */
static void count_extended(unsigned device, const uint8_t *r, unsigned frame)
{
    enum called by = called(r, frame);
    const uint8_t *now = area_of(PIL) + PIL_RECORD_AT(device);

    callings[by][primaries(r)]++;
    assigneds[r[PIL_RECORD_MORE] & PIL_MORE_POLL][assigned(now)]++;
    if (by >= GOT_AES && by <= GOT_IAA)
        assignings[by - GOT_AES][assigned(r)]++;
    if (by == GOT_AAU)
        assignings[ASSIGNERS - 1][assigned(r)]++;
    if (by == OWN_LAD)
        primary_moves[standing(r)]++;
    if (by == OWN_SAD || by == OTHER_SAD) {
        count_second(r, by == OWN_SAD);
        seconds[heard[device]][by == OWN_SAD]++;
    }
    heard[device] = heard_after(heard[device], by);
}

/* A simple device hopped. AES counts where AAD would be obeyed, SAD where a talker could be made idle. */
static void count_simple(const uint8_t *r, unsigned frame)
{
    int awaits = r[PIL_RECORD_ABILITIES] & PIL_ABILITY_AUTO_ADDRESS && r[PIL_RECORD_CONFIGURED] == PIL_UNCONFIGURED;

    passings[PASSED_SAD] += frame >= 0x460 && frame <= 0x47e && r[PIL_RECORD_TALKER] != PIL_TALKER_IDLE;
    passings[PASSED_AES] += frame >= 0x5c0 && frame <= 0x5de && awaits;
    passings[PASSED_AEP] += frame >= 0x5a0 && frame <= 0x5be && awaits;
}

/* The device hopped: how it stands, how its own byte came back if it took one, and how its last went out. */
static void count_hop(unsigned device, const struct answer *hopped)
{
    const uint8_t *r = before + GUARD + PIL_RECORD_AT(device);
    unsigned frame = frame_taken(device);
    unsigned other = frame ^ frame_at(r + PIL_RECORD_LAST);

    talkers[area_of(PIL)[PIL_RECORD_AT(device) + PIL_RECORD_TALKER]]++;
    standings[standing(area_of(PIL) + PIL_RECORD_AT(device))]++;
    moves[mover(r, frame)][standing(r)]++;
    actings[acting(r, frame)]++;
    count_poll(r, frame);
    if (is_extended(r))
        count_extended(device, r, frame);
    else
        count_simple(r, frame);
    if (r[PIL_RECORD_TALKER] >= PIL_TALKER_DATA)
        sender_events[hopped->event]++;
    if (r[PIL_RECORD_TALKER] >= PIL_TALKER_DATA && frame < PIL_C3)
        returned[other & PIL_DATA_BITS ? OTHER_DATA : other / PIL_C1]++;
    if (data_sent(device) && all_sent(device))
        lasts[is_end(hopped)]++;
}

static int is_load(const struct call *c)
{
    return c->which == LOAD || c->which == LOAD_END;
}

/* The choice that a load stores. */
static uint64_t choice_of(const struct call *c)
{
    return c->which == LOAD_END ? PIL_LAST_END : c->second;
}

static enum asking asking(const struct call *c)
{
    return c->which == LOAD_END ? BY_LOAD_END : c->second > PIL_LAST_END ? BY_NO_CHOICE : BY_CHOICE;
}

/* By the refusal that there would be with a choice: what holds beside a number that is none shows so. */
static void count_load(const struct call *c, const struct answer *a)
{
    static uint8_t copy[ROOM];
    unsigned refusal, at = 0;

    memcpy(copy, before, ROOM);
    refusal = model_load(copy + GUARD, c->area_len, c->number, input, c->input_len, PIL_LAST_PLAIN);
    while (load_refusals[at] != refusal)
        at++;
    loads[asking(c)][at]++;
    if (a->refusal == PIL_ACCEPTED && before[GUARD + PIL_RECORD_AT(c->number) + PIL_RECORD_END] != choice_of(c))
        storings[(c->input_len > 0 ? PLAIN_WITH_BYTES : PLAIN_WITH_NONE) + choice_of(c)]++;
}

/* The cause of a refusal shows when the others are taken away: C1 made 0, or the offset. */
static enum encoding encoding(const struct call *c, const struct answer *a)
{
    if (a->refusal == PIL_ACCEPTED)
        return c->third ? WITH_C1_1 : WITH_C1_0;
    if (model_encode(c->number, c->second, 0).refusal == PIL_ACCEPTED)
        return c->third > 1 ? C1_OVER_1 : C1_WITHOUT_ONE;
    if (model_encode(c->number, 0, c->third).refusal == PIL_ACCEPTED)
        return BAD_OFFSET;
    return c->third == 0 ? BAD_KIND : SEVERAL_CAUSES;
}

static enum saving saving(const struct call *c, const struct answer *a)
{
    uint8_t judged = model_owed(before + GUARD, c->area_len).refusal;

    if (a->refusal == PIL_SHAPE && judged != PIL_SHAPE)
        return judged == PIL_UNSOUND ? SAVED_LENGTH_UNSOUND : SAVED_LENGTH;
    return a->refusal == PIL_ACCEPTED ? SAVED : a->refusal == PIL_SHAPE ? SAVED_SHAPE : SAVED_UNSOUND;
}

static void count_key(const struct call *c, const struct answer *a)
{
    keys[a->refusal]++;
    if (a->refusal == PIL_ACCEPTED)
        moves[BY_KEY][standing(before + GUARD + PIL_RECORD_AT(c->number))]++;
}

static void count_poll_status(const struct call *c, const struct answer *a)
{
    unsigned was, yes = c->second != 0;

    poll_statuses[a->refusal]++;
    if (a->refusal != PIL_ACCEPTED)
        return;
    was = before[GUARD + PIL_RECORD_AT(c->number) + PIL_RECORD_POLL_STATUS];
    statings[(was == yes ? NO_AS_BEFORE : YES_TO_NO) + yes]++;
    statings[YES_BY_HIGH] += yes && c->second % 256 == 0;
}

static void count_count(const struct call *c, const struct answer *a)
{
    if (a->refusal != PIL_ACCEPTED) {
        countings[c->number < PIL_FRAMES ? NO_IDY : NO_FRAME]++;
        return;
    }
    countings[c->number & PIL_C1 ? IDY_C1_1 : IDY_C1_0]++;
    ones[a->ones]++;
    lowests[a->lowest]++;
}

/* The number of devices whose area has this length, 0 if there is none. */
static unsigned devices_of(size_t area_len)
{
    for (unsigned devices = 1; devices <= PIL_MOST_DEVICES; devices++)
        if (area_len == PIL_AREA_LENGTH(devices))
            return devices;
    return 0;
}

/* Whether items of this length would be allowed with zeros from a byte on. */
static int others_allowed(const struct call *c, size_t length, size_t from)
{
    static uint8_t scratch[PIL_AREA_LENGTH(PIL_MOST_DEVICES)];
    uint8_t items[ITEMS_ROOM];

    memcpy(items, input, c->input_len);
    for (size_t at = 0; at < c->input_len; at += length)
        memset(items + at + from, 0, length - from);
    return model_set_up(scratch, c->area_len, items, c->input_len) == PIL_ACCEPTED;
}

/* Items of 14 bytes, which were accepted or refused with 2. */
static enum setting extended_setting(const struct call *c, const struct answer *a)
{
    if (a->refusal == PIL_ACCEPTED)
        return EXTENDED_ITEMS;
    if (others_allowed(c, PIL_EXTENDED_ITEM_LENGTH, PIL_ITEM_SECOND))
        return EXTENDED_LAST;
    return others_allowed(c, PIL_EXTENDED_ITEM_LENGTH, PIL_ITEM_MORE) ? EXTENDED_LAST_TWO : EXTENDED_UNSOUND;
}

/* SETTINGS where the area has the length of no loop. */
static enum setting setting(const struct call *c, const struct answer *a)
{
    unsigned devices = devices_of(c->area_len);

    if (devices == 0)
        return SETTINGS;
    if (a->refusal == PIL_SHAPE && c->input_len == LONGER_ITEM * devices)
        return LONGER_ITEMS;
    if (a->refusal == PIL_SHAPE)
        return c->input_len > PIL_ITEMS_LENGTH(devices) && c->input_len < PIL_EXTENDED_ITEMS_LENGTH(devices)
            ? MIXED_ITEMS : OTHER_ITEMS;
    if (c->input_len == PIL_ITEMS_LENGTH(devices))
        return a->refusal == PIL_ACCEPTED ? SHORT_ITEMS : SHORT_UNSOUND;
    if (c->input_len == PIL_EXTENDED_ITEMS_LENGTH(devices))
        return extended_setting(c, a);
    if (a->refusal == PIL_ACCEPTED)
        return LONG_ITEMS;
    return others_allowed(c, PIL_POLL_ITEM_LENGTH, PIL_ITEM_MORE) ? LONG_LAST : LONG_UNSOUND;
}

static void count_drain(const struct call *c, const struct answer *a)
{
    reasons[a->reason]++;
    if (a->reason == PIL_STOP_EVENT)
        event_stops[(a->hops == c->number ? CLEAR_SPENT : CLEAR_LEFT) + (a->byte == PIL_EVENT_TRIGGER)]++;
}

static void count_answer(const struct call *c, const struct answer *a)
{
    calls_of[c->which]++;
    refusals[a->refusal]++;
    if (c->which == DRAIN && a->refusal == PIL_ACCEPTED)
        count_drain(c, a);
    if (c->which == KEY)
        count_key(c, a);
    if (c->which == POLL_STATUS)
        count_poll_status(c, a);
    if (c->which == POLL_COUNT)
        count_count(c, a);
    if (c->which == SET_UP)
        settings[setting(c, a)]++;
    if (c->which == SET_UP || c->which == OPEN || c->which == DRAIN)
        forget_heard();
    if (c->which == HOP && a->refusal == PIL_ACCEPTED)
        count_hop((unsigned)c->number, a);
    if (is_load(c))
        count_load(c, a);
    if (c->which == ENCODE)
        encodings[encoding(c, a)]++;
    if (c->which == SAVE)
        savings[saving(c, a)]++;
    if (c->which == WALK)
        count_walk(&c->lent, c->number, (uint8_t)a->refusal, before + GUARD);
}

/* Owed, save and a refused call do not alter the area, an accepted one nothing beyond it, and only an accepted save its
   output: no model is needed to see this. */
static int only_lent_bytes_altered(const struct call *c, const struct answer *a)
{
    int accepted = a->refusal == PIL_ACCEPTED;
    int writes = accepted && c->which != OWED && c->which != SAVE && c->which < WALK;

    return altered_within(rooms[PIL], before, writes ? c->area_len : 0, ROOM)
        && (c->which != SAVE || altered_within(saved[PIL], saved_before, accepted ? c->saved_len : 0, SAVED_ROOM));
}

/* An accepted load stores its choice, and a device ends its data by it (02, h): no model is needed to see this. */
static int choice_obeyed(const struct call *c, const struct answer *a)
{
    unsigned device = (unsigned)c->number;
    size_t choice = PIL_RECORD_AT(device) + PIL_RECORD_END;

    if (a->refusal == PIL_ACCEPTED && is_load(c))
        return area_of(PIL)[choice] == choice_of(c);
    if (a->refusal == PIL_ACCEPTED && c->which == HOP && data_sent(device))
        return is_end(a) == (all_sent(device) && area_of(PIL)[choice] == PIL_LAST_END);
    return 1;
}

static int is_of_device(const struct call *c)
{
    return is_load(c) || c->which == HOP || (c->which >= STATUS && c->which <= POLL_STATUS);
}

/* A hop and the key move the device between remote and local as the table says, and no other local call does (02, d):
   no model is needed to see this. */
static int moved_by_table(const struct call *c, const struct answer *a)
{
    const uint8_t *was;
    enum mover by = MOVERS;

    if (a->refusal != PIL_ACCEPTED || !is_of_device(c))
        return 1;
    was = before + GUARD + PIL_RECORD_AT(c->number);
    if (c->which == HOP || c->which == KEY)
        by = c->which == KEY ? BY_KEY : mover(was, frame_taken(c->number));
    return standing(area_of(PIL) + PIL_RECORD_AT(c->number)) == standing_after[by][standing(was)];
}

/* An event is reported just at the hop of a command that clears or triggers, and alters no byte of the record (02, d)
   but for the primaries received, which any command ends (02, i): no model is needed to see this. */
static int event_by_table(const struct call *c, const struct answer *a)
{
    uint8_t was[PIL_RECORD_LENGTH];
    enum acting by;

    if (c->which != HOP || a->refusal != PIL_ACCEPTED)
        return a->event == PIL_EVENT_NONE;
    memcpy(was, before + GUARD + PIL_RECORD_AT(c->number), sizeof was);
    by = acting(was, frame_taken(c->number));
    was[PIL_RECORD_FIXED_SECOND] %= PIL_PRIMARY_RECEIVED;
    was[PIL_RECORD_SECOND] %= PIL_PRIMARY_RECEIVED;
    return a->event == event_of[by]
        && (by == ACTINGS || memcmp(area_of(PIL) + PIL_RECORD_AT(c->number), was, sizeof was) == 0);
}

/* A hop tells a device how to answer polls and answers an IDY as the tables say, its call alone sets a poll status, and
   byte 7 stays (02, f): no model is needed to see this. */
static int polled_by_table(const struct call *c, const struct answer *a)
{
    const uint8_t *was, *now;
    unsigned frame, told, status;

    if (a->refusal != PIL_ACCEPTED || !is_of_device(c))
        return 1;
    was = before + GUARD + PIL_RECORD_AT(c->number);
    now = area_of(PIL) + PIL_RECORD_AT(c->number);
    frame = c->which == HOP ? frame_taken(c->number) : 0;
    told = c->which == HOP ? told_after(was, frame) : was[PIL_RECORD_POLL];
    status = c->which == POLL_STATUS ? c->second != 0 : was[PIL_RECORD_POLL_STATUS];
    return now[PIL_RECORD_MORE] == was[PIL_RECORD_MORE] && now[PIL_RECORD_POLL] == told
        && now[PIL_RECORD_POLL_STATUS] == status && (frame < FIRST_IDY || a->frame == idy_after(was, frame));
}

/* A poll status refused with none of 1, 2, 3 gives 7 just where byte 7 is even, whatever other abilities are (02, f):
   no model is needed to see this. */
static int refused_by_ability(const struct call *c, const struct answer *a)
{
    if (c->which != POLL_STATUS || (a->refusal != PIL_ACCEPTED && a->refusal != PIL_NO_ABILITY))
        return 1;
    return (a->refusal == PIL_NO_ABILITY) == (before[GUARD + PIL_RECORD_AT(c->number) + PIL_RECORD_MORE] % 2 == 0);
}

/* The byte of a device's item, 0 where the items are too short for it. */
static unsigned item_byte(size_t length, unsigned device, size_t place)
{
    return place < length ? input[device * length + place] : 0;
}

/* An accepted set-up gives each device the further abilities and both second addresses of its item, and tells it
   nothing of polls or primaries (02, f and i): no model is needed to see this. */
static int able_by_items(const struct call *c, const struct answer *a)
{
    unsigned devices = area_of(PIL)[PIL_HEADER_DEVICES];
    int applies = c->which == SET_UP && a->refusal == PIL_ACCEPTED;
    size_t length = applies ? c->input_len / devices : 0;

    for (unsigned i = 0; applies && i < devices; i++) {
        const uint8_t *r = area_of(PIL) + PIL_RECORD_AT(i);
        unsigned second = item_byte(length, i, PIL_ITEM_SECOND);

        if (r[PIL_RECORD_MORE] != item_byte(length, i, PIL_ITEM_MORE) || r[PIL_RECORD_POLL] != 0
            || r[PIL_RECORD_POLL_STATUS] != 0 || r[PIL_RECORD_CONFIGURED] != 0 || r[PIL_RECORD_FIXED_SECOND] != second
            || r[PIL_RECORD_SECOND] != second)
            return 0;
    }
    return 1;
}

/* A hop assigns and addresses a device as the tables say, and a local call does neither (02, i): no model is needed to
   see this. */
static int addressed_by_table(const struct call *c, const struct answer *a)
{
    static const uint8_t places[] = {PIL_RECORD_FIXED, PIL_RECORD_ADDRESS, PIL_RECORD_CONFIGURED, PIL_RECORD_LISTENER,
                                     PIL_RECORD_TALKER, PIL_RECORD_FIXED_SECOND, PIL_RECORD_SECOND};
    const uint8_t *was, *now;

    if (a->refusal != PIL_ACCEPTED || !is_of_device(c))
        return 1;
    was = before + GUARD + PIL_RECORD_AT(c->number);
    now = area_of(PIL) + PIL_RECORD_AT(c->number);
    if (c->which == HOP)
        return addressed_right(was, now, frame_taken(c->number), (unsigned)a->frame);
    for (unsigned i = 0; i < sizeof places; i++)
        if (now[places[i]] != was[places[i]])
            return 0;
    return 1;
}

/* The most that so many devices can owe: 02, k. */
static uint32_t most_owed(unsigned devices)
{
    return 2 * devices * (devices + 1);
}

/* Every frame in a link of a sound area owes a hop for each device ahead of it. */
static uint32_t owed_by_frames(const uint8_t *area)
{
    unsigned devices = area[PIL_HEADER_DEVICES];
    uint32_t hops = 0;

    for (unsigned link = 0; link < devices; link++)
        hops += (devices - link) * area[PIL_LINK_AT(devices, link) + PIL_LINK_COUNT];
    return hops;
}

/* What is owed after the call, by what was owed before it and the laws of 02, k: no model is needed to see this. */
static struct pil_owing owed_by_law(const struct call *c, const struct answer *a, struct pil_owing was)
{
    if (a->refusal != PIL_ACCEPTED)
        return was;
    switch (c->which) {
    case SET_UP: return (struct pil_owing){0};
    case OPEN: return (struct pil_owing){.hops = owed_by_frames(area_of(PIL))};
    case PUT: was.hops += area_of(PIL)[PIL_HEADER_DEVICES]; break;
    case HOP: was.hops--; break;
    case DRAIN: was.hops -= (uint32_t)a->hops; break;
    default: break;
    }
    return was;
}

static int same_owing(struct pil_owing a, struct pil_owing b)
{
    return a.refusal == b.refusal && a.hops == b.hops;
}

static enum owing owing(struct pil_owing o, unsigned devices)
{
    if (o.refusal != PIL_ACCEPTED)
        return o.refusal == PIL_SHAPE ? OWING_SHAPE : OWING_UNSOUND;
    if (o.hops == most_owed(devices))
        return devices < LONG ? SHORT_OWES_MOST : LONG_OWES_MOST;
    return o.hops > 0 ? OWES_SOME : OWES_NONE;
}

/* What is owed after the call, on both sides and by the laws; what was owed before it is asked of the copy. */
static void compare_owed(const struct call *c, const struct answer answers[2])
{
    struct pil_owing was = pil_owed(before + GUARD, c->area_len), pil = pil_owed(area_of(PIL), c->area_len);
    struct pil_owing model = model_owed(area_of(MODEL), c->area_len), law = owed_by_law(c, &answers[PIL], was);
    unsigned devices = area_of(PIL)[PIL_HEADER_DEVICES];
    char how[160];

    if (memcmp(rooms[PIL], rooms[MODEL], ROOM) != 0)
        differs("bytes altered by asking what is owed after it", c, answers);
    if (c->which == DRAIN && c->number >= was.hops && answers[PIL].reason == PIL_STOP_BUDGET)
        differs("a budget of the hops owed was spent", c, answers);
    if (!same_owing(pil, model) || !same_owing(pil, law) || pil.hops > most_owed(devices)) {
        snprintf(how, sizeof how, "owed after it, refusal and hops: pil %u %" PRIu32 ", model %u %" PRIu32
                 ", by the laws %u %" PRIu32 ", at most %" PRIu32, pil.refusal, pil.hops, model.refusal, model.hops,
                 law.refusal, law.hops, most_owed(devices));
        differs(how, c, answers);
    }
    owings[owing(pil, devices)]++;
}

/* The output of save is lent with any content, the same on both sides. */
static void lend_output(void)
{
    memset(saved[PIL], (int)below(256), SAVED_ROOM);
    chance_bytes(save_of(PIL), PIL_SAVE_LENGTH(n));
    memcpy(saved[MODEL], saved[PIL], SAVED_ROOM);
    memcpy(saved_before, saved[PIL], SAVED_ROOM);
}

/* An accepted save is kept, in place of an older one. */
static void keep(size_t length)
{
    struct kept *k = &kept[below(KEPT)];

    memcpy(k->save.bytes, save_of(PIL), length);
    k->save.length = length;
    k->history = history_now;
}

static struct answer compare_call(const struct call *c)
{
    struct answer answers[2];

    made++;
    memcpy(before, rooms[PIL], ROOM);
    memcpy(input_before, input, INPUT_ROOM);
    if (c->which == SAVE)
        lend_output();
    if (c->which == WALK)
        lend_walk(area_of(PIL));
    under_way = c;
    for (int side = PIL; side <= MODEL; side++)
        answers[side] = make(side, c);
    if (memcmp(&answers[PIL], &answers[MODEL], sizeof *answers) != 0)
        differs("the answers", c, answers);
    if (memcmp(rooms[PIL], rooms[MODEL], ROOM) != 0)
        differs("the areas", c, answers);
    if (c->which == SAVE && memcmp(saved[PIL], saved[MODEL], SAVED_ROOM) != 0)
        differs("the saves", c, answers);
    if (c->which == WALK && walk_differs(&c->lent, (uint8_t)answers[PIL].refusal))
        differs(walk_differs(&c->lent, (uint8_t)answers[PIL].refusal), c, answers);
    if (!only_lent_bytes_altered(c, &answers[PIL]))
        differs("bytes altered that may not be", c, answers);
    if (memcmp(input, input_before, INPUT_ROOM) != 0)
        differs("the items, the bytes to load or the save to open were altered", c, answers);
    if (!choice_obeyed(c, &answers[PIL]))
        differs("the choice how the last byte goes out is not obeyed", c, answers);
    if (!moved_by_table(c, &answers[PIL]) || !event_by_table(c, &answers[PIL]))
        differs("not moved between remote and local, or no event told, as the tables say", c, answers);
    if (!polled_by_table(c, &answers[PIL]) || !refused_by_ability(c, &answers[PIL]) || !able_by_items(c, &answers[PIL]))
        differs("not polled as the tables say, or not able as the items say", c, answers);
    if (!addressed_by_table(c, &answers[PIL]))
        differs("not assigned or addressed as the tables say", c, answers);
    if (c->which < WALK)
        compare_owed(c, answers);
    under_way = NULL;
    count_answer(c, &answers[PIL]);
    if (c->which == SAVE && answers[PIL].refusal == PIL_ACCEPTED)
        keep(c->saved_len);
    return answers[PIL];
}

/* Sensible calls. */

static unsigned frames_in(unsigned link)
{
    return area_of(MODEL)[PIL_LINK_AT(n, link) + PIL_LINK_COUNT];
}

static int can_hop(unsigned device)
{
    return frames_in(device) > 0 && frames_in(device + 1) < PIL_LINK_DEPTH;
}

/* A device, if possible one that can hop. */
static unsigned some_hopper(void)
{
    unsigned start = below(n);

    for (unsigned i = 0; i < n && !one_in(20); i++)
        if (can_hop((start + i) % n))
            return (start + i) % n;
    return start;
}

/* A device, if possible one in this talker state or a later one. */
static unsigned some_talker(unsigned least)
{
    unsigned start = below(n);

    for (unsigned i = 0; i < n; i++)
        if (area_of(MODEL)[PIL_RECORD_AT((start + i) % n) + PIL_RECORD_TALKER] >= least)
            return (start + i) % n;
    return start;
}

/* A device, if possible one that is sending. */
static unsigned some_sender(void)
{
    return some_talker(PIL_TALKER_DATA);
}

static struct call put_call(void)
{
    return (struct call){.which = PUT, .number = chance_frame(area_of(MODEL), taken)};
}

static struct call hop_call(unsigned device)
{
    return (struct call){.which = HOP, .number = device};
}

static struct call drain_call(uint64_t budget)
{
    return (struct call){.which = DRAIN, .number = budget};
}

static uint64_t hops_owed(void)
{
    return model_owed(area_of(MODEL), PIL_AREA_LENGTH(n)).hops;
}

static uint64_t some_budget(void)
{
    static const uint64_t budgets[] = {0, 1, 1, 1, 2, 2, 3, 4, 5, 10, 60, MOST_OWED - 1, MOST_OWED, UINT32_MAX,
                                       UINT64_MAX};

    return one_in(6) ? hops_owed() : budgets[below(sizeof budgets / sizeof *budgets)];
}

/* Mostly a choice; else a number that is none, or is one when its high bits are cut off. */
static uint64_t some_choice(void)
{
    static const uint64_t wrong[] = {2, 2, 3, 255, 256, 257, (uint64_t)1 << 32, ((uint64_t)1 << 32) + 1,
                                     (uint64_t)1 << 63, UINT64_MAX};

    return one_in(5) ? wrong[below(sizeof wrong / sizeof *wrong)] : below(2);
}

static struct call load_call(unsigned device)
{
    size_t length = one_in(2) ? below(5) : one_in(4) ? 31 + below(3) : below(MOST_LOAD + 1);

    chance_bytes(input, length);
    if (one_in(4))
        return (struct call){.which = LOAD_END, .number = device, .input_len = length};
    return (struct call){.which = LOAD, .number = device, .second = some_choice(), .input_len = length};
}

static struct call local_call(void)
{
    unsigned device = one_in(4) ? some_sender() : one_in(2) ? some_talker(PIL_TALKER_ADDRESSED) : below(n);

    switch (below(10)) {
    case 0:
    case 1:
    case 2: return load_call(device);
    case 3: return (struct call){.which = STATUS, .number = device, .second = below(256)};
    case 4: return (struct call){.which = WISH, .number = device, .second = one_in(2) ? 1 : wild_number(0)};
    case 5:
    case 6: return (struct call){.which = KEY, .number = below(n)};
    case 7: return (struct call){.which = POLL_STATUS, .number = below(n), .second = below(2)};
    case 8: return (struct call){.which = POLL_STATUS, .number = below(n), .second = wild_number(0)};
    default: return (struct call){.which = WISH, .number = device, .second = below(2)};
    }
}

/* An output of the right length, or of another: nearly right, of another count, or right when cut to 32 bits. */
static struct call save_call(void)
{
    size_t right = PIL_SAVE_LENGTH(n);
    size_t wrong[] = {0, right - 1, right + 1, PIL_SAVE_LENGTH(1 + below(PIL_MOST_DEVICES + 1)), PIL_AREA_LENGTH(n),
                      right + ((size_t)1 << 32), SIZE_MAX / 2};

    return (struct call){.which = SAVE, .saved_len = one_in(3) ? wrong[below(sizeof wrong / sizeof *wrong)] : right};
}

/* Past the area's devices, mostly with a frame that suits their states, else with a number that may be none. */
static struct call walk_call(void)
{
    uint64_t frame = chance_frame(area_of(MODEL), taken);

    if (one_in(8))
        frame = one_in(3) ? PIL_FRAMES : wild_number(frame);
    return (struct call){.which = WALK, .number = frame, .lent = lent_for(n)};
}

static struct call set_up_call(void)
{
    size_t length = chance_item_length();

    chance_items(input, n, length);
    return (struct call){.which = SET_UP, .input_len = n * length};
}

static struct call crowded_call(void)
{
    unsigned choice = below(9);

    if (choice < 3)
        return put_call();
    return choice < 7 ? hop_call(some_hopper()) : (struct call){.which = TAKE};
}

/* One frame at a time: takes it out if it has come round, else moves it on, else puts a new one. */
static struct call paced_call(void)
{
    if (frames_in(n) > 0)
        return (struct call){.which = TAKE};
    for (unsigned device = n; device-- > 0;)
        if (can_hop(device))
            return one_in(3) ? drain_call(some_budget()) : hop_call(device);
    return put_call();
}

/* All that the links can hold: takes a frame out only if there is no room to put one and none can go on. */
static struct call filling_call(void)
{
    if (frames_in(0) < PIL_LINK_DEPTH)
        return put_call();
    for (unsigned device = n; device-- > 0;)
        if (can_hop(device))
            return one_in(6) ? hop_call(device) : drain_call(hops_owed());
    return (struct call){.which = TAKE};
}

static struct call sensible_call(void)
{
    struct call c;

    if (one_in(5))
        c = local_call();
    else if (one_in(12))
        c = drain_call(some_budget());
    else if (one_in(20))
        c = (struct call){.which = OWED};
    else if (one_in(16))
        c = save_call();
    else if (one_in(pace == FILLING ? 40 : 12)) /* a walk fills no link */
        c = walk_call();
    else
        c = pace == PACED ? paced_call() : pace == CROWDED ? crowded_call() : filling_call();
    c.area_len = PIL_AREA_LENGTH(n);
    return c;
}

/* Calls that are mostly refused. */

static struct call any_call(void)
{
    if (one_in(8)) {
        struct call c = set_up_call();

        c.area_len = PIL_AREA_LENGTH(n);
        return c;
    }
    return sensible_call();
}

static void wild_number_call(void)
{
    struct call c = sensible_call();

    c.number = wild_number(c.number);
    if (c.which == WISH || c.which == POLL_STATUS || (c.which == LOAD && one_in(2)))
        c.second = wild_number(c.second);
    compare_call(&c);
}

static size_t wrong_length(size_t right, size_t step, size_t most)
{
    size_t other = step * below(PIL_MOST_DEVICES + 2) + (step == PIL_ITEM_LENGTH ? 0 : PIL_AREA_LENGTH(0));

    switch (below(7)) {
    case 0: other = right + 1; break;
    case 1: other = right - 1; break;
    case 2: other = right + step; break;
    case 3: other = below(2); break;
    case 4: other = below((unsigned)most); break;
    case 5: other = right > 256 && one_in(2) ? right - 256 : right + 256; break; /* the same lowest byte */
    default: break;
    }
    sizes[LOW_BYTE_RIGHT] += other <= most && other != right && other % 256 == right % 256;
    return other <= most ? other : most;
}

/* Often between the lengths that items can have, or of items a byte longer. */
static size_t wrong_items_length(size_t right)
{
    if (one_in(2))
        return wrong_length(right, PIL_ITEM_LENGTH, ITEMS_ROOM);
    return one_in(3) ? LONGER_ITEM * n : PIL_ITEMS_LENGTH(n) + below(2 * n + 1);
}

/* A wrong length of the area, or of the items; byte 0 is sometimes made to fit it. */
static void wrong_length_call(void)
{
    struct call c = any_call();
    uint8_t first = area_of(MODEL)[0];

    if (c.which == SET_UP && one_in(2)) {
        c.input_len = wrong_items_length(c.input_len);
    } else {
        c.area_len = wrong_length(c.area_len, PIL_RECORD_LENGTH + PIL_LINK_LENGTH, ROOM - 2 * GUARD);
        if (one_in(4))
            set_both(0, (unsigned)((c.area_len - PIL_AREA_LENGTH(0)) / (PIL_RECORD_LENGTH + PIL_LINK_LENGTH)));
    }
    /* A set-up that is accepted after all begins another loop in this room. */
    if (compare_call(&c).refusal == PIL_ACCEPTED)
        n = area_of(MODEL)[0];
    else
        set_both(0, first);
}

static void bad_items_call(void)
{
    struct call c = set_up_call();

    c.area_len = PIL_AREA_LENGTH(n);
    spoil_item(input + below(n) * (c.input_len / n), c.input_len / n);
    compare_call(&c);
}

static void wrong_items_call(void)
{
    struct call c = set_up_call();

    c.area_len = PIL_AREA_LENGTH(n);
    c.input_len = wrong_items_length(c.input_len);
    compare_call(&c);
}

/* Allowed items and an area for one device more than a loop can have. */
static void too_many_call(void)
{
    size_t length = chance_item_length();
    struct call c = {.which = SET_UP, .area_len = PIL_AREA_LENGTH(PIL_MOST_DEVICES + 1),
                     .input_len = (PIL_MOST_DEVICES + 1) * length};

    chance_items(input, PIL_MOST_DEVICES + 1, length);
    sizes[TOO_MANY] += compare_call(&c).refusal == PIL_SHAPE;
}

/* Damaged areas. */

static size_t damaged_place(void)
{
    size_t record = PIL_RECORD_AT(one_in(2) ? some_sender() : below(n));
    size_t link = PIL_LINK_AT(n, below(n + 1));

    switch (below(9)) {
    case 0: return below(PIL_HEADER_LENGTH);
    case 1: return link + below(PIL_LINK_LENGTH);
    case 2: return link + below(PIL_LINK_FRAMES);
    case 3: return record + below(PIL_RECORD_LENGTH);
    case 4: return record + PIL_RECORD_END;
    default: return record + below(PIL_RECORD_ID);
    }
}

/* Two bytes at once: a last frame or a frame in a link, at the limits of either. */
static void damage_frame(void)
{
    static const uint16_t limits[] = {1, 0xff, 0x3ff, 0x400, 0x7ff, 0x800, 0xffff};
    size_t last = PIL_RECORD_AT(some_sender()) + PIL_RECORD_LAST;
    size_t frame = PIL_LINK_AT(n, below(n + 1)) + PIL_LINK_FRAMES + 2 * below(PIL_LINK_DEPTH);
    size_t place = one_in(2) ? last : frame;
    unsigned value = limits[below(sizeof limits / sizeof *limits)];

    set_both(place, value);
    set_both(place + 1, value >> 8);
}

/* Remote state or enable flag: any value, or one near the last that is sound. */
static void damage_standing(void)
{
    size_t record = PIL_RECORD_AT(below(n));

    if (one_in(2))
        set_both(record + PIL_RECORD_REMOTE, one_in(2) ? below(REMOTES + 2) : below(256));
    else
        set_both(record + PIL_RECORD_ENABLED, one_in(2) ? below(4) : below(256));
}

/* A device, if possible one that can be polled. */
static unsigned some_pollable(void)
{
    unsigned start = below(n);

    for (unsigned i = 0; i < n; i++)
        if (area_of(MODEL)[PIL_RECORD_AT((start + i) % n) + PIL_RECORD_MORE] & PIL_MORE_POLL)
            return (start + i) % n;
    return start;
}

/* A device, if possible an extended one. */
static unsigned some_extended(void)
{
    unsigned start = below(n);

    for (unsigned i = 0; i < n; i++)
        if (is_extended(area_of(MODEL) + PIL_RECORD_AT((start + i) % n)))
            return (start + i) % n;
    return start;
}

/* Further abilities, configuration or poll status: any value, or one near the last that is sound. */
static void damage_poll(void)
{
    static const uint8_t limits[] = {1, 8, 15, 16, 31, 32};
    size_t record = PIL_RECORD_AT(one_in(3) ? below(n) : some_pollable());

    switch (below(5)) {
    case 0: set_both(record + PIL_RECORD_POLL, 0); set_both(record + PIL_RECORD_POLL_STATUS, 0); /* fall through */
    case 1: set_both(record + PIL_RECORD_MORE, one_in(4) ? below(256) : one_in(2) ? 4 : below(4)); break;
    case 2: set_both(record + PIL_RECORD_POLL_STATUS, one_in(4) ? below(256) : 1 + below(2)); break;
    default: set_both(record + PIL_RECORD_POLL, one_in(4) ? below(256) : limits[below(sizeof limits)]);
    }
}

/* A record's byte with bits turned over. */
static void turn_both(size_t place, unsigned bits)
{
    set_both(place, area_of(MODEL)[place] ^ bits);
}

/* Configured at these addresses, the talk primary received or not. */
static void damage_configured(size_t record, unsigned address, unsigned second)
{
    set_both(record + PIL_RECORD_CONFIGURED, PIL_CONFIGURED);
    set_both(record + PIL_RECORD_ADDRESS, address);
    set_both(record + PIL_RECORD_SECOND, second + PIL_PRIMARY_RECEIVED * below(2));
}

/* Addresses, assignment or what there is in only one of the variants: some of it is sound after all. */
static void damage_extended(void)
{
    size_t record = PIL_RECORD_AT(one_in(3) ? below(n) : some_extended());

    switch (below(11)) {
    case 0: turn_both(record + PIL_RECORD_FIXED_SECOND, one_in(2) ? 1u << below(8) : 64); break;
    case 1: turn_both(record + PIL_RECORD_SECOND, one_in(2) ? 1u << below(8) : 64); break;
    case 2:
    case 3: set_both(record + PIL_RECORD_CONFIGURED, one_in(4) ? below(5) : 2 + below(2)); break;
    case 4: turn_both(record + PIL_RECORD_ABILITIES, PIL_ABILITY_AUTO_ADDRESS); break;
    case 5: turn_both(record + PIL_RECORD_MORE, PIL_MORE_EXTENDED); break;
    case 6: set_both(record + PIL_RECORD_ADDRESS, one_in(2) ? PIL_NO_ADDRESS : below(PIL_NO_ADDRESS + 2)); break;
    case 7: damage_configured(record, PIL_NO_ADDRESS, below(PIL_NO_ADDRESS)); break;
    case 8: damage_configured(record, below(PIL_NO_ADDRESS), PIL_NO_ADDRESS); break;
    case 9:
        set_both(record + PIL_RECORD_CONFIGURED, PIL_UNCONFIGURED);
        turn_both(record + PIL_RECORD_SECOND, 1 + below(PIL_SECOND_ADDRESS));
        break;
    default: turn_both(record + (one_in(2) ? PIL_RECORD_SECOND : PIL_RECORD_FIXED_SECOND), PIL_PRIMARY_RECEIVED);
    }
}

static void damage(void)
{
    static void (*const damages[])(void) = {damage_frame, damage_standing, damage_poll, damage_poll, damage_extended,
                                            damage_extended};
    unsigned how = below(10);

    if (how < sizeof damages / sizeof *damages) {
        damages[how]();
        return;
    }
    for (unsigned times = 1 + below(3); times > 0; times--) {
        size_t place = damaged_place();

        set_both(place, damaged_value(area_of(MODEL)[place]));
    }
}

/* Damages some bytes and makes one call; an area that is sound after all is sometimes kept. */
static void damaged_call(void)
{
    static uint8_t good[ROOM];
    struct call c = any_call();
    struct answer a;

    memcpy(good, rooms[MODEL], ROOM);
    forget_heard();
    damage();
    a = compare_call(&c);
    if (a.refusal == PIL_SHAPE || a.refusal == PIL_UNSOUND || c.which == WALK || one_in(2))
        set_rooms(good); /* a walk does not look at links */
}

/* Walks that are mostly refused. */

/* Another length of the records or of what is told; byte 0 and what is told sometimes fit that of the records. */
static void other_length_walk(void)
{
    struct call c = walk_call();
    uint8_t first = area_of(MODEL)[0];

    if (one_in(2)) {
        c.lent.told_len = other_told_length(n);
    } else {
        c.lent.records_len = other_records_length(n);
        if (one_in(2))
            set_both(0, (unsigned)(c.lent.records_len / PIL_RECORD_LENGTH));
        if (one_in(2))
            c.lent.told_len = PIL_TOLD_LENGTH(area_of(MODEL)[0]);
    }
    compare_call(&c);
    set_both(0, first);
}

/* Past the sound records of one device more than a loop can have. */
static void too_many_walked(void)
{
    static uint8_t good[ROOM];
    struct call c = walk_call();

    memcpy(good, rooms[MODEL], ROOM);
    chance_sound_area(area_of(PIL), PIL_MOST_DEVICES + 1);
    memcpy(rooms[MODEL], rooms[PIL], ROOM);
    c.lent = lent_for(PIL_MOST_DEVICES + 1);
    compare_call(&c);
    set_rooms(good);
}

/* Past damaged records, or before damaged links; sometimes with another cause of refusal beside it. */
static void damaged_walk(void)
{
    static uint8_t good[ROOM];
    struct call c = walk_call();

    memcpy(good, rooms[MODEL], ROOM);
    damage();
    if (one_in(4))
        c.lent.told_len = other_told_length(n);
    if (one_in(4))
        set_both(PIL_HEADER_ZEROS + below(PIL_HEADER_LENGTH - PIL_HEADER_ZEROS), 1u << below(8));
    compare_call(&c);
    set_rooms(good);
}

static void refused_walk(void)
{
    switch (below(6)) {
    case 0: too_many_walked(); break;
    case 1:
    case 2: other_length_walk(); break;
    default: damaged_walk();
    }
}

/* Saves opened. */

/* An area to open a save in: as it is, or with any bytes. */
static void lend_area(size_t length)
{
    if (one_in(3))
        return;
    chance_bytes(area_of(PIL), length < ROOM - 2 * GUARD ? length : ROOM - 2 * GUARD);
    memcpy(area_of(MODEL), area_of(PIL), ROOM - 2 * GUARD);
}

static struct call open_call(const struct save *s, size_t area_len)
{
    memcpy(input, s->bytes, INPUT_ROOM);
    return (struct call){.which = OPEN, .area_len = area_len, .input_len = s->length};
}

static _Noreturn void breaks(const char *law, const struct call *c, const struct answer *a)
{
    print_call(law, c);
    print_answer(PIL, a);
    print_bytes("save", input, c->input_len < INPUT_ROOM ? c->input_len : INPUT_ROOM);
    exit(1);
}

/* What was opened has just this save, or an old one's upgrade: no model is needed to see this. */
static void save_again(struct save *s)
{
    struct call c = {.which = SAVE, .area_len = PIL_AREA_LENGTH(n), .saved_len = PIL_SAVE_LENGTH(n)};
    struct answer a = compare_call(&c);

    if (s->bytes[PIL_SAVE_EDITION] == PIL_EDITION_OLD)
        upgrade(s);
    if (a.refusal != PIL_ACCEPTED || s->length != c.saved_len || memcmp(save_of(PIL), s->bytes, s->length) != 0)
        breaks("what was opened has another save", &c, &a);
}

/* A save opened at once gives the area back: no model is needed to see this. */
static void save_and_open(void)
{
    static uint8_t good[ROOM];
    struct save s = {.length = PIL_SAVE_LENGTH(n)};
    struct call c = {.which = SAVE, .area_len = PIL_AREA_LENGTH(n), .saved_len = s.length};
    struct answer a = compare_call(&c);

    if (a.refusal != PIL_ACCEPTED)
        breaks("a sound area is not saved", &c, &a);
    memcpy(s.bytes, save_of(PIL), s.length);
    memcpy(good, rooms[PIL], ROOM);
    lend_area(c.area_len);
    c = open_call(&s, c.area_len);
    a = compare_call(&c);
    if (a.refusal != PIL_ACCEPTED || memcmp(area_of(PIL), good + GUARD, c.area_len) != 0)
        breaks("a save just made does not give the area back", &c, &a);
    openings[OPENED]++;
    sizes[MORE_OPENED] += n > FORMER_MOST;
    origins[JUST_MADE]++;
}

/* What holds of an opening says how it ends: 02, a, gives the order 10, 1, 2. */
static enum opening opening(int spoilt, int wrong_length, int unsound)
{
    static const enum opening ends[2][2][2] = {{{OPENED, BAD_CONTENTS}, {BAD_LENGTH, BAD_LENGTH_2}},
                                               {{BAD_FORM, BAD_FORM_2}, {BAD_FORM_1, BAD_FORM_1_2}}};

    return ends[spoilt][wrong_length][unsound];
}

static const uint8_t refusal_of[OPENINGS] = {
    PIL_ACCEPTED, PIL_BAD_SAVE, PIL_BAD_SAVE, PIL_BAD_SAVE, PIL_BAD_SAVE, PIL_SHAPE, PIL_SHAPE, PIL_UNSOUND
};

/* The length of the area that a save is opened in: right, that of the count that it tells now, of another loop or of
   none, or right when cut to 32 bits. */
static size_t some_area_length(size_t right, const struct save *s)
{
    switch (below(12)) {
    case 0:
    case 1:
    case 2: return wrong_length(right, PIL_RECORD_LENGTH + PIL_LINK_LENGTH, ROOM - 2 * GUARD);
    case 3: return right + ((size_t)1 << 32);
    case 4: return PIL_AREA_LENGTH(saved_devices(s) % (PIL_MOST_DEVICES + 2));
    default: return right;
    }
}

static int saved_unsound(const struct save *s)
{
    uint8_t area[PIL_AREA_LENGTH(PIL_MOST_DEVICES)];

    return model_open(area, PIL_AREA_LENGTH(saved_devices(s)), s->bytes, s->length) == PIL_UNSOUND;
}

static void spoil_some_form(struct save *s)
{
    enum spoilt how = (enum spoilt)below(SPOILINGS);

    spoil_form(s, how);
    spoilings[how]++;
}

/* What is opened: a kept save, sometimes made old, with other contents, or spoilt. */
struct tried {
    struct save save;
    unsigned devices;
    int old, unsound, spoilt; /* unsound before it was spoilt */
};

static int has_choice(struct save *s)
{
    for (unsigned i = 0; i < saved_devices(s); i++)
        if (saved_record(s, i)[PIL_RECORD_END] != 0)
            return 1;
    return 0;
}

static struct tried some_tried(const struct save *s)
{
    struct tried t = {.save = *s, .devices = saved_devices(s)};

    t.old = one_in(3);
    if (t.old)
        make_old(&t.save, one_in(4));
    if (one_in(2))
        spoil_contents(&t.save);
    t.unsound = saved_unsound(&t.save) || (t.old && has_choice(&t.save));
    t.spoilt = one_in(2);
    if (t.spoilt)
        spoil_some_form(&t.save);
    return t;
}

/* An old save that was opened, or refused with 2: for a byte 19 alone if it would be opened as a new one. */
static void count_old(struct tried t, uint64_t refusal)
{
    if (refusal == PIL_UNSOUND) {
        t.save.bytes[PIL_SAVE_EDITION] = PIL_EDITION_NOW;
        old_saves[OLD_WITH_CHOICE] += !saved_unsound(&t.save);
        return;
    }
    old_saves[OLD_OPENED]++;
    for (unsigned i = 0; i < t.devices; i++)
        old_saves[saved_record(&t.save, i)[PIL_RECORD_DATA_LENGTH] > 0 ? END_CHOSEN : END_NOT_CHOSEN]++;
}

static void count_opening(const struct tried *t, const struct kept *k)
{
    origins[k->history == history_now ? THIS_HISTORY : t->devices == n ? SAME_COUNT : OTHER_COUNT]++;
    sizes[MORE_OPENED] += t->devices > FORMER_MOST;
}

/* Opens a kept save or what was made of it, sometimes in an area of another length. */
static void open_kept(const struct kept *k)
{
    static uint8_t good[ROOM];
    struct tried t = some_tried(&k->save);
    size_t right = PIL_AREA_LENGTH(t.devices), area_len = some_area_length(right, &t.save);
    enum opening end = opening(t.spoilt, area_len != right, t.unsound);
    struct call c;
    struct answer a;

    memcpy(good, rooms[MODEL], ROOM);
    lend_area(area_len);
    c = open_call(&t.save, area_len);
    a = compare_call(&c);
    if (a.refusal != refusal_of[end])
        breaks("not the first of 10, 1 and 2 that holds", &c, &a);
    openings[end]++;
    if (t.old && (a.refusal == PIL_ACCEPTED || a.refusal == PIL_UNSOUND))
        count_old(t, a.refusal);
    if (a.refusal != PIL_ACCEPTED) {
        set_rooms(good);
        return;
    }
    count_opening(&t, k);
    n = t.devices;
    save_again(&t.save);
}

/* A loop that is being filled is mostly left to go on. */
static void open_some(void)
{
    const struct kept *k = &kept[below(KEPT)];

    if (k->history == 0 || one_in(4) || (pace == FILLING && !one_in(4)))
        save_and_open();
    else
        open_kept(k);
}

/* Decodings and encodings. */

static struct call decode_call(uint64_t frame)
{
    return (struct call){.which = DECODE, .number = frame};
}

static struct call encode_call(uint64_t kind, uint64_t offset, uint64_t c1)
{
    return (struct call){.which = ENCODE, .number = kind, .second = offset, .third = c1};
}

/* Decoder and encoder undo each other, but for kind 0: no model is needed to see this. */
static void there_and_back(struct call c)
{
    struct answer there = compare_call(&c), back;
    int same;

    if (there.refusal != PIL_ACCEPTED || (c.which == DECODE && there.kind == PIL_KIND_NONE))
        return;
    if (c.which == DECODE) {
        struct call undo = encode_call(there.kind, there.offset, there.c1);

        back = compare_call(&undo);
        same = back.frame == c.number;
    } else {
        struct call undo = decode_call(there.frame);

        back = compare_call(&undo);
        same = back.kind == c.number && back.offset == c.second && back.c1 == c.third;
    }
    if (back.refusal != PIL_ACCEPTED || !same) {
        print_call("not undone by the call the other way", &c);
        print_answer(PIL, &there);
        print_answer(PIL, &back);
        exit(1);
    }
}

static uint64_t sometimes_wild(uint64_t good)
{
    return one_in(4) ? wild_number(good) : good;
}

static struct call code_call(void)
{
    uint64_t frame = sometimes_wild(below(PIL_FRAMES)), kind = sometimes_wild(below(PIL_KINDS));
    uint64_t offset = sometimes_wild(one_in(2) ? 0 : below(0x110)), c1 = below(2);

    if (one_in(4))
        return decode_call(frame);
    return encode_call(kind, offset, one_in(2) ? wild_number(c1) : c1);
}

/* Polls counted. */

static struct pil_polled polled_of(const struct answer *a)
{
    return (struct pil_polled){(uint8_t)a->refusal, (uint8_t)a->ones, (uint8_t)a->lowest};
}

/* Held to the laws of polls.h too. */
static void compare_count(uint64_t number)
{
    struct call c = {.which = POLL_COUNT, .number = number}, less = c;
    struct answer a = compare_call(&c), fewer = {0};

    if (a.refusal == PIL_ACCEPTED && a.lowest < DATA_BITS) {
        less.number -= (uint64_t)1 << a.lowest;
        fewer = compare_call(&less);
    }
    if (!counted_right(number, polled_of(&a), polled_of(&fewer))) {
        print_call("not counted as the laws say", &c);
        print_answer(PIL, &a);
        print_answer(PIL, &fewer);
        exit(1);
    }
}

/* Mostly an IDY, sometimes one without ones. */
static void count_some(void)
{
    unsigned idy = FIRST_IDY + (one_in(6) ? 0 : below(PIL_FRAMES - FIRST_IDY));

    compare_count(sometimes_wild(one_in(4) ? below(PIL_FRAMES) : idy));
}

/* Histories. */

static _Noreturn void wrong_material(const char *what)
{
    printf("call %" PRIu64 " of seed %" PRIu64 ": the model refuses %s\n", made, seed, what);
    exit(3);
}

static enum mix mix(const uint8_t *area)
{
    unsigned extended = 0;

    for (unsigned i = 0; i < n; i++)
        extended += is_extended(area + PIL_RECORD_AT(i)) != 0;
    return extended == 0 ? ALL_SIMPLE : extended == n ? ALL_EXTENDED : BOTH_VARIANTS;
}

/* Begins with a set-up over any contents, or with a sound area made up. */
static void begin(void)
{
    struct call c;
    size_t area_len;

    history_now++;
    n = chance_devices();
    sizes[n <= FORMER_MOST ? FORMER : n < PIL_MOST_DEVICES ? MORE : MOST]++;
    area_len = PIL_AREA_LENGTH(n);
    pace = one_in(6) ? FILLING : one_in(2) ? CROWDED : PACED;
    taken = 0;
    memset(rooms[PIL], 0xa5, ROOM);
    if (one_in(3)) {
        chance_sound_area(area_of(PIL), n);
        c = (struct call){.which = PUT, .number = PIL_FRAMES, .area_len = area_len};
    } else {
        chance_bytes(area_of(PIL), area_len);
        c = set_up_call();
        c.area_len = area_len;
    }
    memcpy(rooms[MODEL], rooms[PIL], ROOM);
    if (compare_call(&c).refusal != (c.which == PUT ? PIL_BAD_FRAME : PIL_ACCEPTED))
        wrong_material(c.which == PUT ? "a sound area" : "allowed items");
    mixes[mix(area_of(MODEL))]++;
    forget_heard();
}

static void go_on(void)
{
    struct call c = sensible_call();
    struct answer a = compare_call(&c);

    if (c.which == TAKE && a.refusal == PIL_ACCEPTED)
        taken = (unsigned)a.frame;
}

/* Gives some devices any remote state and enable flag, and makes listeners of those that can be: all of it is sound,
   and a bench may write to the area. */
static void give_standings(void)
{
    for (unsigned i = 0; i < n; i++) {
        size_t record = PIL_RECORD_AT(i);

        if (one_in(2))
            continue;
        set_both(record + PIL_RECORD_REMOTE, below(REMOTES));
        set_both(record + PIL_RECORD_ENABLED, below(2));
        if (area_of(MODEL)[record + PIL_RECORD_ABILITIES] & PIL_ABILITY_LISTEN)
            set_both(record + PIL_RECORD_LISTENER, 1);
    }
}

/* And some that can be polled any configuration and poll status. */
static void give_polls(void)
{
    for (unsigned i = 0; i < n; i++) {
        size_t record = PIL_RECORD_AT(i);

        if (!(area_of(MODEL)[record + PIL_RECORD_MORE] & PIL_MORE_POLL) || one_in(2))
            continue;
        chance_poll(area_of(MODEL) + record);
        memcpy(area_of(PIL) + record, area_of(MODEL) + record, PIL_RECORD_LENGTH);
    }
}

/* And some extended ones any assignment, addresses and primaries received. */
static void give_addresses(void)
{
    forget_heard();
    for (unsigned i = 0; i < n; i++) {
        size_t record = PIL_RECORD_AT(i);

        if (!is_extended(area_of(MODEL) + record) || one_in(2))
            continue;
        chance_assigned(area_of(MODEL) + record);
        memcpy(area_of(PIL) + record, area_of(MODEL) + record, PIL_RECORD_LENGTH);
    }
}

/* The link becomes one that holds just this frame, or none. */
static void lend_link(unsigned link, unsigned frames, unsigned frame)
{
    size_t at = PIL_LINK_AT(n, link);

    for (size_t i = 0; i < PIL_LINK_LENGTH; i++)
        set_both(at + i, 0);
    set_both(at + PIL_LINK_COUNT, frames);
    set_both(at + PIL_LINK_FRAMES, frame);
    set_both(at + PIL_LINK_FRAMES + 1, frame >> 8);
}

/* A script for an extended device, that was there or is new, or sometimes for any: its frames are written into the link
   before it one by one. */
static void address_some(void)
{
    int any = one_in(5);
    unsigned device = any ? below(n) : some_extended(), script = below(SCRIPTS);
    uint8_t *record = area_of(MODEL) + PIL_RECORD_AT(device);

    forget_heard();
    if (!any && one_in(2)) {
        chance_extended(record);
        memcpy(area_of(PIL) + PIL_RECORD_AT(device), record, PIL_RECORD_LENGTH);
    }
    for (unsigned step = 0; step < STEPS && made < wanted; step++) {
        struct call c = hop_call(device);

        lend_link(device, 1, chance_script_frame(record, script, step));
        lend_link(device + 1, 0, 0);
        c.area_len = PIL_AREA_LENGTH(n);
        compare_call(&c);
    }
}

static void history(void)
{
    begin();
    for (unsigned left = 20 + below(300); left > 0 && made < wanted; left--) {
        if (one_in(12))
            give_standings();
        if (one_in(12))
            give_polls();
        if (one_in(12))
            give_addresses();
        switch (below(24)) {
        case 0: wild_number_call(); break;
        case 1: wrong_length_call(); break;
        case 2:
        case 3: damaged_call(); break;
        case 4: one_in(4) ? too_many_call() : one_in(3) ? wrong_items_call() : bad_items_call(); break;
        case 5: one_in(3) ? count_some() : there_and_back(code_call()); break;
        case 6:
        case 7: open_some(); break;
        case 8: pace == FILLING ? go_on() : address_some(); break; /* links are left to fill, here and below */
        case 9: pace == FILLING ? go_on() : refused_walk(); break;
        default: go_on();
        }
    }
}

/* All heads of saves, all editions, and all codes. */

/* The saves of which all heads and editions are tried, by their devices. */
static const unsigned tried_whole[] = {1, 2, PIL_MOST_DEVICES};

enum { TRIED_WHOLE = sizeof tried_whole / sizeof *tried_whole };

/* The save of a sound area of so many devices, which the area of both sides becomes. */
static struct save some_sound_save(unsigned devices)
{
    struct save s = {.length = PIL_SAVE_LENGTH(devices)};

    chance_sound_area(area_of(PIL), devices);
    memcpy(rooms[MODEL], rooms[PIL], ROOM);
    if (model_save(area_of(MODEL), PIL_AREA_LENGTH(devices), s.bytes, s.length) != PIL_ACCEPTED)
        wrong_material("to save a sound area");
    return s;
}

/* Each bit of each head of a save of so many devices turned over; the area stays a sound one of as many. */
static void compare_heads(unsigned devices)
{
    struct save s = some_sound_save(devices), changed;
    size_t area_len = PIL_AREA_LENGTH(devices);

    for (unsigned part = 0; part_at(devices, part) < s.length; part++)
        for (unsigned bit = 0; bit < 8 * PIL_SAVE_HEAD_LENGTH; bit++) {
            struct call c;
            struct answer a;

            changed = s;
            changed.bytes[part_at(devices, part) + bit / 8] ^= (uint8_t)(1u << bit % 8);
            c = open_call(&changed, area_len);
            a = compare_call(&c);
            if (a.refusal != PIL_BAD_SAVE)
                breaks("a save with another bit in a head is not refused as none", &c, &a);
            head_bits++;
        }
}

/* Every number in the place of the edition of a save of so many devices: all but the two that there are give 10. */
static void compare_editions(unsigned devices)
{
    struct save s = some_sound_save(devices);

    for (unsigned edition = 0; edition <= UINT8_MAX; edition++) {
        struct call c;
        struct answer a;

        s.bytes[PIL_SAVE_EDITION] = (uint8_t)edition;
        c = open_call(&s, PIL_AREA_LENGTH(devices));
        a = compare_call(&c);
        if ((a.refusal == PIL_BAD_SAVE) != (edition > PIL_EDITION_NOW))
            breaks("not refused with 10 just where there is no such edition", &c, &a);
        editions += a.refusal == PIL_BAD_SAVE;
    }
}

static void compare_saves(void)
{
    for (unsigned i = 0; i < TRIED_WHOLE; i++) {
        compare_heads(tried_whole[i]);
        compare_editions(tried_whole[i]);
    }
}

/* A kind and an offset with C1 right, wrong, and right when its high bits are cut off. */
static void encode_with_each_c1(uint64_t kind, uint64_t offset)
{
    static const uint64_t c1s[] = {0, 1, 2, 3, 255, 256, 257, (uint64_t)1 << 32, ((uint64_t)1 << 32) + 1,
                                   (uint64_t)1 << 63, UINT64_MAX};

    for (unsigned i = 0; i < sizeof c1s / sizeof *c1s; i++)
        there_and_back(encode_call(kind, offset, c1s[i]));
}

static void compare_small_codes(void)
{
    for (unsigned frame = 0; frame <= 2100; frame++) {
        there_and_back(decode_call(frame));
        compare_count(frame);
    }
    for (unsigned kind = 0; kind <= 50; kind++)
        for (unsigned offset = 0; offset <= 0x210; offset++)
            encode_with_each_c1(kind, offset);
}

static void compare_with_wide_number(uint64_t wide)
{
    there_and_back(decode_call(wide));
    encode_with_each_c1(wide, 0);
    for (unsigned kind = 0; kind <= PIL_KINDS; kind++) {
        encode_with_each_c1(kind, wide);
        there_and_back(encode_call(kind, 0, wide));
    }
}

/* Numbers near the powers of two from 2^8 to 2^64: a cut to fewer bits would show. */
static void compare_wide_codes(void)
{
    static const uint64_t small[] = {UINT64_MAX, 0, 1, 2, PIL_KIND_LAD, PIL_NO_ADDRESS, PIL_KIND_IDY, 0x141};

    for (unsigned bits = 8; bits <= 64; bits++) {
        uint64_t power = bits < 64 ? (uint64_t)1 << bits : 0;

        for (unsigned i = 0; i < sizeof small / sizeof *small; i++)
            compare_with_wide_number(power + small[i]);
        for (unsigned idy = FIRST_IDY; idy < PIL_FRAMES; idy += 17)
            compare_count(power + idy);
    }
}

/* Remote and local (02, d): each state under each command, at each kind of device, and each value of the two bytes. */

enum { OWN_ADDRESS = 5, COMMANDS = 0x400, COMMANDS_END = 0x500, BYTES = 256 };

/* A listener, one that could be, and two that cannot listen. */
static const struct { uint8_t abilities, listener; } devices_tried[] = {
    {0xff, 1}, {0xff, 0}, {0xff - PIL_ABILITY_LISTEN - PIL_ABILITY_UNADDRESS, 0}, {0, 0}
};

enum { DEVICES_TRIED = sizeof devices_tried / sizeof *devices_tried };

/* Both areas become a loop of one such device, with the frame before it. */
static void lend_device(unsigned tried, unsigned remote, unsigned enabled, unsigned frame)
{
    uint8_t item[PIL_ITEM_LENGTH] = {devices_tried[tried].abilities, OWN_ADDRESS};
    uint8_t *r = area_of(PIL) + PIL_RECORD_AT(0);

    n = 1;
    if (model_set_up(area_of(PIL), PIL_AREA_LENGTH(n), item, sizeof item) != PIL_ACCEPTED
        || model_put(area_of(PIL), PIL_AREA_LENGTH(n), frame) != PIL_ACCEPTED)
        wrong_material("a device or a command");
    r[PIL_RECORD_LISTENER] = devices_tried[tried].listener;
    r[PIL_RECORD_REMOTE] = (uint8_t)remote;
    r[PIL_RECORD_ENABLED] = (uint8_t)enabled;
    memcpy(rooms[MODEL], rooms[PIL], ROOM);
}

/* A hop of the frame, and a drain with just that budget; gives the event that both told, 0 if they differ. */
static uint64_t compare_command(unsigned tried, unsigned stood, unsigned frame)
{
    struct call hop = hop_call(0), drain = drain_call(1);
    struct answer hopped, drained;

    hop.area_len = drain.area_len = PIL_AREA_LENGTH(1);
    lend_device(tried, stood % REMOTES, stood / REMOTES, frame);
    hopped = compare_call(&hop);
    lend_device(tried, stood % REMOTES, stood / REMOTES, frame);
    drained = compare_call(&drain);
    return drained.reason == PIL_STOP_EVENT && drained.end == 0 && drained.byte == hopped.event ? hopped.event : 0;
}

/* The key, over any two bytes; gives whether it was accepted. */
static int compare_key(unsigned remote, unsigned enabled)
{
    struct call key = {.which = KEY, .area_len = PIL_AREA_LENGTH(1)};
    uint64_t refusal;

    lend_device(0, remote, enabled, COMMANDS);
    refusal = compare_call(&key).refusal;
    if (refusal != PIL_ACCEPTED && refusal != PIL_UNSOUND)
        wrong_material("the key otherwise than with 2");
    return refusal == PIL_ACCEPTED;
}

/* DCL clears every device, SDC and GET act on the listener; eight pairs of bytes are sound. */
static int compare_remote(void)
{
    uint64_t events[PIL_EVENT_TRIGGER + 1] = {0}, accepted = 0;
    int all;

    for (unsigned tried = 0; tried < DEVICES_TRIED; tried++)
        for (unsigned stood = 0; stood < STANDINGS; stood++)
            for (unsigned frame = COMMANDS; frame < COMMANDS_END; frame++)
                events[compare_command(tried, stood, frame)]++;
    for (unsigned remote = 0; remote < BYTES; remote++)
        for (unsigned enabled = 0; enabled < BYTES; enabled++)
            accepted += (unsigned)compare_key(remote, enabled);
    all = events[PIL_EVENT_CLEAR] == STANDINGS * (DEVICES_TRIED + 1) && events[PIL_EVENT_TRIGGER] == STANDINGS
        && accepted == STANDINGS;
    printf("remote and local: %d states at %d devices under %d commands each, by hop and by drain: %" PRIu64 " clears, "
           "%" PRIu64 " triggers; of %d pairs of bytes 17 and 18 the key took %" PRIu64 " and refused the others with "
           "2%s\n", STANDINGS, DEVICES_TRIED, COMMANDS_END - COMMANDS, events[PIL_EVENT_CLEAR],
           events[PIL_EVENT_TRIGGER], BYTES * BYTES, accepted, all ? "" : "  NOT ALL");
    return all;
}

/* Parallel poll (02, f): each IDY under each configuration, each command at devices told or not, listeners or not, and
   each value of the three bytes. */

enum { SOUND_TOLDS = 1 + PPES, NO_POLL = 0, SOUND_PAIRS = 2 * SOUND_TOLDS };

/* Byte 22 of a device told nothing, and of one told by each PPE. */
static unsigned sound_told(unsigned i)
{
    return i == 0 ? 0 : 16 + i - 1;
}

/* Both areas become a loop of one device with every ability of byte 0 and these three bytes, the frame before it. */
static void lend_polled(unsigned listener, unsigned more, unsigned told, unsigned status, unsigned frame)
{
    lend_device(listener ? 0 : 1, PIL_LOCAL, 0, frame);
    set_both(PIL_RECORD_AT(0) + PIL_RECORD_MORE, more);
    set_both(PIL_RECORD_AT(0) + PIL_RECORD_POLL, told);
    set_both(PIL_RECORD_AT(0) + PIL_RECORD_POLL_STATUS, status);
}

static struct answer compare_hop(void)
{
    struct call hop = hop_call(0);

    hop.area_len = PIL_AREA_LENGTH(1);
    return compare_call(&hop);
}

/* Each IDY at a device so told, which asks for service or not; gives how many of them had a bit made a one. */
static uint64_t compare_idys(unsigned told, unsigned status, unsigned service)
{
    uint64_t changed = 0;

    for (unsigned frame = FIRST_IDY; frame < PIL_FRAMES; frame++) {
        lend_polled(1, PIL_MORE_POLL, told, status, frame);
        set_both(PIL_RECORD_AT(0) + PIL_RECORD_SERVICE, service);
        changed += (compare_hop().frame & PIL_DATA_BITS) != (frame & PIL_DATA_BITS);
    }
    return changed;
}

/* Each command at a device of such bytes; gives how many of them changed byte 22. */
static uint64_t compare_tellings(unsigned listener, unsigned more, unsigned told, unsigned status)
{
    uint64_t changed = 0;

    for (unsigned frame = COMMANDS; frame < COMMANDS_END; frame++) {
        lend_polled(listener, more, told, status, frame);
        changed += compare_hop().refusal == PIL_ACCEPTED && area_of(PIL)[PIL_RECORD_AT(0) + PIL_RECORD_POLL] != told;
    }
    return changed;
}

/* The refusal of a poll status over any three bytes, which says how they are judged. */
static uint64_t compare_poll_bytes(unsigned more, unsigned told, unsigned status)
{
    struct call c = {.which = POLL_STATUS, .area_len = PIL_AREA_LENGTH(1), .second = 1};

    lend_polled(0, more, told, status, COMMANDS);
    return compare_call(&c).refusal;
}

/* All pairs of bytes 22 and 23, with the ability and without; all bytes 7, beside zeros and beside a configuration. */
static int compare_all_poll_bytes(void)
{
    uint64_t with[REFUSALS] = {0}, without[REFUSALS] = {0}, sevens[REFUSALS] = {0};
    int all;

    for (unsigned told = 0; told < BYTES; told++)
        for (unsigned status = 0; status < BYTES; status++) {
            with[compare_poll_bytes(PIL_MORE_POLL, told, status)]++;
            without[compare_poll_bytes(NO_POLL, told, status)]++;
        }
    for (unsigned more = 0; more < BYTES; more++) {
        sevens[compare_poll_bytes(more, 0, 0)]++;
        sevens[compare_poll_bytes(more, sound_told(PPES), 1)]++;
    }
    all = with[PIL_ACCEPTED] == SOUND_PAIRS && with[PIL_UNSOUND] == BYTES * BYTES - SOUND_PAIRS
        && without[PIL_NO_ABILITY] == 1 && without[PIL_UNSOUND] == BYTES * BYTES - 1
        && sevens[PIL_ACCEPTED] == 2 && sevens[PIL_NO_ABILITY] == 1 && sevens[PIL_UNSOUND] == 2 * BYTES - 3;
    printf("  of %d pairs of bytes 22 and 23 a poll status took %" PRIu64 " with the ability and refused %" PRIu64
           " with 2, without it %" PRIu64 " with 7 and %" PRIu64 " with 2; of twice %d bytes 7 it took %" PRIu64
           " and refused %" PRIu64 " with 2%s\n", BYTES * BYTES, with[PIL_ACCEPTED], with[PIL_UNSOUND],
           without[PIL_NO_ABILITY], without[PIL_UNSOUND], BYTES, sevens[PIL_ACCEPTED], sevens[PIL_UNSOUND],
           all ? "" : "  NOT ALL");
    return all;
}

/* Of 512 IDYs half have a bit zero, which one of two statuses makes a one. A PPE tells a listener all but what it was
   told already, PPD makes it forget, and PPU any device. */
static int compare_polls(void)
{
    uint64_t made_ones = 0, told_anew = 0, ones_due = 2 * PPES * (PIL_FRAMES - FIRST_IDY) / 2;
    uint64_t changes_due = 2 * (PPES + PPES * (PPES - 1) + PPES + 2 * PPES);
    int all;

    for (unsigned i = 0; i < SOUND_TOLDS; i++)
        for (unsigned status = 0; status < 2; status++) {
            made_ones += compare_idys(sound_told(i), status, PIL_SERVICE_NONE);
            made_ones += compare_idys(sound_told(i), status, PIL_SERVICE_ASKING);
            told_anew += compare_tellings(0, PIL_MORE_POLL, sound_told(i), status);
            told_anew += compare_tellings(1, PIL_MORE_POLL, sound_told(i), status);
        }
    told_anew += compare_tellings(0, NO_POLL, 0, 0) + compare_tellings(1, NO_POLL, 0, 0);
    all = made_ones == ones_due && told_anew == changes_due;
    printf("parallel poll: every IDY at %d configurations with either status, asking or not: %" PRIu64 " had a bit "
           "made a one; every command there, at a listener and at another, and without the ability: %" PRIu64
           " changed a configuration%s\n", SOUND_TOLDS, made_ones, told_anew, all ? "" : "  NOT ALL");
    return compare_all_poll_bytes() && all;
}

/* Extended addresses (02, i): each standing under each command and ready frame, each value of bytes 3, 7, 20 and 21
   together, and all lengths and last bytes of items. */

enum { FIXED_SECOND = 7, GIVEN = 9, GIVEN_SECOND = 3, READY_END = 0x600, NO_AUTO = 0xff - PIL_ABILITY_AUTO_ADDRESS };

/* All that an extended device can have, without unaddress, without listening, without talking, and none. */
static const uint8_t abilities_tried[] = {NO_AUTO, NO_AUTO - PIL_ABILITY_UNADDRESS,
                                          NO_AUTO - PIL_ABILITY_UNADDRESS - PIL_ABILITY_LISTEN, PIL_ABILITY_LISTEN, 0};

/* How an extended device stands. */
struct stand {
    uint8_t abilities, assigned, primaries, listener, talker;
};

static int is_sound(const struct stand *s)
{
    return (!s->listener || s->abilities & PIL_ABILITY_LISTEN) && (!s->talker || s->abilities & PIL_ABILITY_DATA);
}

/* A reply under way, of which there is more to send. */
static void make_sender(uint8_t *r)
{
    r[PIL_RECORD_NRD] = 1;
    r[PIL_RECORD_LAST] = 0x41;
    r[PIL_RECORD_DATA_LENGTH] = 2;
    memcpy(r + PIL_RECORD_DATA, "AB", 2);
    r[PIL_RECORD_SENT] = r[PIL_RECORD_TALKER] == PIL_TALKER_DATA;
    r[PIL_RECORD_REPLY_SENT] = r[PIL_RECORD_TALKER] > PIL_TALKER_DATA;
}

/* Its addresses: the fixed ones, those assigned, or half assigned, also at 31. */
static void make_addresses(uint8_t *r, const struct stand *s)
{
    static const uint8_t states[ASSIGNEDS] = {PIL_UNCONFIGURED, PIL_CONFIGURED, PIL_HALF_ASSIGNED, PIL_HALF_ASSIGNED};
    static const uint8_t seconds_now[ASSIGNEDS] = {FIXED_SECOND, GIVEN_SECOND, GIVEN_SECOND, PIL_NO_ADDRESS};

    r[PIL_RECORD_CONFIGURED] = states[s->assigned];
    r[PIL_RECORD_ADDRESS] = s->assigned == UNASSIGNED ? OWN_ADDRESS : GIVEN;
    r[PIL_RECORD_FIXED_SECOND] = FIXED_SECOND | (s->primaries & LISTEN_PRIMARY ? PIL_PRIMARY_RECEIVED : 0);
    r[PIL_RECORD_SECOND] = seconds_now[s->assigned];
    r[PIL_RECORD_SECOND] |= s->primaries & TALK_PRIMARY ? PIL_PRIMARY_RECEIVED : 0;
}

/* Both areas become a loop of one such device, enabled, with the frame before it. */
static void lend_extended(const struct stand *s, unsigned frame)
{
    uint8_t item[PIL_EXTENDED_ITEM_LENGTH] = {s->abilities, OWN_ADDRESS, 0x50, 2, 0x41, 0x42,
                                              [PIL_ITEM_MORE] = PIL_MORE_POLL | PIL_MORE_EXTENDED, FIXED_SECOND};
    uint8_t *r = area_of(PIL) + PIL_RECORD_AT(0);

    n = 1;
    if (model_set_up(area_of(PIL), PIL_AREA_LENGTH(n), item, sizeof item) != PIL_ACCEPTED
        || model_put(area_of(PIL), PIL_AREA_LENGTH(n), frame) != PIL_ACCEPTED)
        wrong_material("an extended device or a frame");
    r[PIL_RECORD_LISTENER] = s->listener;
    r[PIL_RECORD_TALKER] = s->talker;
    r[PIL_RECORD_ENABLED] = 1;
    if (s->talker >= PIL_TALKER_DATA)
        make_sender(r);
    make_addresses(r, s);
    memcpy(rooms[MODEL], rooms[PIL], ROOM);
}

/* What all these hops came to: AES and AEP obeyed, primaries received, talkers and listeners made by a SAD, talkers
   made idle by one, and devices that a LAD made remote. */
static struct {
    uint64_t hops, assigned, primary, received, talkers, listeners, idle, remote;
} extended_sums;

static void add_extended(const uint8_t *was, const uint8_t *now, unsigned frame)
{
    enum called by = called(was, frame);
    int second = by == OWN_SAD || by == OTHER_SAD;

    extended_sums.hops++;
    extended_sums.assigned += now[PIL_RECORD_CONFIGURED] == PIL_HALF_ASSIGNED && was[PIL_RECORD_CONFIGURED] == 0;
    extended_sums.primary += now[PIL_RECORD_CONFIGURED] == PIL_CONFIGURED && was[PIL_RECORD_CONFIGURED] != 1;
    extended_sums.received += primaries(now) != NO_PRIMARY && primaries(now) != primaries(was);
    extended_sums.talkers += second && now[PIL_RECORD_TALKER] == 1 && was[PIL_RECORD_TALKER] != 1;
    extended_sums.listeners += second && now[PIL_RECORD_LISTENER] > was[PIL_RECORD_LISTENER];
    extended_sums.idle += by == OTHER_SAD && now[PIL_RECORD_TALKER] == 0 && was[PIL_RECORD_TALKER] != 0;
    extended_sums.remote += now[PIL_RECORD_REMOTE] == PIL_REMOTE;
}

/* Each command and ready frame at a device that stands so; the standings that are not sound are left out. */
static void compare_stand(const struct stand *s)
{
    for (unsigned frame = COMMANDS; is_sound(s) && frame < READY_END; frame++) {
        lend_extended(s, frame);
        if (compare_hop().refusal != PIL_ACCEPTED)
            wrong_material("the hop of an extended device");
        add_extended(before + GUARD + PIL_RECORD_AT(0), area_of(PIL) + PIL_RECORD_AT(0), frame);
    }
}

static void compare_stands(uint8_t abilities)
{
    for (unsigned how = 0; how < ASSIGNEDS * PRIMARIES * 2 * TALKERS; how++) {
        struct stand s = {abilities, (uint8_t)(how % ASSIGNEDS), (uint8_t)(how / ASSIGNEDS % PRIMARIES),
                          (uint8_t)(how / ASSIGNEDS / PRIMARIES % 2), (uint8_t)(how / ASSIGNEDS / PRIMARIES / 2)};

        compare_stand(&s);
    }
}

/* With the five abilities there are 12, 12, 6, 2 and 1 pairs of listener and talker, 26 of them with listening, 30 with
   talking. An own SAD is there in three of four assignments, with a primary in two of four. */
static int compare_extended(void)
{
    const uint64_t pairs = 12 + 12 + 6 + 2 + 1, stands = pairs * ASSIGNEDS * PRIMARIES;
    const uint64_t obeyed = pairs * PRIMARIES * 31;
    const uint64_t talkers_due = 3 * 2 * (10 + 10 + 5), listeners_due = 3 * (6 + 2 * 6 + 2);
    const uint64_t others_due = (3 * 30 + 31) * 2 * (10 + 10 + 5), received_due = (26 + 30) * ASSIGNEDS * 3;
    int all;

    for (unsigned i = 0; i < sizeof abilities_tried; i++)
        compare_stands(abilities_tried[i]);
    all = extended_sums.hops == stands * (READY_END - COMMANDS) && extended_sums.assigned == obeyed
        && extended_sums.primary == obeyed && extended_sums.received == received_due
        && extended_sums.talkers == talkers_due && extended_sums.listeners == listeners_due
        && extended_sums.idle == others_due && extended_sums.remote == 26 * ASSIGNEDS * PRIMARIES;
    printf("extended addresses: %" PRIu64 " standings under %d commands and ready frames each: %" PRIu64 " AES and %"
           PRIu64 " AEP obeyed, %" PRIu64 " primaries received, %" PRIu64 " talkers and %" PRIu64 " listeners made by "
           "SAD, %" PRIu64 " talkers idle by another's, %" PRIu64 " remote by LAD%s\n", stands, READY_END - COMMANDS,
           extended_sums.assigned, extended_sums.primary, extended_sums.received, extended_sums.talkers,
           extended_sums.listeners, extended_sums.idle, extended_sums.remote, all ? "" : "  NOT ALL");
    return all;
}

/* Asks both sides for soundness of one device's area, whole calls only where they differ: there are millions. */
static int compare_soundness(const uint8_t *area)
{
    uint8_t refusal = pil_owed(area, PIL_AREA_LENGTH(1)).refusal;

    if (refusal != model_owed(area, PIL_AREA_LENGTH(1)).refusal || (refusal && refusal != PIL_UNSOUND)) {
        struct call c = {.which = OWED, .area_len = PIL_AREA_LENGTH(1)};

        memcpy(area_of(PIL), area, PIL_AREA_LENGTH(1));
        memcpy(rooms[MODEL], rooms[PIL], ROOM);
        compare_call(&c);
        wrong_material("an area otherwise than with 2");
    }
    return refusal == PIL_ACCEPTED;
}

/* All pairs of bytes 20 and 21; gives how many of them are sound. */
static uint64_t compare_pairs(uint8_t *area)
{
    uint8_t *r = area + PIL_RECORD_AT(0);
    uint64_t sound = 0;

    for (unsigned pair = 0; pair < BYTES * BYTES; pair++) {
        r[PIL_RECORD_FIXED_SECOND] = (uint8_t)(pair / BYTES);
        r[PIL_RECORD_SECOND] = (uint8_t)(pair % BYTES);
        sound += (unsigned)compare_soundness(area);
    }
    return sound;
}

/* How many pairs are sound, by bytes 7 and 3: at the fixed address, at another, at 31, and, with ability 32, at the
   fixed one. */
enum { MORES_TRIED = 5, STATES_TRIED = 4, PLACES_TRIED = 4 };

static const uint16_t pairs_sound[PLACES_TRIED][MORES_TRIED][STATES_TRIED] = {
    {{1, 0, 0, 0}, {1, 0, 0, 0}, {128, 3968, 4096, 0}, {128, 3968, 4096, 0}, {0, 0, 0, 0}},
    {{0, 0, 0, 0}, {0, 0, 0, 0}, {0, 3968, 4096, 0}, {0, 3968, 4096, 0}, {0, 0, 0, 0}},
    {{0, 0, 0, 0}, {0, 0, 0, 0}, {0, 0, 4096, 0}, {0, 0, 4096, 0}, {0, 0, 0, 0}},
    {{1, 1, 0, 0}, {1, 1, 0, 0}, {0, 0, 0, 0}, {0, 0, 0, 0}, {0, 0, 0, 0}},
};

static const struct {
    uint8_t abilities, address;
} places_tried[PLACES_TRIED] = {{NO_AUTO, OWN_ADDRESS}, {NO_AUTO, GIVEN}, {NO_AUTO, PIL_NO_ADDRESS},
                                {0xff, OWN_ADDRESS}};

static int compare_second_bytes(void)
{
    uint8_t area[PIL_AREA_LENGTH(1)] = {1}, *r = area + PIL_RECORD_AT(0);
    uint64_t sound = 0, wrong = 0;

    r[PIL_RECORD_FIXED] = OWN_ADDRESS;
    for (unsigned how = 0; how < PLACES_TRIED * MORES_TRIED * STATES_TRIED; how++) {
        unsigned place = how / STATES_TRIED / MORES_TRIED, more = how / STATES_TRIED % MORES_TRIED;
        uint64_t pairs;

        r[PIL_RECORD_ABILITIES] = places_tried[place].abilities;
        r[PIL_RECORD_ADDRESS] = places_tried[place].address;
        r[PIL_RECORD_MORE] = (uint8_t)more;
        r[PIL_RECORD_CONFIGURED] = (uint8_t)(how % STATES_TRIED);
        pairs = compare_pairs(area);
        sound += pairs;
        wrong += pairs != pairs_sound[place][more][how % STATES_TRIED];
    }
    printf("  of %d pairs of bytes 20 and 21, each with bytes 7 and 3 up to %d and %d, without ability 32 at the fixed "
           "address, at another and at 31, and with it, %" PRIu64 " are sound%s\n", BYTES * BYTES, MORES_TRIED - 1,
           STATES_TRIED - 1, sound, wrong ? "  NOT ALL" : "");
    return wrong == 0;
}

/* A set-up of one device; gives whether it was accepted. */
static int compare_item(unsigned abilities, size_t length, unsigned more, unsigned second)
{
    struct call c = {.which = SET_UP, .area_len = PIL_AREA_LENGTH(1), .input_len = length};

    memset(input, 0, LONGER_ITEM);
    input[PIL_ITEM_ABILITIES] = (uint8_t)abilities;
    input[PIL_ITEM_MORE] = (uint8_t)more;
    input[PIL_ITEM_SECOND] = (uint8_t)second;
    return compare_call(&c).refusal == PIL_ACCEPTED;
}

/* Items of zeros, of each length and for each number of devices; gives how many were accepted. */
static unsigned compare_lengths(void)
{
    unsigned accepted = 0;

    memset(input, 0, INPUT_ROOM);
    for (unsigned devices = 1; devices <= PIL_MOST_DEVICES; devices++)
        for (size_t length = 0; length <= LONGER_ITEM * devices; length++) {
            struct call c = {.which = SET_UP, .area_len = PIL_AREA_LENGTH(devices), .input_len = length};

            accepted += compare_call(&c).refusal == PIL_ACCEPTED;
        }
    return accepted;
}

/* All pairs of an item's bytes 12 and 13, and all bytes 12 of a shorter one, without ability 32 and with it. */
static int compare_items(void)
{
    unsigned pairs[2] = {0}, shorter[2] = {0}, lengths = compare_lengths();
    int all;

    for (unsigned more = 0; more < BYTES; more++)
        for (unsigned automatic = 0; automatic < 2; automatic++) {
            unsigned abilities = automatic ? PIL_ABILITY_AUTO_ADDRESS : 0;

            shorter[automatic] += (unsigned)compare_item(abilities, PIL_POLL_ITEM_LENGTH, more, 0);
            for (unsigned second = 0; second < BYTES; second++)
                pairs[automatic] += (unsigned)compare_item(abilities, PIL_EXTENDED_ITEM_LENGTH, more, second);
        }
    all = pairs[0] == 2 + 2 * 32 && pairs[1] == 2 && shorter[0] == 4 && shorter[1] == 2
        && lengths == 3 * PIL_MOST_DEVICES;
    printf("  of %d pairs of an item's bytes 12 and 13 %u were accepted without ability 32, %u with it, of %d bytes 12 "
           "alone %u and %u; of all lengths of items for 1 to %d devices %u%s\n", BYTES * BYTES, pairs[0], pairs[1],
           BYTES, shorter[0], shorter[1], PIL_MOST_DEVICES, lengths, all ? "" : "  NOT ALL");
    return all;
}

/* Walks (02, l): each frame past three devices in a row, the first in many standings. */

enum { FIRST, ASKING, LISTENING, THREE, STANDS = PRIMARIES * 2 * TALKERS };

static void set_up_three(void)
{
    static const uint8_t mores[THREE] = {PIL_MORE_EXTENDED, PIL_MORE_POLL, 0};
    uint8_t items[PIL_EXTENDED_ITEMS_LENGTH(THREE)] = {0};

    n = THREE;
    for (unsigned i = 0; i < THREE; i++) {
        uint8_t *item = items + PIL_EXTENDED_ITEM_AT(i);

        item[PIL_ITEM_ABILITIES] = i == FIRST ? NO_AUTO : 0xff;
        item[PIL_ITEM_FIXED] = OWN_ADDRESS;
        item[PIL_ITEM_ID_LENGTH] = 2;
        item[PIL_ITEM_MORE] = mores[i];
        item[PIL_ITEM_SECOND] = i == FIRST ? FIXED_SECOND : 0;
    }
    if (model_set_up(area_of(PIL), PIL_AREA_LENGTH(n), items, sizeof items) != PIL_ACCEPTED)
        wrong_material("three devices");
}

/* An extended device that stands so, one that asks for service, answers polls and awaits an AAD, and a listener. */
static void lend_three(const struct stand *s)
{
    uint8_t *first = area_of(PIL) + PIL_RECORD_AT(FIRST), *asking = area_of(PIL) + PIL_RECORD_AT(ASKING);

    set_up_three();
    first[PIL_RECORD_LISTENER] = s->listener;
    first[PIL_RECORD_TALKER] = s->talker;
    if (s->talker >= PIL_TALKER_DATA)
        make_sender(first);
    make_addresses(first, s);
    asking[PIL_RECORD_SERVICE] = PIL_SERVICE_ASKING;
    asking[PIL_RECORD_POLL] = (uint8_t)sound_told(PPES);
    asking[PIL_RECORD_POLL_STATUS] = 1;
    area_of(PIL)[PIL_RECORD_AT(LISTENING) + PIL_RECORD_LISTENER] = 1;
    memcpy(rooms[MODEL], rooms[PIL], ROOM);
}

/* What all these walks tell, the addresses that AADs gave in the middle, and the IDYs that came out answered there. */
static struct {
    uint64_t told[TELLINGS], assigned, answered;
} walk_sums;

static void compare_walks_past(const struct stand *s)
{
    uint64_t was[TELLINGS];

    lend_three(s);
    for (unsigned i = 0; i < TELLINGS; i++)
        was[i] = tellings_of[0][i] + tellings_of[1][i];
    for (unsigned frame = 0; frame < PIL_FRAMES; frame++) {
        struct call c = {.which = WALK, .number = frame, .lent = lent_for(THREE)};
        unsigned out = (unsigned)compare_call(&c).frame;

        walk_sums.assigned += walked_record(ASKING)[PIL_RECORD_CONFIGURED] == PIL_CONFIGURED;
        walk_sums.answered += frame >= FIRST_IDY && out == (frame | PIL_C1 | 1u << (DATA_BITS - 1));
    }
    for (unsigned i = 0; i < TELLINGS; i++)
        walk_sums.told[i] += tellings_of[0][i] + tellings_of[1][i] - was[i];
}

/* Of 48 standings the first device is handed bytes in 8, the last in the 16 where the first does not send, and three
   replies in the 8 where it is addressed. SDC and GET act on the last, and in half of the standings on the first. */
static int compare_walks(void)
{
    const uint64_t bytes = 0x200 * (8 + 16) + 3 * 8, ends = 0x200 * (8 + 16), triggers = STANDS + STANDS / 2;
    const uint64_t clears = THREE * STANDS + triggers, in_all = (uint64_t)THREE * STANDS * PIL_FRAMES;
    int all;

    for (unsigned how = 0; how < STANDS; how++) {
        struct stand s = {NO_AUTO, (uint8_t)(how % ASSIGNEDS), (uint8_t)(how % PRIMARIES),
                          (uint8_t)(how / PRIMARIES % 2), (uint8_t)(how / PRIMARIES / 2)};

        compare_walks_past(&s);
    }
    all = walk_sums.told[TOLD_BYTE] == bytes && walk_sums.told[TOLD_END] == ends
        && walk_sums.told[TOLD_CLEAR] == clears && walk_sums.told[TOLD_TRIGGER] == triggers
        && walk_sums.told[TOLD_NOTHING] == in_all - bytes - ends - clears - triggers
        && walk_sums.assigned == STANDS * PIL_NO_ADDRESS && walk_sums.answered == STANDS * (PIL_FRAMES - FIRST_IDY);
    printf("walks: every frame past three devices in %d standings: %" PRIu64 " bytes handed without end bit, %" PRIu64
           " with it, %" PRIu64 " clears, %" PRIu64 " triggers, %" PRIu64 " times nothing told; %" PRIu64 " addresses "
           "given, %" PRIu64 " IDYs answered%s\n", STANDS, walk_sums.told[TOLD_BYTE], walk_sums.told[TOLD_END],
           walk_sums.told[TOLD_CLEAR], walk_sums.told[TOLD_TRIGGER], walk_sums.told[TOLD_NOTHING], walk_sums.assigned,
           walk_sums.answered, all ? "" : "  NOT ALL");
    return all;
}

static void compare_table(void)
{
#if HAVE_KINDS
    for (unsigned frame = 0; frame < PIL_FRAMES; frame++)
        if (pil_kinds[frame] != pil_decode(frame).kind) {
            printf("difference: pil_kinds[%u] is %u, pil_decode answers %u\n", frame, pil_kinds[frame],
                   pil_decode(frame).kind);
            exit(1);
        }
    printf("pil_kinds.h: equal to the decoder at all %d frames\n", PIL_FRAMES);
#else
    printf("pil_kinds.h: not there, not compared\n");
#endif
}

/* The report. */

static int report_counts(const char *what, const uint64_t *counts, unsigned from, unsigned end, uint64_t least)
{
    int enough = 1;

    printf("%s:", what);
    for (unsigned i = from; i < end; i++) {
        printf(" %u: %" PRIu64, i, counts[i]);
        enough &= counts[i] >= least;
    }
    printf("%s\n", enough ? "" : "  TOO FEW");
    return enough;
}

static int report_loads(void)
{
    int enough = report_counts("loads with a choice accepted (0), refused with 1 (1), 2 (2), 3 (3), 7 (4), 8 (5), 9 "
                               "(6)", loads[BY_CHOICE], 0, LOAD_REFUSALS, LEAST);

    enough &= report_counts("loads with a number that is no choice, by what else holds: nothing (0), 1, which is given "
                            "(1), or beside the 2 that is given 2 for the area (2), 3 (3), 7 (4), 8 (5), 9 (6)",
                            loads[BY_NO_CHOICE], 0, LOAD_REFUSALS, LEAST);
    enough &= report_counts("loads by load_end accepted (0), refused with 1 (1), 2 (2), 3 (3), 7 (4), 8 (5), 9 (6)",
                            loads[BY_LOAD_END], 0, LOAD_REFUSALS, LEAST);
    enough &= report_counts("choices stored over the other one: plain (0), END (1), with no bytes plain (2), END (3)",
                            storings, 0, STORINGS, LEAST);
    enough &= report_counts("last bytes sent at a hop: plain (0), END (1)", lasts, 0, PIL_LAST_END + 1, LEAST);
    return enough;
}

static int report_remote(void)
{
    int enough = report_counts("keys pressed: accepted (0), refused with 1, 2, 3", keys, 0, PIL_NO_DEVICE + 1, LEAST);

    enough &= report_counts("remote and local after a hop: local (0), remote (1), each of them locked (2, 3), and each "
                            "of these while enabled (4 to 7)", standings, 0, STANDINGS, LEAST);
    for (unsigned by = 0; by < MOVERS; by++) {
        printf("  from each of these, ");
        enough &= report_counts(movers[by], moves[by], 0, STANDINGS, LEAST_MOVES);
    }
    enough &= report_counts("clears by DCL at a listener (0), at another device (1), by SDC at a listener (2), none at "
                            "another (3); triggers by GET at a listener (4), none at another (5)", actings, 0, ACTINGS,
                            LEAST);
    enough &= report_counts("clears (1) and triggers (2) at a device that is sending", sender_events, PIL_EVENT_CLEAR,
                            PIL_EVENT_TRIGGER + 1, LEAST_MOVES);
    enough &= report_counts("drains stopped by a clear (0) or trigger (1) with budget left, with it spent (2, 3)",
                            event_stops, 0, EVENT_STOPS, LEAST);
    return enough;
}

static int report_answers(void)
{
    static const char *const of[2][2] = {{"zero, status no", "zero, status yes"},
                                         {"one, status no", "one, status yes"}};
    int enough = 1;

    for (unsigned one = 0; one < 2; one++)
        for (unsigned yes = 0; yes < 2; yes++) {
            printf("  IDYs at devices told by each PPE, their bit ");
            enough &= report_counts(of[one][yes], answers_due[one][yes], 0, PPES, LEAST_MOVES);
        }
    return enough;
}

static int report_polls(void)
{
    int enough = report_counts("poll statuses accepted (0), refused with 1, 2, 3", poll_statuses, 0, PIL_NO_DEVICE + 1,
                               LEAST);

    enough &= report_counts("  with 7", poll_statuses, PIL_NO_ABILITY, PIL_NO_ABILITY + 1, LEAST);
    enough &= report_counts("  no (0) and yes (1) as before, yes to no (2), no to yes (3), yes by a number with a low "
                            "byte of zero (4)", statings, 0, STATINGS, LEAST);
    for (unsigned by = 0; by < TELLERS; by++) {
        printf("  without the ability (0), not told and told, status no (1, 3), yes (2, 4), ");
        enough &= report_counts(tellers[by], tellings[by], 0, POLLEDS, LEAST_MOVES);
    }
    enough &= report_counts("PPEs obeyed by a device not told before", ppes_obeyed[0], 0, PPES, LEAST_MOVES);
    enough &= report_counts("PPEs obeyed by a device told otherwise", ppes_obeyed[1], 0, PPES, LEAST_MOVES);
    enough &= report_counts("IDYs at devices so standing that ask for no service", idys[0], 0, POLLEDS, LEAST_MOVES);
    enough &= report_counts("IDYs at those that ask for it", idys[1], 0, POLLEDS, LEAST_MOVES);
    enough &= report_answers();
    enough &= report_counts("polls not counted for a frame that is no IDY (0), a number that is no frame (1), counted "
                            "without C1 (2), with C1 (3)", countings, 0, COUNTINGS, LEAST);
    enough &= report_counts("ones counted", ones, 0, DATA_BITS + 1, LEAST_MOVES);
    enough &= report_counts("lowest ones", lowests, 0, PIL_NO_BIT + 1, LEAST);
    return enough;
}

static int report_own_seconds(void)
{
    static const char *const of[PRIMARIES] = {"no primary", "the listen primary", "the talk primary", "both primaries"};
    int enough = 1;

    for (unsigned unaddress = 0; unaddress < 2; unaddress++)
        for (unsigned with = 0; with < PRIMARIES; with++) {
            printf("  its own SAD %s ability 64, with ", unaddress ? "with" : "without");
            enough &= report_counts(of[with], own_talkers[with][unaddress], 0, TALKERS, LEAST_MOVES);
            printf("    as no listener (0) and a listener (1)");
            enough &= report_counts("", own_listeners[with][unaddress], 0, 2, LEAST_MOVES);
        }
    return enough;
}

static int report_seconds(void)
{
    static const char *const behind[HEARDS] = {"nothing", "its own LAD", "its own TAD", "its own LAD and a command",
                                               "its own TAD and a command"};
    int enough = report_own_seconds();

    enough &= report_counts("  its own SAD with the listen primary and no ability 1 (0), with the talk primary and "
                            "none of 2 to 16 (1)", unable_seconds, 0, 2, LEAST_MOVES);
    enough &= report_counts("  another's SAD without the talk primary, by talker states", other_seconds[0], 0, TALKERS,
                            LEAST_MOVES);
    enough &= report_counts("  another's SAD with the talk primary, by talker states", other_seconds[1], 0, TALKERS,
                            LEAST_MOVES);
    for (unsigned i = 0; i < HEARDS; i++) {
        printf("  hop by hop, another's SAD (0) and its own (1) behind ");
        enough &= report_counts(behind[i], seconds[i], 0, 2, LEAST_MOVES);
    }
    return enough;
}

static int report_extended(void)
{
    int enough = report_counts("loops of simple devices (0), extended ones (1), both (2)", mixes, 0, MIXES, LEAST);

    enough &= report_counts("extended devices after a hop, not assigned (0), assigned (1), half (2), half at 31 (3)",
                            assigneds[0], 0, ASSIGNEDS, LEAST);
    enough &= report_counts("  those that can be polled", assigneds[1], 0, ASSIGNEDS, LEAST);
    for (unsigned by = 0; by < ASSIGNERS; by++) {
        printf("  from each of these, ");
        enough &= report_counts(called_names[by + 1 < ASSIGNERS ? GOT_AES + by : GOT_AAU], assignings[by], 0, ASSIGNEDS,
                                LEAST_MOVES);
    }
    for (unsigned by = 0; by < CALLED; by++) {
        printf("  with no primary received (0), the listen primary (1), the talk primary (2), both (3), ");
        enough &= report_counts(called_names[by], callings[by], 0, PRIMARIES, LEAST_MOVES);
    }
    enough &= report_seconds();
    enough &= report_counts("  its own LAD, by remote and local as above", primary_moves, 0, STANDINGS, LEAST_MOVES);
    enough &= report_counts("simple devices that let go by: SAD as a talker (0), AES (1) and AEP (2) where AAD would "
                            "be obeyed", passings, 0, PASSINGS, LEAST);
    return enough;
}

/* Header, records and links have a head each. */
static int report_tried_whole(void)
{
    uint64_t bits = 0, wrong = (uint64_t)TRIED_WHOLE * (UINT8_MAX - PIL_EDITION_NOW);
    int all;

    for (unsigned i = 0; i < TRIED_WHOLE; i++)
        bits += 8 * PIL_SAVE_HEAD_LENGTH * (1 + tried_whole[i] + tried_whole[i] + 1);
    all = head_bits == bits && editions == wrong;
    printf("bits of heads turned over in turn, each refused with 10: %" PRIu64 "; editions that there are not, each "
           "refused with 10: %" PRIu64 "; with these and the codes tried %" PRIu64 " calls, all equal%s\n", head_bits,
           editions, made, all ? "" : "  NOT ALL");
    return all;
}

static int report_saves(void)
{
    int enough = report_counts("savings accepted (0), refused for the area's shape (1), the output's length (2), also "
                               "where the area is unsound (3), an unsound area (4)", savings, 0, SAVINGS, LEAST);

    enough &= report_counts("openings accepted (0), refused with 10 alone (1), also where 1 (2), 2 (3) or both hold "
                            "(4), with 1 alone (5), also where 2 holds (6), with 2 (7)", openings, 0, OPENINGS, LEAST);
    enough &= report_counts("saves opened: just made (0), of this history (1), of another with as many devices (2), "
                            "with more or fewer (3)", origins, 0, ORIGINS, LEAST);
    enough &= report_counts("old saves opened (0), devices in them with data, for which END is chosen (1), and without "
                            "(2); old saves refused for a byte 19 alone (3)", old_saves, 0, OLD_SAVES, LEAST);
    enough &= report_counts("no saves: cut (0), longer (1), another byte in a head (2), out of order (3), another "
                            "count (4), of no or too many devices (5), of no edition (6)", spoilings, 0, SPOILINGS,
                            LEAST);
    return enough;
}

static int report_walks(void)
{
    int enough = report_counts("walks accepted (0), refused with 1 for a length of no loop (1), another than byte 0's "
                               "(2), one device too many (3), what is told (4), also where the records are unsound "
                               "(5), with 2 for the header (6), records (7), the last one alone (8), also where the "
                               "frame is over 2,047 (9), with 4 (10)", walkings, 0, WALKINGS, LEAST);

    enough &= report_counts("simple devices walked past: nothing told (0), a byte (1), an end byte (2), a clear (3), a "
                            "trigger (4)", tellings_of[0], 0, TELLINGS, LEAST);
    enough &= report_counts("extended ones", tellings_of[1], 0, TELLINGS, LEAST);
    enough &= report_counts("walks past one device (0), past some (1), past as many as there can be (2)", pasts, 0,
                            PASTS, LEAST);
    enough &= report_counts("walks over the records of an area with empty links (0), with frames in them (1), with "
                            "links that are not sound (2)", behinds, 0, BEHINDS, LEAST);
    return enough;
}

static int report(void)
{
    int enough = 1;

    printf("%" PRIu64 " calls, all answers and areas equal\n ", made);
    for (unsigned i = 0; i < WHICH; i++)
        printf(" %s %" PRIu64, names[i], calls_of[i]);
    printf("\n");
    enough &= report_counts("refusals given", refusals, PIL_SHAPE, REFUSALS, LEAST);
    enough &= report_counts("talker states after a hop", talkers, 0, TALKERS, 1);
    enough &= report_counts("reasons of drains", reasons, 0, REASONS, 1);
    enough &= report_counts("bytes come back as sent (0), with another C1 (1), C2 (2), both (3), data (4)", returned, 0,
                            RETURNED, LEAST);
    enough &= report_loads();
    enough &= report_remote();
    enough &= report_polls();
    enough &= report_extended();
    enough &= report_counts("set-ups of items of 12 bytes accepted (0), refused with 2 (1), of 13 bytes accepted (2), "
                            "refused with 2 for a last byte (3), for others (4), of 14 bytes accepted (5), refused "
                            "with 2 for a last byte (6), the last two (7), for others (8), refused with 1 for lengths "
                            "mixed (9), for items of 15 bytes (10), for another length (11)", settings, 0, SETTINGS,
                            LEAST);
    enough &= report_counts("encodings accepted with C1 0 (0), with C1 1 (1), refused for the kind (2), the offset "
                            "(3), a C1 over 1 (4), a C1 of 1 on a kind without one (5), several causes (6)", encodings,
                            0, ENCODINGS, LEAST);
    enough &= report_saves();
    enough &= report_walks();
    enough &= report_counts("histories of no more devices than there could be before 02, j (0), of more (1), of as "
                            "many as there can be (2), openings of more than before accepted (3), set-ups of one too "
                            "many (4), lengths wrong but in the lowest byte (5)", sizes, 0, SIZES, LEAST);
    enough &= report_counts("hops owed after a call: none (0), some (1), the most of a short loop (2), of a long one "
                            "(3), refused with 1 (4), with 2 (5)", owings, 0, OWINGS, LEAST);
    return enough;
}

int main(int argc, char **argv)
{
    int enough;

    if (argc > 1)
        seed = strtoull(argv[1], NULL, 0);
    if (argc > 2)
        wanted = strtoull(argv[2], NULL, 0);
    if (argc > 3 || wanted == 0) {
        fprintf(stderr, "use: compare [seed [calls]]\n");
        return 3;
    }
    printf("seed %" PRIu64 ", %" PRIu64 " calls in histories\n", seed, wanted);
    catch_signals();
    chance_seed(seed);
    while (made < wanted)
        history();
    /* Of the histories alone: the codes and polls tried whole would meet their counts by themselves. */
    enough = report();
    compare_saves();
    compare_small_codes();
    compare_wide_codes();
    enough &= report_tried_whole();
    compare_table();
    enough &= compare_remote();
    enough &= compare_polls();
    enough &= compare_extended();
    enough &= compare_second_bytes();
    enough &= compare_items();
    enough &= compare_walks();
    enough &= order_histories(seed, wanted / 500);
    return enough || wanted < FULL_RUN ? 0 : 2;
}
