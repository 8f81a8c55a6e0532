/* No two meters at one address (02, e), on random loops in which every device takes one: after AAU an AAD k, right
   round, gives device i the address k + i, traffic without AAU leaves it there, and a TAD right round leaves no talker
   but the device that it names, till the next TAD. Then the loops where this fails. Use: meters [seed [rounds]].
   Exit 0: all holds, and all was met; 1: something does not hold; 2: too little was met; 3: wrong use. Compiled with
   METERS_FAULT 1 to 14 it spoils what libpil gave. The Makefile also has the model in place of libpil, with no fault of
   its own and with each that concerns addresses. */
#include "chance.h"
#include "pil.h"

#include <inttypes.h>
#include <stdarg.h>
#include <stdio.h>
#include <stdlib.h>
#include <string.h>

#ifndef METERS_FAULT
#define METERS_FAULT 0
#endif

enum {
    DEFAULT_SEED = 20246,
    DEFAULT_ROUNDS = 3000,
    TAD = 0x440,
    SAD = 0x460,
    IFC = 0x490, /* the first of sixteen codes of commands to the whole loop, AAU among them */
    AAU = 0x49a,
    SDA = 0x560,
    AAD = 0x580, /* the first of 128 codes that assign addresses or would */
    IAA = 0x59f,
    AEP = 0x5a0,
    IEP = 0x5bf,
    AES = 0x5c0,
    REPLIES = PIL_ABILITY_DATA | PIL_ABILITY_STATUS | PIL_ABILITY_ID | PIL_ABILITY_ACCESSORY,
    METER = PIL_ABILITY_DATA | PIL_ABILITY_AUTO_ADDRESS,
    MOST = PIL_MOST_DEVICES,
    UNKNOWN = MOST + 1
};

/* What may be put: anything before AAU, no AAD behind it, and no AAU behind the AAD that follows. */
enum part { EARLIER, BEHIND_AAU, BEHIND_AAD };

static uint8_t area[PIL_AREA_LENGTH(MOST)], was[PIL_AREA_LENGTH(MOST)]; /* now, and after the call before */
static uint8_t items[PIL_EXTENDED_ITEMS_LENGTH(MOST)];
static unsigned n, out; /* devices, and the frame that came out last */
static unsigned first;  /* the address that AAD gives to device 0 */
static unsigned given;  /* so many devices have theirs, and the others their fixed ones; or UNKNOWN */
static int giving;      /* the AAD is under way */
static unsigned alone = PIL_FRAMES; /* the frame that is under way alone, if one is */
static unsigned named = UNKNOWN;    /* the address in the TAD that went alone, till the next is put; or UNKNOWN */
static size_t area_len;
static uint64_t seed = DEFAULT_SEED, rounds = DEFAULT_ROUNDS, turn, calls;

/* What was met. Each of these must be. */
static struct {
    uint64_t calls, given, longest, single, to_the_last, among, behind, stale, by, named, unnamed, ended, anew;
    uint64_t several, sending, refused, reopened, drains, locals;
} met;

static _Noreturn void differ(const char *how, ...)
{
    va_list values;

    printf("difference in round %" PRIu64 " of seed %" PRIu64 ", call %" PRIu64 ", %u devices: ", turn, seed, calls, n);
    va_start(values, how);
    vprintf(how, values);
    va_end(values);
    printf("\n");
    exit(1);
}

static uint8_t *record(unsigned i)
{
    return area + PIL_RECORD_AT(i);
}

static uint8_t *link_at(unsigned i)
{
    return area + PIL_LINK_AT(n, i);
}

/* The link nearest device 0 that holds a frame, from the given one on; past the tail if none does. */
static unsigned next_held(unsigned i)
{
    while (i <= n && link_at(i)[PIL_LINK_COUNT] == 0)
        i++;
    return i;
}

static unsigned under_way(void)
{
    unsigned frames = 0;

    for (unsigned i = 0; i <= n; i++)
        frames += link_at(i)[PIL_LINK_COUNT];
    return frames;
}

/* What faults spoil. */

static void give_up(uint8_t *r)
{
    r[PIL_RECORD_CONFIGURED] = PIL_UNCONFIGURED;
    r[PIL_RECORD_ADDRESS] = r[PIL_RECORD_FIXED];
}

/* The newest frame of a link, less one. */
static void uncount(uint8_t *link)
{
    link[PIL_LINK_FRAMES + 2 * link[PIL_LINK_COUNT] - 2]--;
}

/* AAU not obeyed by the last device, AAD not counted up by it or not to IAA, and device 1 given its neighbour's. */
static void spoil_assigned(unsigned i, const uint8_t *old, uint8_t *r)
{
    int gets = r[PIL_RECORD_CONFIGURED] > old[PIL_RECORD_CONFIGURED], last = i == n - 1;

    if (METERS_FAULT == 1 && last && r[PIL_RECORD_CONFIGURED] < old[PIL_RECORD_CONFIGURED])
        memcpy(r, old, PIL_RECORD_LENGTH);
    if (METERS_FAULT == 2 && last && gets)
        uncount(link_at(n));
    if (METERS_FAULT == 3 && last && gets && r[PIL_RECORD_ADDRESS] == PIL_NO_ADDRESS - 1)
        uncount(link_at(n));
    if (METERS_FAULT == 4 && i == 1 && gets && r[PIL_RECORD_ADDRESS] > 0)
        r[PIL_RECORD_ADDRESS]--;
}

/* At a TAD: a sender not idle at another's, a sender not addressed anew at its own, and an accessory not addressed. */
static void spoil_talker(const uint8_t *old, uint8_t *r)
{
    unsigned from = old[PIL_RECORD_TALKER], to = r[PIL_RECORD_TALKER];

    if (METERS_FAULT == 5 && from >= PIL_TALKER_DATA && to == PIL_TALKER_IDLE)
        memcpy(r, old, PIL_RECORD_LENGTH);
    if (METERS_FAULT == 6 && from >= PIL_TALKER_DATA && to == PIL_TALKER_ADDRESSED)
        memcpy(r, old, PIL_RECORD_LENGTH);
    if (METERS_FAULT == 7 && (r[PIL_RECORD_ABILITIES] & REPLIES) == PIL_ABILITY_ACCESSORY)
        r[PIL_RECORD_TALKER] = PIL_TALKER_IDLE;
}

static void spoil_records(void)
{
    for (unsigned i = 0; i < n; i++) {
        spoil_assigned(i, was + PIL_RECORD_AT(i), record(i));
        if (alone >= TAD && alone < TAD + PIL_NO_ADDRESS)
            spoil_talker(was + PIL_RECORD_AT(i), record(i));
    }
}

/* An address given up at IFC or at a clear, another one taken from AEP, and a talker made by SDA. */
static void spoil_hop(uint8_t *r, unsigned came, unsigned event)
{
    if (METERS_FAULT == 14 && came == SDA && r[PIL_RECORD_TALKER] == PIL_TALKER_IDLE
        && (r[PIL_RECORD_ABILITIES] & PIL_ABILITY_DATA))
        r[PIL_RECORD_TALKER] = PIL_TALKER_ADDRESSED;
    if ((METERS_FAULT == 8 && came == IFC) || (METERS_FAULT == 9 && event == PIL_EVENT_CLEAR))
        give_up(r);
    if (METERS_FAULT == 10 && came >= AEP && came < IEP && r[PIL_RECORD_CONFIGURED])
        r[PIL_RECORD_ADDRESS] = (uint8_t)(came - AEP);
}

/* What holds after every call. */

static void see_addresses(void)
{
    for (unsigned i = 0; i < n; i++) {
        const uint8_t *r = record(i);
        unsigned configured = i < given, address = configured ? first + i : r[PIL_RECORD_FIXED];

        if (r[PIL_RECORD_ADDRESS] != address || r[PIL_RECORD_CONFIGURED] != configured)
            differ("device %u is at %u, configured %u, and not at %u, %u", i, r[PIL_RECORD_ADDRESS],
                   r[PIL_RECORD_CONFIGURED], address, configured);
    }
}

/* No device talks but the one that was named. */
static void see_talkers(void)
{
    for (unsigned i = 0; i < n; i++) {
        const uint8_t *r = record(i);

        if (r[PIL_RECORD_ADDRESS] != named && r[PIL_RECORD_TALKER] != PIL_TALKER_IDLE)
            differ("after TAD %u device %u, at %u, is talker %u", named, i, r[PIL_RECORD_ADDRESS],
                   r[PIL_RECORD_TALKER]);
        met.sending += r[PIL_RECORD_TALKER] >= PIL_TALKER_DATA;
    }
}

/* A refused call has changed nothing; the AAD has given addresses to just the devices that it has passed. */
static void called(unsigned refusal)
{
    calls++;
    met.calls++;
    met.refused += refusal != PIL_ACCEPTED;
    if (refusal != PIL_ACCEPTED && memcmp(area, was, area_len) != 0)
        differ("a call refused with %u changes the area", refusal);
    if (giving)
        given = next_held(0) < n ? next_held(0) : n;
    if (given != UNKNOWN)
        see_addresses();
    if (named != UNKNOWN)
        see_talkers();
    memcpy(was, area, area_len);
}

/* The same for a call with the right length: the area is sound all the time. */
static unsigned judged(unsigned refusal)
{
    if (refusal == PIL_SHAPE || refusal == PIL_UNSOUND)
        differ("a call is refused with %u", refusal);
    called(refusal);
    return refusal;
}

/* The calls. */

static unsigned put(uint64_t frame)
{
    unsigned refusal = pil_put(area, area_len, frame);

    if (refusal == PIL_ACCEPTED && frame >= TAD && frame < TAD + PIL_NO_ADDRESS)
        named = UNKNOWN;
    return judged(refusal);
}

static void hop(uint64_t device)
{
    unsigned came = device < n ? frame_at(link_at((unsigned)device) + PIL_LINK_FRAMES) : 0;
    struct pil_hopped hopped = pil_hop(area, area_len, device);

    if (hopped.refusal == PIL_ACCEPTED) {
        met.by += given == n && came >= AAD && came < IAA;
        spoil_records();
        spoil_hop(record((unsigned)device), came, hopped.event);
    } else if (METERS_FAULT == 11 && hopped.refusal == PIL_NO_DEVICE) {
        give_up(record(n - 1));
    }
    judged(hopped.refusal);
}

static unsigned take(void)
{
    struct pil_taken taken = pil_take(area, area_len);

    if (taken.refusal == PIL_ACCEPTED)
        out = taken.frame;
    return judged(taken.refusal);
}

static void drain(uint64_t budget)
{
    struct pil_drained drained = pil_drain(area, area_len, budget);

    met.drains += drained.hops > 0;
    spoil_records();
    judged(drained.refusal);
}

/* Saves the loop and opens just that save, with no call between. */
static void reopen(void)
{
    uint8_t save[PIL_SAVE_LENGTH(MOST)];

    judged(pil_save(area, area_len, save, PIL_SAVE_LENGTH(n)));
    chance_bytes(area, area_len);
    if (pil_open(area, area_len, save, PIL_SAVE_LENGTH(n)) != PIL_ACCEPTED)
        differ("the opening of what was saved is refused");
    if (METERS_FAULT == 12)
        give_up(record(0));
    called(PIL_ACCEPTED);
    met.reopened++;
}

static void local_call(void)
{
    uint8_t bytes[PIL_MOST_DATA];
    unsigned device = below(n), length = below(one_in(2) ? 4 : PIL_MOST_DATA + 1);
    uint64_t value = one_in(3) ? 0 : chance();
    uint8_t refusal;

    chance_bytes(bytes, length);
    switch (below(6)) {
    case 0: refusal = pil_load(area, area_len, device, bytes, length, value % 2); break;
    case 1: refusal = pil_load_end(area, area_len, device, bytes, length); break;
    case 2: refusal = pil_status(area, area_len, device, (uint8_t)value); break;
    case 3: refusal = pil_wish(area, area_len, device, value); break;
    case 4: refusal = pil_poll_status(area, area_len, device, value); break;
    default:
        refusal = pil_key(area, area_len, device);
        if (METERS_FAULT == 13)
            give_up(record(device));
    }
    met.locals += judged(refusal) == PIL_ACCEPTED;
}

/* A save cut short. */
static uint8_t open_short(void)
{
    uint8_t save[PIL_SAVE_LENGTH(MOST)];

    judged(pil_save(area, area_len, save, PIL_SAVE_LENGTH(n)));
    return pil_open(area, area_len, save, PIL_SAVE_LENGTH(n) - 1 - below(PIL_LINK_LENGTH));
}

/* A call whose length, contents or choice are wrong, whatever the loop is in. */
static uint8_t wrong_call(void)
{
    uint8_t bytes[PIL_MOST_DATA + 1] = {0}, save[PIL_SAVE_LENGTH(MOST)];
    unsigned device = below(n);

    switch (below(6)) {
    case 0: return pil_put(area, area_len - 1 - below(PIL_LINK_LENGTH), AAU);
    case 1: return pil_load(area, area_len, device, bytes, sizeof bytes, PIL_LAST_PLAIN);
    case 2: return pil_load(area, area_len, device, bytes, 1, PIL_LAST_END + 1 + (chance() >> 1));
    case 3: return pil_set_up(area, area_len, items, PIL_ITEMS_LENGTH(n) - 1 - below(PIL_ITEM_LENGTH));
    case 4: return pil_save(area, area_len, save, PIL_SAVE_LENGTH(n) - 1);
    default: return open_short();
    }
}

static void refused_call(void)
{
    uint8_t refusal;

    switch (below(6)) {
    case 0: put(PIL_FRAMES + (one_in(2) ? below(AAU) : chance() >> (1 + below(63)))); return;
    case 1: hop(n + (one_in(2) ? below(3) : chance() >> (1 + below(63)))); return;
    case 2: judged(pil_key(area, area_len, n)); return;
    default:
        refusal = wrong_call();
        if (refusal == PIL_ACCEPTED)
            differ("a wrong call is accepted");
        called(refusal);
    }
}

/* Any call that neither puts a frame nor moves one. */
static void call_between(void)
{
    switch (below(8)) {
    case 0:
    case 1: refused_call(); break;
    case 2: judged(pil_owed(area, area_len).refusal); break;
    case 3:
        if (one_in(4))
            reopen();
        break;
    default: local_call();
    }
}

/* Moves a frame if it can: any device, mostly one that has a frame to take, or the controller. */
static void move(void)
{
    unsigned held = next_held(below(n));

    switch (below(8)) {
    case 0: drain(one_in(3) ? UINT64_MAX : below(12)); break;
    case 1:
    case 2: take(); break;
    case 3: hop(below(n)); break;
    default: hop(held < n ? held : below(n));
    }
}

/* Empties all links. */
static void finish(void)
{
    while (next_held(0) <= n) {
        if (one_in(3))
            call_between();
        else
            move();
    }
}

/* Sends a frame right round while all links are empty; gives what comes out. */
static unsigned right_round(unsigned frame)
{
    alone = frame;
    if (put(frame) != PIL_ACCEPTED)
        differ("the put of %03x is refused", frame);
    finish();
    alone = PIL_FRAMES;
    return out;
}

/* Traffic. */

static unsigned any_frame(void)
{
    switch (below(8)) {
    case 0: return AAD + below(128);
    case 1: return IFC + below(16);
    default: return chance_frame(area, out);
    }
}

static unsigned some_frame(enum part part)
{
    unsigned frame;

    do
        frame = any_frame();
    while ((part == BEHIND_AAU && frame >= AAD && frame < IAA) || (part == BEHIND_AAD && frame == AAU));
    return frame;
}

static void put_some(enum part part)
{
    int accepted = put(some_frame(part)) == PIL_ACCEPTED;

    met.behind += part == BEHIND_AAU && accepted;
    met.several += part == BEHIND_AAD && accepted && under_way() > 1;
}

static void traffic(enum part part, unsigned steps)
{
    while (steps-- > 0)
        switch (below(8)) {
        case 0: call_between(); break;
        case 1:
        case 2: put_some(part); break;
        default: move();
        }
}

/* The parts of a round. */

static void set_up(size_t length)
{
    area_len = PIL_AREA_LENGTH(n);
    given = UNKNOWN;
    out = PIL_C3;
    chance_bytes(area, area_len);
    if (pil_set_up(area, area_len, items, n * length) != PIL_ACCEPTED)
        differ("the set-up is refused");
    memcpy(was, area, area_len);
}

/* Simple devices, all with auto address. */
static void begin(void)
{
    size_t length = one_in(2) ? PIL_ITEM_LENGTH : PIL_POLL_ITEM_LENGTH;

    n = one_in(2) ? chance_devices() : 1 + below(MOST);
    chance_items(items, n, length);
    for (unsigned i = 0; i < n; i++) {
        items[i * length + PIL_ITEM_ABILITIES] |= PIL_ABILITY_AUTO_ADDRESS;
        if (length > PIL_ITEM_MORE)
            items[i * length + PIL_ITEM_MORE] &= PIL_MORE_POLL;
    }
    set_up(length);
    met.longest += n == MOST;
    met.single += n == 1;
}

static unsigned configured_now(void)
{
    unsigned count = 0;

    for (unsigned i = 0; i < n; i++)
        count += record(i)[PIL_RECORD_CONFIGURED] == PIL_CONFIGURED;
    return count;
}

/* AAU right round, alone or among other frames, until all links are empty. */
static void unconfigure(void)
{
    given = UNKNOWN;
    met.stale += configured_now() > 0;
    if (one_in(3)) {
        finish();
        right_round(AAU);
    } else {
        while (put(AAU) != PIL_ACCEPTED)
            traffic(EARLIER, 1);
        met.among += under_way() > 1;
        traffic(BEHIND_AAU, below(40));
        finish();
    }
    given = 0;
    see_addresses();
}

/* AAD right round, often so that the last device gets the last address. */
static void assign(void)
{
    first = one_in(3) ? PIL_NO_ADDRESS - n : below(PIL_NO_ADDRESS - n + 1);
    giving = 1;
    if (right_round(AAD + first) != AAD + first + n)
        differ("AAD %u comes out as %03x", first, out);
    giving = 0;
    if (given != n)
        differ("AAD %u has come out and has passed only %u", first, given);
    met.given++;
    met.to_the_last += out == IAA;
}

/* After the TAD the device that it names is the talker, if it can talk. */
static void see_talker(void)
{
    unsigned i = named - first;

    if (named < first || i >= n || !(record(i)[PIL_RECORD_ABILITIES] & REPLIES))
        return;
    if (record(i)[PIL_RECORD_TALKER] != PIL_TALKER_ADDRESSED)
        differ("after TAD %u device %u is talker %u", named, i, record(i)[PIL_RECORD_TALKER]);
}

static void talk(void)
{
    unsigned address = one_in(4) ? below(PIL_NO_ADDRESS) : first + below(n);

    finish();
    for (unsigned i = 0; i < n; i++) {
        met.ended += first + i != address && record(i)[PIL_RECORD_TALKER] != PIL_TALKER_IDLE;
        met.anew += first + i == address && record(i)[PIL_RECORD_TALKER] >= PIL_TALKER_DATA;
    }
    if (right_round(TAD + address) != TAD + address)
        differ("TAD %u comes out as %03x", address, out);
    named = address;
    see_talkers();
    see_talker();
    met.named += address >= first && address < first + n;
    met.unnamed += address < first || address >= first + n;
}

static void one_round(void)
{
    begin();
    for (unsigned times = 1 + below(2); times > 0; times--) {
        if (one_in(2))
            traffic(EARLIER, below(80));
        unconfigure();
        assign();
        for (unsigned talks = below(12); talks > 0; talks--) {
            traffic(BEHIND_AAD, below(60));
            talk();
        }
        traffic(BEHIND_AAD, below(20));
        given = UNKNOWN;
        named = UNKNOWN;
    }
}

/* Where it fails. */

static uint8_t *meter_item(unsigned i)
{
    return items + PIL_POLL_ITEM_AT(i);
}

static void begin_meters(unsigned devices)
{
    n = devices;
    memset(items, 0, sizeof items);
    for (unsigned i = 0; i < n; i++) {
        meter_item(i)[PIL_ITEM_ABILITIES] = METER;
        meter_item(i)[PIL_ITEM_FIXED] = PIL_NO_ADDRESS;
    }
}

static void must_come_out(unsigned frame, unsigned expected)
{
    if (right_round(frame) != expected)
        differ("where it fails, %03x comes out as %03x", frame, out);
}

static void must_stand(unsigned i, unsigned address, unsigned configured, unsigned talker)
{
    const uint8_t *r = record(i);

    if (r[PIL_RECORD_ADDRESS] != address || r[PIL_RECORD_CONFIGURED] != configured || r[PIL_RECORD_TALKER] != talker)
        differ("where it fails, device %u is at %u, configured %u, talker %u", i, r[PIL_RECORD_ADDRESS],
               r[PIL_RECORD_CONFIGURED], r[PIL_RECORD_TALKER]);
}

/* Between two meters one that takes no address from AAD, at the fixed address that AAD gives to the next. */
static void begin_with_fixed(unsigned more)
{
    begin_meters(3);
    meter_item(1)[PIL_ITEM_ABILITIES] = PIL_ABILITY_DATA;
    meter_item(1)[PIL_ITEM_FIXED] = 2;
    meter_item(1)[PIL_ITEM_MORE] = (uint8_t)more;
    set_up(PIL_POLL_ITEM_LENGTH);
}

/* The talkers of that loop once AAU and AAD 1 have gone round. */
static void must_talk(unsigned at_1, unsigned fixed_at_2, unsigned at_2)
{
    must_stand(0, 1, PIL_CONFIGURED, at_1);
    must_stand(1, 2, PIL_UNCONFIGURED, fixed_at_2);
    must_stand(2, 2, PIL_CONFIGURED, at_2);
}

static void one_keeps_its_own(void)
{
    begin_with_fixed(0);
    right_round(AAU);
    must_come_out(AAD + 1, AAD + 3);
    right_round(TAD + 2);
    must_talk(PIL_TALKER_IDLE, PIL_TALKER_ADDRESSED, PIL_TALKER_ADDRESSED);
    right_round(TAD + 1);
    must_talk(PIL_TALKER_ADDRESSED, PIL_TALKER_IDLE, PIL_TALKER_IDLE);
}

/* The same with an extended device, assigned before AAU: once its SAD has made it talk, the own TAD does not end it. */
static void one_is_extended(void)
{
    begin_with_fixed(PIL_MORE_EXTENDED);
    must_come_out(AES + 7, AES + 8);
    must_come_out(AEP + 9, AEP + 9);
    right_round(AAU);
    must_come_out(AAD + 1, AAD + 3);
    right_round(TAD + 2);
    must_talk(PIL_TALKER_IDLE, PIL_TALKER_IDLE, PIL_TALKER_ADDRESSED);
    right_round(SAD);
    right_round(TAD + 2);
    must_talk(PIL_TALKER_IDLE, PIL_TALKER_ADDRESSED, PIL_TALKER_ADDRESSED);
    right_round(TAD + 1);
    must_talk(PIL_TALKER_ADDRESSED, PIL_TALKER_IDLE, PIL_TALKER_IDLE);
}

/* One device more than there are addresses from AAD's on: it keeps the fixed one, its neighbour's too or none. */
static void one_too_many(unsigned devices, unsigned fixed)
{
    unsigned last = devices - 1, legal = PIL_NO_ADDRESS - 1;

    begin_meters(devices);
    meter_item(last)[PIL_ITEM_FIXED] = (uint8_t)fixed;
    set_up(PIL_POLL_ITEM_LENGTH);
    right_round(AAU);
    must_come_out(AAD + PIL_NO_ADDRESS + 1 - devices, IAA);
    for (unsigned address = 0; address <= legal; address++) {
        right_round(TAD + address);
        must_stand(last, fixed, PIL_UNCONFIGURED, address == fixed ? PIL_TALKER_ADDRESSED : PIL_TALKER_IDLE);
        must_stand(last - 1, legal, PIL_CONFIGURED, address == legal ? PIL_TALKER_ADDRESSED : PIL_TALKER_IDLE);
    }
}

static void where_it_fails(void)
{
    turn = 0;
    calls = 0;
    chance_seed(seed);
    one_keeps_its_own();
    one_is_extended();
    for (unsigned devices = 2; devices <= MOST; devices++) {
        one_too_many(devices, PIL_NO_ADDRESS - 1);
        one_too_many(devices, PIL_NO_ADDRESS);
    }
}

static int all_met(void)
{
    const uint64_t counts[] = {met.given, met.longest, met.single, met.to_the_last, met.among, met.behind,
                               met.stale, met.by, met.named, met.unnamed, met.ended, met.anew, met.several,
                               met.sending, met.refused, met.reopened, met.drains, met.locals};

    for (unsigned i = 0; i < sizeof counts / sizeof *counts; i++)
        if (counts[i] == 0)
            return 0;
    return 1;
}

static void report(void)
{
    printf("meters: %" PRIu64 " rounds, no two at one address: %" PRIu64 " AADs right round, %" PRIu64
           " of them to the last address; %" PRIu64 " AAUs among other frames, %" PRIu64 " frames behind these, %"
           PRIu64 " AAUs with devices configured; %" PRIu64 " loops of %d, %" PRIu64 " of one; %" PRIu64
           " TADs to an address of the loop, %" PRIu64 " to none, %" PRIu64 " talkers idle after them, %" PRIu64
           " senders addressed anew, %" PRIu64 " calls while one sends; %" PRIu64 " AADs let go by, %" PRIu64
           " puts behind other frames; %" PRIu64
           " calls, %" PRIu64 " refused, %" PRIu64 " local calls, %" PRIu64 " drains, %" PRIu64
           " times saved and opened%s\n", rounds, met.given, met.to_the_last, met.among, met.behind, met.stale,
           met.longest, MOST, met.single, met.named, met.unnamed, met.ended, met.anew, met.sending, met.by, met.several,
           met.calls, met.refused, met.locals, met.drains, met.reopened, all_met() ? "" : "  TOO FEW");
}

int main(int argc, char **argv)
{
    if (argc > 1)
        seed = strtoull(argv[1], NULL, 0);
    if (argc > 2)
        rounds = strtoull(argv[2], NULL, 0);
    if (argc > 3 || rounds == 0) {
        fprintf(stderr, "use: meters [seed [rounds]]\n");
        return 3;
    }
    for (turn = 1; turn <= rounds; turn++) {
        chance_seed(seed + (turn << 32));
        calls = 0;
        one_round();
    }
    where_it_fails();
    report();
    return all_met() ? 0 : 2;
}
