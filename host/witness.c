/* Two witnesses of one loop (02, l): random scripts of frames and local calls, each frame by put, hops and take on an
   area with empty links, and by a walk past the records of another. Use: witness [seed [scripts]]. Exit 0: they agree,
   and all was met; 1: they differ; 2: too little was met; 3: wrong use. Compiled with WITNESS_FAULT 1 to 12 it spoils
   what libpil gave, with an odd number by the loop and with an even one by the walk. The Makefile also has the model
   walk, or put, hop and take, in place of libpil: without a fault of its own, and with. */
#include "chance.h"
#include "pil.h"

#include <inttypes.h>
#include <stdarg.h>
#include <stdio.h>
#include <stdlib.h>
#include <string.h>

#ifndef WITNESS_FAULT
#define WITNESS_FAULT 0
#endif

enum {
    DEFAULT_SEED = 20245,
    DEFAULT_SCRIPTS = 1500,
    SAD = 0x460,
    IDY = 0x600,
    NRD = 0x542,
    IAA = 0x59f,
    D8 = 0x80,
    FAR = 20,    /* devices from here on are far down the loop */
    FARTHER = 25
};

/* What sending a frame right round comes to; all but the refusal is zero if it is refused. */
struct seen {
    unsigned refusal, frame;
    uint8_t told[PIL_TOLD_LENGTH(PIL_MOST_DEVICES)];
};

/* The area of the loop, and that of which the walk is lent the first part. Local calls are made on both. */
static uint8_t looped[PIL_AREA_LENGTH(PIL_MOST_DEVICES)], walked[PIL_AREA_LENGTH(PIL_MOST_DEVICES)];
static unsigned n, out; /* devices, and the frame that came out last */
static size_t area_len;
static uint64_t seed = DEFAULT_SEED, scripts = DEFAULT_SCRIPTS, script, step, sending;

/* What was met. Each of these must be. */
static struct {
    uint64_t walks, devices, extended, longest, alone, changed, bytes, ends, clears, triggers, locals, locals_refused;
    uint64_t both_primaries, shape, unsound, bad_frame, still_sound;
} met;
static uint64_t kinds[PIL_KINDS]; /* of the frames that were walked */

static _Noreturn void differ(const char *how, ...)
{
    va_list values;

    printf("difference in script %" PRIu64 " of seed %" PRIu64 ", step %" PRIu64 ", frame %03" PRIx64 ", %u devices: ",
           script, seed, step, sending, n);
    va_start(values, how);
    vprintf(how, values);
    va_end(values);
    printf("\n");
    exit(1);
}

/* The calls of the loop, and what an odd fault spoils. */

static uint8_t put(size_t length, uint64_t frame)
{
    uint8_t refusal = pil_put(looped, length, frame);

    if (WITNESS_FAULT == 9 && refusal == PIL_UNSOUND && looped[PIL_HEADER_LENGTH - 1] != 0)
        return PIL_SHAPE;
    return refusal;
}

/* A trigger not told at an extended device, an END not handed to the last one. */
static void spoil_hop(unsigned device, const uint8_t *r, struct pil_hopped *hopped)
{
    int extended = r[PIL_RECORD_MORE] & PIL_MORE_EXTENDED;

    if (WITNESS_FAULT == 3 && extended && hopped->event == PIL_EVENT_TRIGGER)
        hopped->event = PIL_EVENT_NONE;
    if (WITNESS_FAULT == 5 && device == n - 1 && hopped->end)
        hopped->handed = hopped->byte = hopped->end = 0;
}

/* Address 30 taken as 29, and an NRD not noted while an ID is sent. */
static void spoil_hopped_record(uint8_t *r, const struct pil_hopped *hopped)
{
    if (WITNESS_FAULT == 7 && hopped->frame == IAA && r[PIL_RECORD_ADDRESS] == PIL_NO_ADDRESS - 1)
        r[PIL_RECORD_ADDRESS]--;
    if (WITNESS_FAULT == 11 && hopped->frame == NRD && r[PIL_RECORD_TALKER] == PIL_TALKER_ID)
        r[PIL_RECORD_NRD] = 0;
}

static struct pil_hopped hop(unsigned device)
{
    struct pil_hopped hopped = pil_hop(looped, area_len, device);

    spoil_hop(device, looped + PIL_RECORD_AT(device), &hopped);
    spoil_hopped_record(looped + PIL_RECORD_AT(device), &hopped);
    return hopped;
}

static struct pil_taken take(void)
{
    struct pil_taken taken = pil_take(looped, area_len);

    if (WITNESS_FAULT == 1 && taken.frame >= IDY)
        taken.frame &= (uint16_t)~PIL_C1;
    return taken;
}

/* The walk, and what an even fault spoils. */

/* The frame that comes to the last device, by a walk past the others as they were. */
static unsigned came_to_last(const uint8_t *before, uint64_t frame)
{
    uint8_t others[sizeof walked], ignored[PIL_TOLD_LENGTH(PIL_MOST_DEVICES)];

    memcpy(others, before, area_len);
    others[PIL_HEADER_DEVICES]--;
    return pil_walk(others, PIL_RECORDS_LENGTH(n - 1), frame, ignored, PIL_TOLD_LENGTH(n - 1)).frame;
}

/* An answer on D8 to a poll lost, the frame before the last device given, the end bit of the first lost. */
static void spoil_walk(const uint8_t *before, uint64_t frame, struct pil_walked *w, uint8_t *told)
{
    if (WITNESS_FAULT == 2 && w->frame >= IDY && !(frame & D8))
        w->frame &= (uint16_t)~D8;
    if (WITNESS_FAULT == 6 && n > 1)
        w->frame = (uint16_t)came_to_last(before, frame);
    if (WITNESS_FAULT == 8)
        told[PIL_TOLD_AT(0) + PIL_TOLD_END] = 0;
}

/* Nothing told, or no record written, from some device on. */
static void spoil_far(const uint8_t *before, const uint8_t *told_before, uint8_t *told)
{
    if (WITNESS_FAULT == 4 && n > FAR)
        memcpy(told + PIL_TOLD_AT(FAR), told_before + PIL_TOLD_AT(FAR), PIL_TOLD_LENGTH(n - FAR));
    if (WITNESS_FAULT == 12 && n > FARTHER)
        memcpy(walked + PIL_RECORD_AT(FARTHER), before + PIL_RECORD_AT(FARTHER), PIL_RECORD_LENGTH * (n - FARTHER));
}

static struct pil_walked walk(size_t length, uint64_t frame, uint8_t *told)
{
    uint8_t before[sizeof walked], told_before[PIL_TOLD_LENGTH(PIL_MOST_DEVICES)];
    struct pil_walked w;

    memcpy(before, walked, sizeof before);
    memcpy(told_before, told, PIL_TOLD_LENGTH(n));
    w = pil_walk(walked, length, frame, told, PIL_TOLD_LENGTH(n));
    if (w.refusal == PIL_ACCEPTED) {
        spoil_walk(before, frame, &w, told);
        spoil_far(before, told_before, told);
    }
    if (WITNESS_FAULT == 10 && w.refusal == PIL_UNSOUND && frame >= PIL_FRAMES)
        w.refusal = PIL_BAD_FRAME;
    return w;
}

/* One frame, by either. Lengths are that much shorter than they should be. */

static void tell(uint8_t *told, const struct pil_hopped *hopped)
{
    told[PIL_TOLD_HANDED] = hopped->handed;
    told[PIL_TOLD_BYTE] = hopped->byte;
    told[PIL_TOLD_END] = hopped->end;
    told[PIL_TOLD_EVENT] = hopped->event;
}

/* Once the frame is put, no hop is refused and neither is the take: there is room in every link. */
static struct seen by_loop(uint64_t frame, size_t shorter)
{
    struct seen s = {.refusal = put(area_len - shorter, frame)};
    struct pil_taken taken;

    if (s.refusal != PIL_ACCEPTED)
        return s;
    for (unsigned i = 0; i < n; i++) {
        struct pil_hopped hopped = hop(i);

        if (hopped.refusal != PIL_ACCEPTED)
            differ("the hop of device %u is refused with %u", i, hopped.refusal);
        tell(s.told + PIL_TOLD_AT(i), &hopped);
    }
    taken = take();
    if (taken.refusal != PIL_ACCEPTED)
        differ("the take is refused with %u", taken.refusal);
    s.frame = taken.frame;
    return s;
}

/* Told over any bytes; where it is refused these must be left. */
static struct seen by_walk(uint64_t frame, size_t shorter)
{
    struct seen s = {0};
    uint8_t before[sizeof s.told];
    struct pil_walked w;

    chance_bytes(s.told, PIL_TOLD_LENGTH(n));
    memcpy(before, s.told, sizeof before);
    w = walk(PIL_RECORDS_LENGTH(n) - shorter, frame, s.told);
    if (w.refusal == PIL_ACCEPTED) {
        s.frame = w.frame;
        return s;
    }
    if (w.frame != 0 || memcmp(s.told, before, sizeof before) != 0)
        differ("refused with %u, the walk gives frame %03x or tells something", w.refusal, w.frame);
    return (struct seen){.refusal = w.refusal};
}

/* Both compared. */

static void same_told(const struct seen *a, const struct seen *b)
{
    for (unsigned i = 0; i < n; i++) {
        const uint8_t *x = a->told + PIL_TOLD_AT(i), *y = b->told + PIL_TOLD_AT(i);

        if (memcmp(x, y, PIL_TOLD_EACH) != 0)
            differ("of device %u the hop told handed %u, byte %02x, end %u, event %u, the walk %u, %02x, %u, %u", i,
                   x[PIL_TOLD_HANDED], x[PIL_TOLD_BYTE], x[PIL_TOLD_END], x[PIL_TOLD_EVENT], y[PIL_TOLD_HANDED],
                   y[PIL_TOLD_BYTE], y[PIL_TOLD_END], y[PIL_TOLD_EVENT]);
    }
}

static _Noreturn void differ_in(const char *part, size_t number, size_t begins, size_t place)
{
    differ("byte %zu of %s %zu is %02x by the loop and %02x by the walk", place - begins, part, number, looped[place],
           walked[place]);
}

/* All bytes: header, records, and links that are empty again. */
static void same_areas(void)
{
    size_t place = 0, links = PIL_LINK_AT(n, 0);

    if (memcmp(looped, walked, area_len) == 0)
        return;
    while (looped[place] == walked[place])
        place++;
    if (place < PIL_HEADER_LENGTH)
        differ_in("header", 0, 0, place);
    for (size_t i = n; i-- > 0;)
        if (place < links && place >= PIL_RECORD_AT(i))
            differ_in("record", i, PIL_RECORD_AT(i), place);
    differ_in("link", (place - links) / PIL_LINK_LENGTH, place - (place - links) % PIL_LINK_LENGTH, place);
}

static void count_told(const uint8_t *told)
{
    met.bytes += told[PIL_TOLD_HANDED] && !told[PIL_TOLD_END];
    met.ends += told[PIL_TOLD_END];
    met.clears += told[PIL_TOLD_EVENT] == PIL_EVENT_CLEAR;
    met.triggers += told[PIL_TOLD_EVENT] == PIL_EVENT_TRIGGER;
}

static void count_walk(const struct seen *s, uint64_t frame)
{
    met.walks++;
    kinds[pil_decode(frame).kind]++;
    met.devices += n;
    met.longest += n == PIL_MOST_DEVICES;
    met.alone += n == 1;
    met.changed += s->frame != frame;
    for (unsigned i = 0; i < n; i++) {
        met.extended += (walked[PIL_RECORD_AT(i) + PIL_RECORD_MORE] & PIL_MORE_EXTENDED) != 0;
        count_told(s->told + PIL_TOLD_AT(i));
    }
}

static void count_refusal(unsigned refusal)
{
    met.shape += refusal == PIL_SHAPE;
    met.unsound += refusal == PIL_UNSOUND;
    met.bad_frame += refusal == PIL_BAD_FRAME;
}

/* Sends a number by both; gives the refusal that they agree on. */
static unsigned send_both(uint64_t frame, size_t shorter)
{
    struct seen loop, records;

    sending = frame;
    loop = by_loop(frame, shorter);
    records = by_walk(frame, shorter);
    if (loop.refusal != records.refusal)
        differ("refused with %u by the loop and with %u by the walk", loop.refusal, records.refusal);
    if (loop.frame != records.frame)
        differ("frame out %03x by the loop and %03x by the walk", loop.frame, records.frame);
    same_told(&loop, &records);
    same_areas();
    if (loop.refusal != PIL_ACCEPTED) {
        count_refusal(loop.refusal);
        return loop.refusal;
    }
    count_walk(&records, frame);
    out = loop.frame;
    return PIL_ACCEPTED;
}

/* Steps of a script. */

/* A frame that suits the devices; a byte that came out is mostly sent round again, so that talks go on. */
static void send_some(void)
{
    send_both(out < PIL_C3 && one_in(2) ? out : chance_frame(looped, out), 0);
}

/* A local call, to be made on both areas. */
enum which { LOAD, STATUS, KEY, POLL_STATUS, WISH, WHICH };

struct local {
    unsigned which, device;
    uint64_t value;
    size_t length;
    uint8_t bytes[PIL_MOST_DATA + 1];
};

static uint8_t local_on(uint8_t *area, const struct local *c)
{
    switch (c->which) {
    case LOAD: return pil_load(area, area_len, c->device, c->bytes, c->length, c->value % 2);
    case STATUS: return pil_status(area, area_len, c->device, (uint8_t)c->value);
    case KEY: return pil_key(area, area_len, c->device);
    case POLL_STATUS: return pil_poll_status(area, area_len, c->device, c->value % 2);
    default: return pil_wish(area, area_len, c->device, c->value % 2);
    }
}

static void local_step(void)
{
    struct local c = {.which = below(WHICH), .device = below(n), .value = chance(),
                      .length = below(one_in(2) ? 4 : PIL_MOST_DATA + 2)};
    uint8_t refusal;

    chance_bytes(c.bytes, c.length);
    refusal = local_on(looped, &c);
    if (local_on(walked, &c) != refusal)
        differ("local call %u of device %u is refused on one area alone", c.which, c.device);
    same_areas();
    met.locals += refusal == PIL_ACCEPTED;
    met.locals_refused += refusal != PIL_ACCEPTED;
}

/* Damages header or records of both alike. What is refused is undone; what is sound after all is gone on with. */
static void damage_step(void)
{
    uint8_t good[sizeof looped];
    uint64_t frame = chance_frame(looped, out);

    memcpy(good, looped, sizeof good);
    for (unsigned times = 1 + below(2); times > 0; times--) {
        size_t place = one_in(5) ? below(PIL_HEADER_LENGTH) : PIL_RECORD_AT(below(n)) + below(PIL_RECORD_LENGTH);

        looped[place] = walked[place] = damaged_value(looped[place]);
    }
    if (send_both(one_in(6) ? PIL_FRAMES + below(3) : frame, 0) == PIL_ACCEPTED) {
        met.still_sound++;
        return;
    }
    memcpy(looped, good, sizeof good);
    memcpy(walked, good, sizeof good);
}

static void number_step(void)
{
    send_both(one_in(3) ? PIL_FRAMES : wild_number(chance_frame(looped, out)), 0);
}

/* An area and records shorter than they should be, by a part of the last record or all of it. */
static void length_step(void)
{
    send_both(chance_frame(looped, out), one_in(2) ? PIL_RECORD_LENGTH : 1 + below(PIL_RECORD_LENGTH));
}

/* Its own SAD to an extended device that has both primaries received. No frame leaves a device so, but an area that is
   lent can say it, and it is sound. */
static void both_primaries_step(void)
{
    uint8_t *r = looped + PIL_RECORD_AT(below(n));
    unsigned second = r[PIL_RECORD_SECOND] & PIL_SECOND_ADDRESS;

    if (!(r[PIL_RECORD_MORE] & PIL_MORE_EXTENDED) || second == PIL_NO_ADDRESS)
        return;
    r[PIL_RECORD_FIXED_SECOND] |= PIL_PRIMARY_RECEIVED;
    r[PIL_RECORD_SECOND] |= PIL_PRIMARY_RECEIVED;
    memcpy(walked, looped, sizeof walked);
    met.both_primaries++;
    send_both(SAD + second, 0);
}

static void some_step(void)
{
    switch (below(40)) {
    case 0: damage_step(); break;
    case 1: number_step(); break;
    case 2: length_step(); break;
    case 3: both_primaries_step(); break;
    default: one_in(4) ? local_step() : send_some();
    }
}

/* Power-on devices, or devices in any states. */
static void begin(void)
{
    uint8_t items[PIL_EXTENDED_ITEMS_LENGTH(PIL_MOST_DEVICES)];
    size_t length = chance_item_length();

    n = chance_devices();
    area_len = PIL_AREA_LENGTH(n);
    out = PIL_C3;
    chance_items(items, n, length);
    if (one_in(2)) {
        if (pil_set_up(looped, area_len, items, n * length) != PIL_ACCEPTED)
            differ("the set-up is refused");
    } else {
        chance_sound_area(looped, n);
        memset(looped + PIL_LINK_AT(n, 0), 0, area_len - PIL_LINK_AT(n, 0));
    }
    memcpy(walked, looped, sizeof walked);
}

static unsigned kinds_met(void)
{
    unsigned count = 0;

    for (unsigned i = 0; i < PIL_KINDS; i++)
        count += kinds[i] > 0;
    return count;
}

static int all_met(void)
{
    const uint64_t counts[] = {met.walks, met.devices, met.extended, met.longest, met.alone, met.changed, met.bytes,
                               met.ends, met.clears, met.triggers, met.locals, met.locals_refused,
                               met.both_primaries, met.shape, met.unsound, met.bad_frame, met.still_sound};

    for (unsigned i = 0; i < sizeof counts / sizeof *counts; i++)
        if (counts[i] == 0)
            return 0;
    return kinds_met() == PIL_KINDS;
}

static void report(void)
{
    printf("witness: %" PRIu64 " scripts, both alike: %" PRIu64 " walks of %u kinds past %" PRIu64 " devices, %" PRIu64
           " of them extended, %" PRIu64 " walks past %d, %" PRIu64 " past one; %" PRIu64 " frames came out as others, "
           "%" PRIu64 " bytes handed, %" PRIu64 " end bytes, %" PRIu64 " clears, %" PRIu64 " triggers; %" PRIu64
           " local calls and %" PRIu64 " refused, %" PRIu64 " SADs after both primaries; refused alike with 1: %" PRIu64
           ", 2: %" PRIu64 ", 4: %" PRIu64 "; damage not refused: %" PRIu64 "%s\n", scripts, met.walks, kinds_met(),
           met.devices, met.extended, met.longest, PIL_MOST_DEVICES, met.alone, met.changed, met.bytes, met.ends,
           met.clears, met.triggers, met.locals, met.locals_refused, met.both_primaries, met.shape, met.unsound,
           met.bad_frame, met.still_sound, all_met() ? "" : "  TOO FEW");
}

int main(int argc, char **argv)
{
    if (argc > 1)
        seed = strtoull(argv[1], NULL, 0);
    if (argc > 2)
        scripts = strtoull(argv[2], NULL, 0);
    if (argc > 3 || scripts == 0) {
        fprintf(stderr, "use: witness [seed [scripts]]\n");
        return 3;
    }
    for (script = 1; script <= scripts; script++) {
        uint64_t steps;

        chance_seed(seed + (script << 32));
        begin();
        steps = 40 + below(260);
        for (step = 1; step <= steps; step++)
            some_step();
    }
    report();
    return all_met() ? 0 : 2;
}
