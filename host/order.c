/* Random histories from a set-up or an opening, each made again right round: the frames in the links, nearest the tail
   first, then those put, and local calls at the same places among a device's own hops. All seen must be the same. */
#include "order.h"

#include "chance.h"
#include "extended.h"
#include "pil.h"
#include "polls.h"
#include "spoil.h"

#include <inttypes.h>
#include <stdio.h>
#include <stdlib.h>
#include <string.h>

enum {
    MOST_PUTS = 80,
    MOST_FRAMES = PIL_LINK_DEPTH * (PIL_MOST_DEVICES + 1) + MOST_PUTS, /* in the links at first, and put */
    MOST_LOCALS = 120,
    LEAST = 100, /* openings, old saves, frames in links at first, reopenings, keys to local, poll statuses to another,
                    clears, triggers, changes of byte 22, IDYs with a bit made a one, loops of both variants, and
                    extended devices assigned and addressed: so many of each, or more */
    LEAST_LONGEST = 50 /* how many must have as many devices as there can be */
};

enum which { LOAD, STATUS, WISH, KEY, POLL_STATUS, WHICH };

/* A local call, and how many hops its device had made before it. */
struct local {
    enum which which;
    unsigned device, before;
    uint64_t value; /* choice, status, wish or poll status */
    uint8_t bytes[PIL_MOST_DATA];
    size_t length;
};

/* A loop with what it held at first, what was put into it and what its caller saw. */
struct loop {
    uint8_t area[PIL_AREA_LENGTH(PIL_MOST_DEVICES)];
    size_t area_len;
    unsigned n;
    unsigned at_first[PIL_MOST_DEVICES + 1]; /* frames in each link, none after a set-up */
    uint32_t owed_at_first;
    uint16_t put[MOST_PUTS], out[MOST_FRAMES];
    unsigned puts, outs;
    uint16_t told[PIL_MOST_DEVICES][MOST_FRAMES]; /* in their order, bytes handed (and PIL_C2 with the end bit) and
                                                     events (and PIL_C3) */
    unsigned tolds[PIL_MOST_DEVICES];
    unsigned handed, events[PIL_EVENT_TRIGGER + 1]; /* of all devices */
    uint64_t hops;
    struct local locals[MOST_LOCALS];
    unsigned accepted;
    unsigned released; /* keys that took a device to local */
    unsigned restated; /* poll statuses that were another before */
    unsigned told_anew, made_ones; /* hops that changed byte 22, and that made a bit of an IDY a one; not those of
                                      drains */
    unsigned assigned, addressed; /* nor here: extended devices that AES, AEP or AAU changed the assignment of, and that
                                     a SAD made a listener or talker, or neither any more */
    unsigned reopened; /* times that it was saved and opened */
};

static struct loop mixed, right_round;
static uint64_t seed_now, history_now;

static void must(int holds, const char *what)
{
    if (holds)
        return;
    printf("difference in order history %" PRIu64 " of seed %" PRIu64 " (%u devices): %s\n", history_now, seed_now,
           mixed.n, what);
    exit(1);
}

static unsigned frames_in(const struct loop *l, unsigned link)
{
    return l->area[PIL_LINK_AT(l->n, link) + PIL_LINK_COUNT];
}

/* Hops that the device has made: the frames put, and those before it at first, less those that have not passed it. */
static unsigned hops_made(const struct loop *l, unsigned device)
{
    unsigned made = l->puts;

    for (unsigned link = 0; link <= device; link++)
        made += l->at_first[link] - frames_in(l, link);
    return made;
}

static int all_empty(const struct loop *l)
{
    for (unsigned link = 0; link <= l->n; link++)
        if (frames_in(l, link) > 0)
            return 0;
    return 1;
}

/* The calls, each noting what its caller sees. */

static void note_handed(struct loop *l, unsigned device, unsigned byte, unsigned end)
{
    l->told[device][l->tolds[device]++] = (uint16_t)(byte | (end ? PIL_C2 : 0));
    l->handed++;
}

static void note_event(struct loop *l, unsigned device, unsigned event)
{
    must(event == PIL_EVENT_CLEAR || event == PIL_EVENT_TRIGGER, "an event is neither clear nor trigger");
    l->told[device][l->tolds[device]++] = (uint16_t)(PIL_C3 | event);
    l->events[event]++;
}

static int put(struct loop *l, unsigned frame)
{
    if (pil_put(l->area, l->area_len, frame) != PIL_ACCEPTED)
        return 0;
    l->put[l->puts++] = (uint16_t)frame;
    return 1;
}

static void note_extended(struct loop *l, const uint8_t *was, const uint8_t *now, unsigned frame)
{
    enum called by = called(was, frame);

    l->assigned += now[PIL_RECORD_CONFIGURED] != was[PIL_RECORD_CONFIGURED];
    if (by == OWN_SAD || by == OTHER_SAD)
        l->addressed += now[PIL_RECORD_LISTENER] != was[PIL_RECORD_LISTENER]
            || now[PIL_RECORD_TALKER] != was[PIL_RECORD_TALKER];
}

static int hop(struct loop *l, unsigned device)
{
    const uint8_t *now = l->area + PIL_RECORD_AT(device);
    uint8_t was[PIL_RECORD_LENGTH];
    unsigned frame = frame_at(l->area + PIL_LINK_AT(l->n, device) + PIL_LINK_FRAMES);
    struct pil_hopped hopped;

    memcpy(was, now, sizeof was);
    hopped = pil_hop(l->area, l->area_len, device);
    if (hopped.refusal != PIL_ACCEPTED)
        return 0;
    l->hops++;
    l->told_anew += now[PIL_RECORD_POLL] != was[PIL_RECORD_POLL];
    l->made_ones += frame >= FIRST_IDY && (frame & PIL_DATA_BITS) != (hopped.frame & PIL_DATA_BITS);
    if (is_extended(was))
        note_extended(l, was, now, frame);
    if (hopped.handed)
        note_handed(l, device, hopped.byte, hopped.end);
    if (hopped.event)
        note_event(l, device, hopped.event);
    return 1;
}

static int take(struct loop *l)
{
    struct pil_taken taken = pil_take(l->area, l->area_len);

    if (taken.refusal != PIL_ACCEPTED)
        return 0;
    l->out[l->outs++] = taken.frame;
    return 1;
}

static void drain(struct loop *l, uint64_t budget)
{
    struct pil_drained drained = pil_drain(l->area, l->area_len, budget);

    l->hops += drained.hops;
    if (drained.reason == PIL_STOP_HANDED)
        note_handed(l, drained.device, drained.byte, drained.end);
    if (drained.reason == PIL_STOP_EVENT)
        note_event(l, drained.device, drained.byte);
}

static int key(struct loop *l, unsigned device)
{
    const uint8_t *remote = l->area + PIL_RECORD_AT(device) + PIL_RECORD_REMOTE;
    uint8_t was = *remote, refusal = pil_key(l->area, l->area_len, device);

    l->released += was == PIL_REMOTE && *remote == PIL_LOCAL;
    return refusal == PIL_ACCEPTED;
}

static int poll_status(struct loop *l, unsigned device, uint64_t status)
{
    const uint8_t *now = l->area + PIL_RECORD_AT(device) + PIL_RECORD_POLL_STATUS;
    uint8_t was = *now, refusal = pil_poll_status(l->area, l->area_len, device, status);

    l->restated += *now != was;
    return refusal == PIL_ACCEPTED;
}

static int local(struct loop *l, const struct local *c)
{
    switch (c->which) {
    case LOAD: return pil_load(l->area, l->area_len, c->device, c->bytes, c->length, c->value) == PIL_ACCEPTED;
    case STATUS: return pil_status(l->area, l->area_len, c->device, (uint8_t)c->value) == PIL_ACCEPTED;
    case KEY: return key(l, c->device);
    case POLL_STATUS: return poll_status(l, c->device, c->value);
    default: return pil_wish(l->area, l->area_len, c->device, c->value) == PIL_ACCEPTED;
    }
}

/* Opens the save in the loop's area, whatever that held. */
static void open_in(struct loop *l, const uint8_t *save, size_t save_len)
{
    chance_bytes(l->area, l->area_len);
    must(pil_open(l->area, l->area_len, save, save_len) == PIL_ACCEPTED, "the opening is refused");
}

/* Saves the loop and opens just that save, with no call between (02, a). */
static void reopen(struct loop *l)
{
    uint8_t save[PIL_SAVE_LENGTH(PIL_MOST_DEVICES)];

    must(pil_save(l->area, l->area_len, save, PIL_SAVE_LENGTH(l->n)) == PIL_ACCEPTED, "the saving is refused");
    open_in(l, save, PIL_SAVE_LENGTH(l->n));
    l->reopened++;
}

/* A random history. */

static void random_local(struct loop *l)
{
    struct local *c = &l->locals[l->accepted];

    if (l->accepted == MOST_LOCALS)
        return;
    c->which = (enum which)below(WHICH);
    c->device = below(l->n);
    c->before = hops_made(l, c->device);
    c->value = c->which == LOAD ? below(2) : one_in(3) ? 0 : chance();
    c->length = below(one_in(2) ? 4 : PIL_MOST_DATA + 1);
    chance_bytes(c->bytes, c->length);
    if (local(l, c))
        l->accepted++;
}

static void random_call(struct loop *l)
{
    if (one_in(40))
        reopen(l);
    switch (below(10)) {
    case 0: random_local(l); break;
    case 1:
    case 2: put(l, chance_frame(l->area, l->outs ? l->out[l->outs - 1] : 0)); break;
    case 3: drain(l, below(12)); break;
    case 4:
    case 5: take(l); break;
    default: hop(l, below(l->n));
    }
}

/* The hops that come to be made in all: those owed at first, and frames put times devices. */
static uint64_t hops_in_all(const struct loop *l)
{
    return l->owed_at_first + (uint64_t)l->puts * l->n;
}

static void must_owe(const struct loop *l)
{
    struct pil_owing owing = pil_owed(l->area, l->area_len);

    must(owing.refusal == PIL_ACCEPTED && l->hops + owing.hops == hops_in_all(l),
         "the hops made and owed are not those owed at first and frames put times devices");
}

/* Empties all links, with a local call now and then. */
static void finish(struct loop *l)
{
    while (!all_empty(l)) {
        must_owe(l);
        if (one_in(6))
            random_local(l);
        if (one_in(6))
            reopen(l);
        drain(l, one_in(2) ? UINT64_MAX : below(5));
        while (take(l))
            ;
    }
}

/* The same, right round. */

/* The accepted local calls on a device that stand at this place among its own hops. */
static void locals_due(struct loop *l, unsigned device)
{
    unsigned before = hops_made(l, device);

    for (unsigned i = 0; i < mixed.accepted; i++)
        if (mixed.locals[i].device == device && mixed.locals[i].before == before)
            must(local(l, &mixed.locals[i]), "a local call is refused in the right-round history");
}

/* Sends the link's oldest frame on past all devices ahead of it, and takes it out. */
static void send_on(struct loop *l, unsigned link)
{
    for (unsigned device = link; device < l->n; device++) {
        locals_due(l, device);
        must(hop(l, device), "a hop is refused in the right-round history");
    }
    must(take(l), "a take is refused in the right-round history");
}

static void send_right_round(struct loop *l)
{
    for (unsigned link = l->n + 1; link-- > 0;)
        while (frames_in(l, link) > 0)
            send_on(l, link);
    for (unsigned k = 0; k < mixed.puts; k++) {
        must(put(l, mixed.put[k]), "a put is refused in the right-round history");
        send_on(l, 0);
    }
    for (unsigned device = 0; device < l->n; device++)
        locals_due(l, device);
}

static void begin(struct loop *l, unsigned n)
{
    memset(l, 0, sizeof *l);
    l->n = n;
    l->area_len = PIL_AREA_LENGTH(n);
}

static void begin_both_by_set_up(unsigned n)
{
    uint8_t items[PIL_EXTENDED_ITEMS_LENGTH(PIL_MOST_DEVICES)];
    size_t length = chance_item_length();

    chance_items(items, n, length);
    for (unsigned i = 0; i < 2; i++) {
        struct loop *l = i ? &right_round : &mixed;

        begin(l, n);
        must(pil_set_up(l->area, l->area_len, items, n * length) == PIL_ACCEPTED, "the set-up is refused");
    }
}

/* Any saved loop, frames in its links and all, in a new save or an old one. */
static void begin_both_by_opening(unsigned n, int old)
{
    uint8_t area[PIL_AREA_LENGTH(PIL_MOST_DEVICES)];
    struct save save = {.length = PIL_SAVE_LENGTH(n)};

    chance_sound_area(area, n);
    must(pil_save(area, PIL_AREA_LENGTH(n), save.bytes, save.length) == PIL_ACCEPTED, "the saving is refused");
    if (old)
        make_old(&save, 0);
    for (unsigned i = 0; i < 2; i++) {
        struct loop *l = i ? &right_round : &mixed;

        begin(l, n);
        open_in(l, save.bytes, save.length);
        for (unsigned link = 0; link <= n; link++) {
            l->at_first[link] = frames_in(l, link);
            l->owed_at_first += (n - link) * frames_in(l, link);
        }
    }
}

static void must_be_equal(void)
{
    must(memcmp(mixed.area, right_round.area, sizeof mixed.area) == 0, "the areas");
    must(mixed.outs == right_round.outs && memcmp(mixed.out, right_round.out, sizeof mixed.out) == 0, "the frames out");
    must(memcmp(mixed.tolds, right_round.tolds, sizeof mixed.tolds) == 0, "the number of bytes handed and events");
    must(memcmp(mixed.told, right_round.told, sizeof mixed.told) == 0, "the bytes handed and events");
    must(mixed.released == right_round.released, "the keys that took a device to local");
    must(mixed.restated == right_round.restated, "the poll statuses that were another before");
    must(mixed.hops == hops_in_all(&mixed), "the hops are not those owed at first and frames put times devices");
    must_owe(&mixed);
    must(right_round.hops == mixed.hops, "the hops");
}

/* Gives the frames in the links at first. */
static unsigned one_history(int by_opening, int old)
{
    unsigned n = chance_devices(), puts = 1 + below(MOST_PUTS), at_first = 0;

    if (by_opening)
        begin_both_by_opening(n, old);
    else
        begin_both_by_set_up(n);
    while (mixed.puts < puts)
        random_call(&mixed);
    finish(&mixed);
    send_right_round(&right_round);
    must_be_equal();
    for (unsigned link = 0; link <= n; link++)
        at_first += mixed.at_first[link];
    must(mixed.outs == at_first + mixed.puts, "not as many frames came out as there were");
    return at_first;
}

/* What all histories come to. */
static struct {
    uint64_t opened, old, at_first, longest, puts, reopened, locals, released, restated, hops, handed, clears, triggers;
    uint64_t told_anew, made_ones, both_variants, assigned, addressed;
} sums;

static int has_both_variants(const struct loop *l)
{
    unsigned extended = 0;

    for (unsigned i = 0; i < l->n; i++)
        extended += is_extended(l->area + PIL_RECORD_AT(i)) != 0;
    return extended > 0 && extended < l->n;
}

static void add_up(void)
{
    sums.longest += mixed.n == PIL_MOST_DEVICES;
    sums.puts += mixed.puts;
    sums.reopened += mixed.reopened;
    sums.locals += mixed.accepted;
    sums.released += mixed.released;
    sums.restated += mixed.restated;
    sums.told_anew += right_round.told_anew;
    sums.made_ones += right_round.made_ones;
    sums.both_variants += (unsigned)has_both_variants(&mixed);
    sums.assigned += right_round.assigned;
    sums.addressed += right_round.addressed;
    sums.hops += mixed.hops;
    sums.handed += mixed.handed;
    sums.clears += mixed.events[PIL_EVENT_CLEAR];
    sums.triggers += mixed.events[PIL_EVENT_TRIGGER];
}

static int reached_enough(void)
{
    return sums.opened >= LEAST && sums.old >= LEAST && sums.at_first >= LEAST && sums.longest >= LEAST_LONGEST
        && sums.reopened >= LEAST && sums.released >= LEAST && sums.clears >= LEAST && sums.triggers >= LEAST
        && sums.restated >= LEAST && sums.told_anew >= LEAST && sums.made_ones >= LEAST
        && sums.both_variants >= LEAST && sums.assigned >= LEAST && sums.addressed >= LEAST;
}

int order_histories(uint64_t seed, uint64_t histories)
{
    seed_now = seed;
    for (history_now = 1; history_now <= histories; history_now++) {
        int by_opening = history_now % 2 == 0, of_old = history_now % 4 == 0;

        chance_seed(seed + (history_now << 32));
        sums.at_first += one_history(by_opening, of_old);
        sums.opened += (unsigned)by_opening;
        sums.old += (unsigned)of_old;
        add_up();
    }
    printf("order: %" PRIu64 " histories equal to their right-round ones, %" PRIu64 " of them from an opening, %" PRIu64
           " of these of an old save, with %" PRIu64 " frames in the links, %" PRIu64 " of %d devices, %" PRIu64
           " of both variants; %" PRIu64 " frames put, %" PRIu64 " times saved and opened, %" PRIu64
           " accepted local calls, %" PRIu64 " keys among them to local, %" PRIu64 " poll statuses to another, %" PRIu64
           " hops, %" PRIu64 " bytes handed, %" PRIu64 " clears, %" PRIu64 " triggers, %" PRIu64
           " changes of how to answer polls, %" PRIu64 " bits made ones, %" PRIu64 " extended devices assigned, %"
           PRIu64 " addressed%s\n", histories, sums.opened, sums.old, sums.at_first, sums.longest, PIL_MOST_DEVICES,
           sums.both_variants, sums.puts, sums.reopened, sums.locals, sums.released, sums.restated, sums.hops,
           sums.handed, sums.clears, sums.triggers, sums.told_anew, sums.made_ones, sums.assigned, sums.addressed,
           reached_enough() ? "" : "  TOO FEW");
    return reached_enough();
}
