/* Puts loops away in a file and opens them again, opens old saves, tries all of bytes 3, 7, 17, 18, 20 to 23 and what
   is no save, through libpil.a as a bench calls it. Use: saves FILE OLD; FILE is written and removed, OLD is
   old_save.bin. Prints a line of counts; exit 1: a difference, 3: wrong use. */
#include "pil.h"

#include <stdio.h>
#include <stdlib.h>
#include <string.h>

enum {
    AREA_ROOM = PIL_AREA_LENGTH(PIL_MOST_DEVICES),
    SAVE_ROOM = PIL_SAVE_LENGTH(PIL_MOST_DEVICES) + 1, /* a byte more than the longest */
    COUNT_AT = PIL_SAVE_HEAD_LENGTH + PIL_HEADER_DEVICES,
    OTHER_VALUES = 255, /* that a byte could have */
    NO_EDITIONS = 254,  /* of its values are no edition */
    STATES = 4,         /* of remote and local: so many values of byte 17 are sound, */
    FLAGS = 2,          /* and so many of byte 18 */
    NOT_SOUND = 2 * (OTHER_VALUES + 1) - STATES - FLAGS, /* the others of both bytes */
    PPES = 16,          /* ways to answer polls, beside none */
    ADDRESSES = 32,     /* second addresses, each with its primary received or not */
    PRIMARIES = 4,      /* none received, one, the other, both */
    ASSIGNED = 3        /* assignment states */
};

static unsigned devices;
static uint8_t area[AREA_ROOM], in_hand[AREA_ROOM]; /* the loop saved, and the loop over which it is opened */
static uint8_t lent[AREA_ROOM], tried[SAVE_ROOM];   /* what openings are lent */
static uint8_t save[SAVE_ROOM];
static size_t area_len, save_len;
static struct { /* what was tried */
    unsigned long frames, bytes, cuts, longer, heads, counts, editions, chosen, choices, standings, not_sound;
    unsigned long further, no_further; /* bytes 3, 7 and 20 to 23 opened, and refused */
} done;

static void must(int holds, const char *what, size_t place)
{
    if (holds)
        return;
    printf("saves: %u devices, %s (byte %zu)\n", devices, what, place);
    exit(1);
}

/* Every second device can be polled, the first among them. */
static int pollable(unsigned device)
{
    return device % 2 == 0;
}

/* Every third device is extended, the second among them. */
static int extended(unsigned device)
{
    return device % 3 == 1;
}

/* All abilities that there can be, and none in the fifth of eight devices. */
static unsigned abilities_of(unsigned device)
{
    if (device % 8 == 4)
        return 0;
    return extended(device) ? 0xff - PIL_ABILITY_AUTO_ADDRESS : 0xff;
}

/* Devices at power-on. */
static void set_up(uint8_t *loop)
{
    uint8_t items[PIL_EXTENDED_ITEMS_LENGTH(PIL_MOST_DEVICES)] = {0};

    for (unsigned i = 0; i < devices; i++) {
        uint8_t *item = items + PIL_EXTENDED_ITEM_AT(i);

        item[PIL_ITEM_ABILITIES] = (uint8_t)abilities_of(i);
        item[PIL_ITEM_FIXED] = (uint8_t)i;
        item[PIL_ITEM_MORE] = (uint8_t)((pollable(i) ? PIL_MORE_POLL : 0) | (extended(i) ? PIL_MORE_EXTENDED : 0));
        item[PIL_ITEM_SECOND] = (uint8_t)(extended(i) ? i : 0);
    }
    must(pil_set_up(loop, area_len, items, PIL_EXTENDED_ITEMS_LENGTH(devices)) == PIL_ACCEPTED, "the set-up is refused",
         0);
}

static void load(unsigned device, uint64_t end)
{
    must(pil_load(area, area_len, device, (const uint8_t *)"12", 2, end) == PIL_ACCEPTED, "the load is refused", 0);
}

/* Every state of remote and local in turn, not enabled and enabled; the first device is enabled and remote. */
static void set_remote(void)
{
    for (unsigned i = 0; i < devices; i++) {
        area[PIL_RECORD_AT(i) + PIL_RECORD_REMOTE] = (uint8_t)((PIL_REMOTE + i) % STATES);
        area[PIL_RECORD_AT(i) + PIL_RECORD_ENABLED] = (uint8_t)((1 + i / STATES) % FLAGS);
    }
}

/* Each device that can be polled is told how to answer, by the PPEs in turn, with status no and yes in turn. */
static void set_polls(void)
{
    for (unsigned i = 0; i < devices; i++)
        if (pollable(i)) {
            area[PIL_RECORD_AT(i) + PIL_RECORD_POLL] = (uint8_t)(PIL_POLL_CONFIGURED + i / 2 % PPES);
            area[PIL_RECORD_AT(i) + PIL_RECORD_POLL_STATUS] = (uint8_t)(i / 2 % FLAGS);
        }
}

/* The assignment states in turn, every three extended devices with other primaries received, the first with both. The
   half assigned ones have no address, and in turn a second one and none. */
static void set_seconds(void)
{
    static const uint8_t addresses[ASSIGNED] = {0, 30, PIL_NO_ADDRESS}, seconds[ASSIGNED] = {0, 0, PIL_NO_ADDRESS};

    for (unsigned i = 1; i < devices; i += 3) {
        uint8_t *record = area + PIL_RECORD_AT(i);
        unsigned state = i / 3 % ASSIGNED, primaries = PRIMARIES - 1 - i / 9 % PRIMARIES;

        record[PIL_RECORD_CONFIGURED] = (uint8_t)state;
        record[PIL_RECORD_ADDRESS] = state == PIL_UNCONFIGURED ? (uint8_t)i : addresses[state];
        record[PIL_RECORD_SECOND] = state == PIL_UNCONFIGURED ? (uint8_t)i : i % 2 ? seconds[state] : 5;
        record[PIL_RECORD_FIXED_SECOND] = (uint8_t)i;
        record[PIL_RECORD_FIXED_SECOND] += (uint8_t)(primaries % 2 * PIL_PRIMARY_RECEIVED);
        record[PIL_RECORD_SECOND] += (uint8_t)(primaries / 2 * PIL_PRIMARY_RECEIVED);
    }
}

/* Puts frames and lets every device hop, till each link holds some and the tail is full. The last device has data that
   ends plain, the first, which talks, data that ends in an END. */
static void make_loop(void)
{
    static const uint16_t frames[] = {0x581, 0x441, 0x560, 0x031, 0x422, 0x232, 0x700};
    unsigned put = 0;

    set_up(area);
    load(devices - 1, PIL_LAST_PLAIN);
    load(0, PIL_LAST_END);
    while (area[PIL_LINK_AT(devices, devices) + PIL_LINK_COUNT] < PIL_LINK_DEPTH) {
        must(pil_put(area, area_len, frames[put++ % 7]) == PIL_ACCEPTED, "a put is refused", 0);
        for (unsigned device = devices; device-- > 0;)
            pil_hop(area, area_len, device);
    }
    must(pil_put(area, area_len, frames[put % 7]) == PIL_ACCEPTED, "a put is refused", 0);
    set_remote();
    set_polls();
    set_seconds();
    for (unsigned link = 0; link <= devices; link++) {
        size_t count = PIL_LINK_AT(devices, link) + PIL_LINK_COUNT;

        must(area[count] > 0, "a link holds no frame", count);
        done.frames += area[count];
    }
}

static void write_file(const char *path)
{
    FILE *file = fopen(path, "wb");

    must(file && fwrite(save, 1, save_len, file) == save_len && fclose(file) == 0, "the file cannot be written", 0);
}

/* What the file holds, with room for a byte too many. */
static size_t read_file(const char *path)
{
    FILE *file = fopen(path, "rb");
    size_t length;

    must(file != NULL, "the file cannot be read", 0);
    memset(tried, 0, sizeof tried);
    length = fread(tried, 1, sizeof tried, file);
    must(fclose(file) == 0, "the file cannot be closed", 0);
    return length;
}

/* The loop put away in the file and opened in the area of another is the same bytes, and so is what was lent. */
static void through_file(const char *path)
{
    static uint8_t before[AREA_ROOM];
    size_t length;

    memcpy(before, area, area_len);
    must(pil_save(area, area_len, save, save_len) == PIL_ACCEPTED, "the saving is refused", 0);
    must(memcmp(area, before, area_len) == 0, "the saving alters the area", 0);
    write_file(path);
    length = read_file(path);
    must(length == save_len, "the file has another length", length);
    must(remove(path) == 0, "the file cannot be removed", 0);
    memcpy(lent, in_hand, area_len);
    must(memcmp(lent, area, area_len) != 0, "the loop in hand is the saved one", 0);
    must(pil_open(lent, area_len, tried, length) == PIL_ACCEPTED, "the opening is refused", 0);
    must(memcmp(lent, area, area_len) == 0, "the opened area is another", 0);
    must(memcmp(tried, save, save_len) == 0, "the opening alters the save", 0);
    done.bytes += length;
}

/* The first length bytes of tried are refused; neither they nor the loop in hand change. */
static void refused_with(uint8_t refusal, size_t length, size_t place, const char *what)
{
    static uint8_t before[SAVE_ROOM];

    memcpy(before, tried, sizeof tried);
    memcpy(lent, in_hand, area_len);
    must(pil_open(lent, area_len, tried, length) == refusal, what, place);
    must(memcmp(lent, in_hand, area_len) == 0, "a refused opening alters the area", place);
    must(memcmp(tried, before, sizeof tried) == 0, "a refused opening alters the save", place);
}

static void refused(size_t length, size_t place, const char *what)
{
    refused_with(PIL_BAD_SAVE, length, place, what);
}

/* Every other value of the byte from the first on; gives how many there were. */
static unsigned other_values_from(unsigned first, size_t place, const char *what)
{
    unsigned values = 0;

    for (unsigned value = first; value <= UINT8_MAX; value++)
        if (value != save[place]) {
            tried[place] = (uint8_t)value;
            refused(save_len, place, what);
            values++;
        }
    tried[place] = save[place];
    return values;
}

static unsigned other_values(size_t place, const char *what)
{
    return other_values_from(0, place, what);
}

/* From head to head by the lengths of the bodies, all of them below 256. */
static void other_heads(void)
{
    size_t at = 0;
    unsigned heads = 0;

    for (; at < save_len; at += PIL_SAVE_HEAD_LENGTH + (size_t)save[at + PIL_SAVE_BODY_LENGTH], heads++)
        for (size_t i = 0; i < PIL_SAVE_HEAD_LENGTH; i++)
            done.heads += other_values(at + i, "a save with another byte in a head is opened");
    must(at == save_len && heads == 2 * devices + 2, "the heads are not those of header, records and links", at);
}

static void no_saves(void)
{
    memcpy(tried, save, sizeof tried);
    for (size_t length = 0; length < save_len; length++, done.cuts++)
        refused(length, length, "a save cut short is opened");
    refused(save_len + 1, save_len, "a save with a byte more is opened");
    done.longer++;
    other_heads();
    done.counts += other_values(COUNT_AT, "a save with another number of devices is opened");
    done.editions += other_values_from(PIL_EDITION_NOW + 1, PIL_SAVE_EDITION, "a save of no edition is opened");
}

/* Whether the area's bytes are the bodies of what was tried. */
static int is_held_by_tried(const uint8_t *loop)
{
    size_t at = 0, head = 0;

    while (at < area_len) {
        size_t length = tried[head + PIL_SAVE_BODY_LENGTH];

        if (memcmp(loop + at, tried + head + PIL_SAVE_HEAD_LENGTH, length) != 0)
            return 0;
        at += length;
        head += PIL_SAVE_HEAD_LENGTH + length;
    }
    return head == save_len;
}

/* What was tried opens to an area of its bytes. */
static void opened_as_tried(size_t place, const char *refused_text)
{
    memcpy(lent, in_hand, area_len);
    must(pil_open(lent, area_len, tried, save_len) == PIL_ACCEPTED, refused_text, place);
    tried[PIL_SAVE_EDITION] = 0; /* as in an area */
    must(is_held_by_tried(lent), "a sound save is opened as another area", place);
    tried[PIL_SAVE_EDITION] = PIL_EDITION_NOW;
}

/* Remote and local (02, d). */

/* The save with one device in each state, not enabled and enabled. */
static void sound_standings(size_t remote_at, size_t enabled_at)
{
    for (unsigned remote = 0; remote < STATES; remote++)
        for (unsigned enabled = 0; enabled < FLAGS; enabled++, done.standings++) {
            tried[remote_at] = (uint8_t)remote;
            tried[enabled_at] = (uint8_t)enabled;
            opened_as_tried(remote_at, "a byte 17 or 18 is refused");
        }
    tried[remote_at] = save[remote_at];
    tried[enabled_at] = save[enabled_at];
}

/* Every value of the byte from the first one that is not sound. */
static void not_sound_from(unsigned first, size_t place)
{
    for (unsigned value = first; value <= UINT8_MAX; value++, done.not_sound++) {
        tried[place] = (uint8_t)value;
        refused_with(PIL_UNSOUND, save_len, place, "a save with a byte 17 or 18 not sound is not refused with 2");
    }
    tried[place] = save[place];
}

static void remote_bytes(void)
{
    memcpy(tried, save, sizeof tried);
    for (unsigned i = 0; i < devices; i++) {
        size_t record = PIL_SAVE_RECORD_AT(i) + PIL_SAVE_HEAD_LENGTH;

        sound_standings(record + PIL_RECORD_REMOTE, record + PIL_RECORD_ENABLED);
        not_sound_from(STATES, record + PIL_RECORD_REMOTE);
        not_sound_from(FLAGS, record + PIL_RECORD_ENABLED);
    }
}

/* Parallel poll and extended addresses (02, f and i). */

static int poll_sound(const uint8_t *record)
{
    unsigned told = record[PIL_RECORD_POLL], status = record[PIL_RECORD_POLL_STATUS];

    if (record[PIL_RECORD_MORE] % 2 == 0)
        return told == 0 && status == 0;
    return (told == 0 || (told >= 16 && told < 16 + PPES)) && status < FLAGS;
}

static int simple_sound(const uint8_t *record)
{
    if (record[PIL_RECORD_FIXED_SECOND] != 0 || record[PIL_RECORD_SECOND] != 0)
        return 0;
    if (record[PIL_RECORD_CONFIGURED] == PIL_CONFIGURED)
        return record[PIL_RECORD_ABILITIES] & PIL_ABILITY_AUTO_ADDRESS && record[PIL_RECORD_ADDRESS] != PIL_NO_ADDRESS;
    return record[PIL_RECORD_CONFIGURED] == 0 && record[PIL_RECORD_ADDRESS] == record[PIL_RECORD_FIXED];
}

static int extended_sound(const uint8_t *record)
{
    unsigned fixed = record[PIL_RECORD_FIXED_SECOND], second = record[PIL_RECORD_SECOND];

    if (record[PIL_RECORD_ABILITIES] & PIL_ABILITY_AUTO_ADDRESS || fixed >= 2 * ADDRESSES || second >= 2 * ADDRESSES)
        return 0;
    switch (record[PIL_RECORD_CONFIGURED]) {
    case PIL_UNCONFIGURED:
        return record[PIL_RECORD_ADDRESS] == record[PIL_RECORD_FIXED] && fixed % ADDRESSES == second % ADDRESSES;
    case PIL_CONFIGURED: return record[PIL_RECORD_ADDRESS] < 31 && second % ADDRESSES < 31;
    default: return record[PIL_RECORD_CONFIGURED] == PIL_HALF_ASSIGNED;
    }
}

static int further_sound(const uint8_t *record)
{
    if (record[PIL_RECORD_MORE] > 3 || !poll_sound(record))
        return 0;
    return record[PIL_RECORD_MORE] / 2 ? extended_sound(record) : simple_sound(record);
}

/* Every value of one byte of the record, the others as they are. */
static void further_values(uint8_t *record, size_t at)
{
    size_t place = (size_t)(record + at - tried);

    for (unsigned value = 0; value <= UINT8_MAX; value++) {
        record[at] = (uint8_t)value;
        if (further_sound(record)) {
            opened_as_tried(place, "a byte 3, 7 or 20 to 23 is refused");
            done.further++;
        } else {
            refused_with(PIL_UNSOUND, save_len, place, "a save with a byte 3, 7 or 20 to 23 not sound is not refused "
                         "with 2");
            done.no_further++;
        }
    }
    record[at] = save[place];
}

static const uint8_t further_places[] = {PIL_RECORD_CONFIGURED, PIL_RECORD_MORE, PIL_RECORD_FIXED_SECOND,
                                         PIL_RECORD_SECOND, PIL_RECORD_POLL, PIL_RECORD_POLL_STATUS};

static void further_bytes(void)
{
    memcpy(tried, save, sizeof tried);
    for (unsigned i = 0; i < devices; i++)
        for (unsigned k = 0; k < sizeof further_places; k++)
            further_values(tried + PIL_SAVE_RECORD_AT(i) + PIL_SAVE_HEAD_LENGTH, further_places[k]);
}

/* How many of these values must be sound in a device, byte by byte. */
static unsigned further_due(unsigned device)
{
    static const uint8_t of_3[ASSIGNED] = {3, 2, 1}, of_20[ASSIGNED] = {2, 64, 64}, of_21[ASSIGNED] = {2, 62, 64};
    const uint8_t *record = area + PIL_RECORD_AT(device);
    unsigned state = device / 3 % ASSIGNED, polls = pollable(device) ? 1 + PPES + FLAGS : 1 + 1;
    int automatic = (abilities_of(device) & PIL_ABILITY_AUTO_ADDRESS) != 0;

    if (extended(device))
        return of_3[state] + (pollable(device) ? 1 : 2) + of_20[state] + of_21[state] + polls;
    return (unsigned)automatic + (record[PIL_RECORD_ADDRESS] == record[PIL_RECORD_FIXED])
        + (pollable(device) ? 1 : 2) * (automatic ? 1 : 2) + 1 + 1 + polls;
}

/* Old saves (02, h). */

/* The place of a device's choice in a save. */
static size_t choice_at(unsigned device)
{
    return PIL_SAVE_RECORD_AT(device) + PIL_SAVE_HEAD_LENGTH + PIL_RECORD_END;
}

/* Chooses END in what was tried, for each device with data, and gives how many these are. */
static unsigned choose_end(void)
{
    unsigned with_data = 0;

    for (unsigned i = 0; i < devices; i++)
        if (tried[choice_at(i) - PIL_RECORD_END + PIL_RECORD_DATA_LENGTH] > 0) {
            tried[choice_at(i)] = PIL_LAST_END;
            with_data++;
        }
    return with_data;
}

/* Opens the old save in tried: the area has its bytes, but END is chosen by each device with data. Saved again, that is
   all that differs, and the edition. */
static void opened_as_new(void)
{
    memcpy(lent, in_hand, area_len);
    memcpy(save, tried, sizeof save);
    must(tried[PIL_SAVE_EDITION] == PIL_EDITION_OLD, "the old save is of another edition", PIL_SAVE_EDITION);
    must(pil_open(lent, area_len, tried, save_len) == PIL_ACCEPTED, "the old save is refused", 0);
    must(memcmp(tried, save, sizeof save) == 0, "the opening alters the old save", 0);
    done.chosen += choose_end();
    must(is_held_by_tried(lent), "the opened old save is another area", 0);
    tried[PIL_SAVE_EDITION] = PIL_EDITION_NOW;
    must(pil_save(lent, area_len, save, save_len) == PIL_ACCEPTED, "the opened old save is not saved", 0);
    must(memcmp(save, tried, save_len) == 0, "the opened old save is not saved as a new one", 0);
}

/* The loop's save in the form from before loads took a choice; with any byte 19 not zero it is refused with 2. */
static void old_save(void)
{
    memcpy(tried, save, sizeof tried);
    tried[PIL_SAVE_EDITION] = PIL_EDITION_OLD;
    for (unsigned i = 0; i < devices; i++)
        tried[choice_at(i)] = 0;
    for (unsigned i = 0; i < devices; i++, done.choices++) {
        tried[choice_at(i)] = PIL_LAST_END;
        refused_with(PIL_UNSOUND, save_len, choice_at(i), "an old save with a byte 19 not zero is not refused with 2");
        tried[choice_at(i)] = 0;
    }
    opened_as_new();
}

/* old_save.bin, written by version 2.3.0: device 0 listens; 1 sends "1.503 V", two bytes of it are out; 2 is idle and
   has "72.0"; 3 can send data and has none; 4 asks for service and has an ID; a frame in links 0, 1, 3 and the tail. */
enum { OLD_DEVICES = 5, OLD_WITH_DATA = 2 };

/* The frames that came out of it at that time, each data byte put in again. Device 4 sets C1. */
static const uint16_t old_talk[] = {0x700, 0x12e, 0x700, 0x400, 0x135, 0x130, 0x133, 0x120, 0x356, 0x540};

/* Lets all frames hop on to the tail, and takes the oldest out. */
static unsigned next_out(void)
{
    struct pil_taken out;

    while (pil_drain(lent, area_len, UINT64_MAX).reason == PIL_STOP_HANDED)
        ;
    out = pil_take(lent, area_len);
    must(out.refusal == PIL_ACCEPTED, "no frame comes out of the old save", 0);
    return out.frame;
}

/* The talk that was under way goes on in lent as it would have, to an END. */
static void old_talk_goes_on(void)
{
    for (size_t i = 0; i < sizeof old_talk / sizeof *old_talk; i++) {
        unsigned frame = next_out();

        must(frame == old_talk[i], "another frame comes out of the old save", i);
        if (frame < PIL_C3)
            must(pil_put(lent, area_len, frame) == PIL_ACCEPTED, "a put into the old save is refused", i);
    }
    must(pil_take(lent, area_len).refusal == PIL_EMPTY, "more frames come out of the old save", 0);
}

static void begin(unsigned count)
{
    devices = count;
    area_len = PIL_AREA_LENGTH(devices);
    save_len = PIL_SAVE_LENGTH(devices);
    set_up(in_hand);
}

static void old_file(const char *path)
{
    unsigned long chosen = done.chosen;

    begin(OLD_DEVICES);
    must(read_file(path) == save_len, "the old save's file has another length", 0);
    opened_as_new();
    must(done.chosen == chosen + OLD_WITH_DATA, "another number of devices of the old save have data", 0);
    old_talk_goes_on();
}

int main(int argc, char **argv)
{
    static const unsigned all[] = {1, 2, 7, PIL_MOST_DEVICES};
    unsigned long bytes = 0, heads = 0, records = 0, further = 0, chosen = OLD_WITH_DATA;
    const unsigned long loops = sizeof all / sizeof *all;

    if (argc != 3) {
        fprintf(stderr, "use: saves FILE OLD\n");
        return 3;
    }
    for (unsigned i = 0; i < loops; i++) {
        begin(all[i]);
        make_loop();
        through_file(argv[1]);
        no_saves();
        remote_bytes();
        further_bytes();
        old_save();
        bytes += 30 + 86 * devices;
        heads += 2 * devices + 2;
        records += devices;
        for (unsigned device = 0; device < devices; device++)
            further += further_due(device);
        chosen += devices > 1 ? 2 : 1; /* the first device and the last have data */
    }
    old_file(argv[2]);
    must(done.bytes == bytes && done.cuts == bytes && done.longer == loops && done.counts == loops * OTHER_VALUES
         && done.heads == heads * PIL_SAVE_HEAD_LENGTH * OTHER_VALUES && done.editions == loops * NO_EDITIONS
         && done.choices == records && done.chosen == chosen && done.standings == records * STATES * FLAGS
         && done.not_sound == records * NOT_SOUND && done.further == further
         && done.further + done.no_further == records * sizeof further_places * (OTHER_VALUES + 1),
         "not all was tried", 0);
    printf("saves: %lu loops with %lu frames through a file of %lu bytes in all; refused with 10: %lu cut, %lu longer, "
           "%lu with another byte in a head, %lu with another count, %lu of no edition; %lu old saves opened and one "
           "from a file, END chosen for %lu devices in all; refused with 2: %lu old saves with a byte 19, %lu with a "
           "byte 17 or 18 out of range, %lu with a byte 3, 7 or 20 to 23 so; %lu and %lu opened with these in range\n",
           loops, done.frames, done.bytes, done.cuts, done.longer, done.heads, done.counts, done.editions, loops,
           done.chosen, done.choices, done.not_sound, done.no_further, done.standings, done.further);
    return 0;
}
