/* One piece of work of libpil or of the model on a loop, or none, for counting the instructions that it takes. Use:
   count devices, count names, or count CASE WHO: the case's line among the names; 0 for neither, 1 libpil, 2 model. */
#include "both.h"
#include "loops.h"

#include <stdio.h>
#include <stdlib.h>
#include <string.h>

enum { SDA = 0x560, ETO = 0x540, ETE = 0x541, MOST_ROUNDS = 100 };

static uint8_t area[LOOP_LENGTH], save[LOOP_SAVE_LENGTH], told[PIL_TOLD_LENGTH(LOOP_DEVICES)];

/* Idle loops with frames in link 0. */

static void data_byte(uint8_t *loop)
{
    idle_loop(loop);
    fill_link(loop, 0, 1, 0x041, 1);
}

static void data_bytes(uint8_t *loop)
{
    idle_loop(loop);
    fill_link(loop, 0, PIL_LINK_DEPTH, 0x041, 1);
}

static void talk_addresses(uint8_t *loop)
{
    idle_loop(loop);
    fill_link(loop, 0, PIL_LINK_DEPTH, 0x440, 1);
}

/* A power-on area, and the save of a busy loop to open in it. */
static void saved_busy_loop(uint8_t *loop)
{
    busy_loop(loop);
    model_save(loop, LOOP_LENGTH, save, sizeof save);
    idle_loop(loop);
}

/* The work: each gives a number of its answers. */

static unsigned refused_hop(const struct calls *of)
{
    return of->hop(area, sizeof area, LOOP_DEVICES).refusal;
}

static unsigned first_hop(const struct calls *of)
{
    return of->hop(area, sizeof area, 0).frame;
}

static unsigned last_hop(const struct calls *of)
{
    return of->hop(area, sizeof area, LOOP_DEVICES - 1).frame;
}

static unsigned drain(const struct calls *of)
{
    return of->drain(area, sizeof area, UINT64_MAX).hops;
}

static unsigned owed(const struct calls *of)
{
    return of->owed(area, sizeof area).hops;
}

/* The frames that the saved tail holds. */
static unsigned saving(const struct calls *of)
{
    of->save(area, sizeof area, save, sizeof save);
    return save[PIL_SAVE_LINK_AT(LOOP_DEVICES, LOOP_DEVICES) + PIL_SAVE_HEAD_LENGTH + PIL_LINK_COUNT];
}

/* The frames that the opened tail holds. */
static unsigned opening(const struct calls *of)
{
    of->open(area, sizeof area, save, sizeof save);
    return area[PIL_LINK_AT(LOOP_DEVICES, LOOP_DEVICES) + PIL_LINK_COUNT];
}

/* SDA and then each byte that comes out sent right round, till the talker ends: the rounds made. */
static unsigned whole_record(const struct calls *of)
{
    unsigned frame = SDA, rounds = 0;

    while (frame != ETO && rounds < MOST_ROUNDS) {
        of->put(area, sizeof area, frame);
        of->drain(area, sizeof area, UINT64_MAX);
        frame = of->take(area, sizeof area).frame;
        rounds++;
    }
    return rounds;
}

static unsigned walk(const struct calls *of, unsigned frame)
{
    return of->walk(area, PIL_RECORDS_LENGTH(LOOP_DEVICES), frame, told, sizeof told).frame;
}

static unsigned walk_of_byte(const struct calls *of)
{
    return walk(of, 0x041);
}

static unsigned walk_of_nul(const struct calls *of)
{
    return walk(of, 0x400);
}

static unsigned walk_of_tad(const struct calls *of)
{
    return walk(of, 0x445);
}

/* Whether some bits were made ones: which, depends on the devices. */
static unsigned walk_of_idy(const struct calls *of)
{
    return walk(of, 0x600) > 0x600;
}

static unsigned walk_of_aad(const struct calls *of)
{
    return walk(of, 0x580);
}

static unsigned walk_of_own_byte(const struct calls *of)
{
    return walk(of, LOOP_OWN_BYTE);
}

/* What a walk of it is to be the same as. */
static unsigned hops_of_byte(const struct calls *of)
{
    of->put(area, sizeof area, 0x041);
    for (unsigned i = 0; i < LOOP_DEVICES; i++)
        of->hop(area, sizeof area, i);
    return of->take(area, sizeof area).frame;
}

/* The rounds of a whole record, by walks. */
static unsigned whole_record_walked(const struct calls *of)
{
    unsigned frame = SDA, rounds = 0;

    while (frame != ETO && rounds < MOST_ROUNDS) {
        frame = walk(of, frame);
        rounds++;
    }
    return rounds;
}

static const struct {
    const char *name;
    void (*ready)(uint8_t *);
    unsigned (*work)(const struct calls *);
    unsigned answer; /* what the work must give */
} cases[] = {
    {"soundness", idle_loop, refused_hop, PIL_NO_DEVICE},
    {"hop of a data byte", data_byte, first_hop, 0x041},
    {"drain of a full link, data bytes", data_bytes, drain, LOOP_DRAIN},
    {"drain of a full link, talk addresses", talk_addresses, drain, LOOP_DRAIN},
    {"drain of a full link, IDYs answered", polled_loop, drain, LOOP_DRAIN},
    {"hop of a TAD, extended device", extended_loop, first_hop, 0x445},
    {"drain of a full link, TADs and SADs", extended_loop, drain, LOOP_DRAIN},
    {"busy loop: soundness", busy_loop, refused_hop, PIL_NO_DEVICE},
    {"busy loop: hop of a talker's own byte", busy_loop_to_hop, last_hop,
     LOOP_FIRST_BYTE + PIL_MOST_ID + PIL_MOST_DATA / 2},
    {"busy loop: drain into the tail, data bytes", busy_loop_to_drain, drain, LOOP_DRAIN},
    {"busy loop: hops owed, links full", busy_loop, owed, LOOP_MOST_OWED},
    {"busy loop: save", busy_loop, saving, PIL_LINK_DEPTH},
    {"busy loop: opening", saved_busy_loop, opening, PIL_LINK_DEPTH},
    {"a talker's 32 bytes sent round, 33 rounds", talker_loop, whole_record, 33},
    {"walk of a data byte past listeners", listening_loop, walk_of_byte, 0x041},
    {"the same by put, hops and take", listening_loop, hops_of_byte, 0x041},
    {"walk of a NUL", idle_loop, walk_of_nul, 0x400},
    {"walk of a TAD", idle_loop, walk_of_tad, 0x445},
    {"walk of an IDY, answered", polled_loop_to_walk, walk_of_idy, 1},
    {"walk of an AAD, taken by every device", idle_loop, walk_of_aad, 0x580 + LOOP_DEVICES},
    {"busy loop: walk of a data byte", busy_loop_to_walk, walk_of_own_byte, ETE},
    {"a talker's 32 bytes walked round, 33 rounds", talker_loop, whole_record_walked, 33},
};

enum { CASES = sizeof cases / sizeof *cases };

static int print_names(void)
{
    for (unsigned i = 0; i < CASES; i++)
        printf("%s\n", cases[i].name);
    return 0;
}

int main(int argc, char **argv)
{
    unsigned chosen, who;

    if (argc == 2 && strcmp(argv[1], "names") == 0)
        return print_names();
    if (argc == 2 && strcmp(argv[1], "devices") == 0)
        return printf("Loops of %d devices:\n", LOOP_DEVICES) < 0;
    if (argc != 3)
        return 3;
    chosen = (unsigned)atoi(argv[1]) - 1;
    who = (unsigned)atoi(argv[2]);
    if (chosen >= CASES || who > 2)
        return 3;
    cases[chosen].ready(area);
    return who == 0 ? 0 : cases[chosen].work(&both[who - 1]) != cases[chosen].answer;
}
