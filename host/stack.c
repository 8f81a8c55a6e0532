/* The stack that hop, drain, walk, save and open take, libpil's and the model's: each runs on a painted stack, which
   shows the deepest byte touched and copies of a record. Use: stack [HOP DRAIN WALK]; exit 1: too much, or a copy. */
#include "lent.h"
#include "loops.h"
#include "model.h"

#include <stdio.h>
#include <stdlib.h>
#include <string.h>

enum {
    PIL, MODEL,
    DEEP = 4096, /* bytes of the painted stack */
    PAINT = 0xa5,
    ROW = 32,    /* bytes of paint looked for at a time */
    COPY = 16,   /* so many bytes of an ID or data in a row are a copy */
    ADDRESS = 5,
    SECOND = 7,  /* second address of an extended device */
    PPD = 0x405,
    PPU = 0x415,
    FIRST_PPE = 0x480,
    LAST_PPE = 0x48f,
    FIRST_IDY = 0x600,
    HOPPER = LOOP_DEVICES - 1 /* the device that hops */
};

/* What a device has left to send: none, half, or the last byte of its data, which goes out plain or as an END. */
enum { NONE_LEFT, HALF_LEFT, LAST_LEFT_PLAIN, LAST_LEFT_END, LEFTS };

enum { RECORDS = LOOP_TALKER_STATES * 3 * 2 * LEFTS * 2 * 4 * 2 }; /* numbers for make_record */

typedef void function(void);

static _Alignas(16) uint8_t stack[DEEP];
static uint8_t paint[ROW]; /* as the stack is where nothing touched it */
static uint8_t ready[LOOP_LENGTH], area[LOOP_LENGTH];
static uint8_t save[LOOP_SAVE_LENGTH], old_save[LOOP_SAVE_LENGTH]; /* of what is ready, as it is written now and was */
static uint8_t upgraded[LOOP_LENGTH];    /* what the old save opens to */
static uint8_t output[LOOP_SAVE_LENGTH]; /* what is saved */
static uint8_t told[PIL_TOLD_LENGTH(LOOP_DEVICES)]; /* by a walk */

/* What is measured. A refused hop shows what the test of soundness leaves, which a hop may write over. */
static const struct call {
    const char *name;
    function *of[2];
    uint64_t number; /* the device, the budget, or where an output or a save is; a walk's is its frame */
    unsigned frames; /* how many are tried */
    unsigned left;   /* frames that it leaves in the link to the device */
} calls[] = {
    {"hop", {(function *)pil_hop, (function *)model_hop}, HOPPER, PIL_FRAMES, 0},
    {"drain", {(function *)pil_drain, (function *)model_drain}, UINT64_MAX, PIL_FRAMES, 0},
    {"walk", {(function *)pil_walk, (function *)model_walk}, 0, PIL_FRAMES, 1},
    {"hop refused with 3", {(function *)pil_hop, (function *)model_hop}, LOOP_DEVICES, 1, 1},
    {"save", {(function *)pil_save, (function *)model_save}, (uintptr_t)output, 1, 1},
    {"open", {(function *)pil_open, (function *)model_open}, (uintptr_t)save, 1, 1},
    {"open an old save", {(function *)pil_open, (function *)model_open}, (uintptr_t)old_save, 1, 1},
};

enum { HOP, DRAIN, WALK, HOP_REFUSED, SAVE, OPEN, OPEN_OLD, CALLS = sizeof calls / sizeof *calls };

/* The most that a call took or copied, and where it first did. */
struct most {
    unsigned bytes, frame, talker;
};

static struct most deepest[CALLS][2], copied[CALLS][2];

/* One call on the painted stack. */

/* Calls of(area, length, number, fourth, fifth) with the stack pointer at the stack's end: all that is written below
   it, the return address first, is the call's. The painted stack is not the one in use, so nothing else lives there. */
__attribute__((noinline)) static void call_on_stack(function *of, size_t length, uint64_t number, uint64_t fourth,
                                                    uint64_t fifth)
{
    uint8_t *first = area;
    register uint64_t r8 __asm__("r8") = fifth;

    __asm__ volatile("mov %%rsp, %%rbx\n\t"
                     "mov %[end], %%rsp\n\t"
                     "call *%[of]\n\t"
                     "mov %%rbx, %%rsp"
                     : "+D"(first), "+S"(length), "+d"(number), "+c"(fourth), "+r"(r8)
                     : [end] "r"(stack + DEEP), [of] "r"(of)
                     : "rax", "rbx", "r9", "r10", "r11", "cc", "memory", "xmm0", "xmm1", "xmm2", "xmm3",
                       "xmm4", "xmm5", "xmm6", "xmm7", "xmm8", "xmm9", "xmm10", "xmm11", "xmm12", "xmm13", "xmm14",
                       "xmm15");
}

/* A walk is lent the first part of the area, and where to tell; the others that take a fourth take a save's length. */
static void make_call(unsigned which, int side, unsigned frame)
{
    if (which == WALK)
        call_on_stack(calls[which].of[side], PIL_RECORDS_LENGTH(LOOP_DEVICES), frame, (uintptr_t)told, sizeof told);
    else
        call_on_stack(calls[which].of[side], sizeof area, calls[which].number, sizeof save, 0);
}

/* Bytes from the deepest one touched to the stack's end. */
static unsigned touched(void)
{
    unsigned place = 0;

    while (place < DEEP && memcmp(stack + place, paint, sizeof paint) == 0)
        place += sizeof paint;
    while (place < DEEP && stack[place] == PAINT)
        place++;
    return DEEP - place;
}

/* The longest row of bytes of a record's ID and data among those touched. There each byte is one more than the last. */
static unsigned longest_copy(unsigned depth)
{
    unsigned row = 0, longest = 0;

    for (unsigned place = DEEP - depth; place < DEEP; place++) {
        if (stack[place] < LOOP_FIRST_BYTE || stack[place] > LOOP_LAST_BYTE)
            row = 0;
        else
            row = row > 0 && stack[place] == stack[place - 1] + 1 ? row + 1 : 1;
        if (row > longest)
            longest = row;
    }
    return longest;
}

static void note(struct most *most, unsigned bytes, unsigned frame)
{
    if (bytes > most->bytes)
        *most = (struct most){bytes, frame, ready[PIL_RECORD_AT(HOPPER) + PIL_RECORD_TALKER]};
}

static void must(int holds, const char *what, unsigned which, unsigned frame)
{
    if (holds)
        return;
    printf("%s, frame %03x: %s\n", calls[which].name, frame, what);
    exit(1);
}

/* What is lent before the call. An opening and a saving write over zeros, a walk tells over paint, so that it shows. */
static void lend(unsigned which)
{
    memcpy(area, ready, sizeof area);
    if (which == OPEN || which == OPEN_OLD)
        memset(area, 0, sizeof area);
    if (which == SAVE)
        memset(output, 0, sizeof output);
    if (which == WALK)
        memset(told, PAINT, sizeof told);
}

/* All of it is written: paint is neither a yes nor a no, nor an end bit, nor an event, and byte and end bit are 0 where
   nothing was handed. Only a byte handed may be as paint is. */
static int all_told(void)
{
    for (unsigned i = 0; i < LOOP_DEVICES; i++)
        if (!can_be_told(told + PIL_TOLD_AT(i)))
            return 0;
    return 1;
}

static int done(unsigned which)
{
    return area[PIL_LINK_AT(LOOP_DEVICES, HOPPER) + PIL_LINK_COUNT] == calls[which].left
        && (which != WALK || all_told())
        && (which != SAVE || memcmp(output, save, sizeof save) == 0)
        && (which != OPEN || memcmp(area, ready, sizeof area) == 0)
        && (which != OPEN_OLD || memcmp(area, upgraded, sizeof area) == 0);
}

static void paint_all(void)
{
    memset(stack, PAINT, sizeof stack);
    memset(paint, PAINT, sizeof paint);
}

/* Paints what the call touched again, for the next one. */
static void measure(unsigned which, int side, unsigned frame)
{
    unsigned depth;

    lend(which);
    make_call(which, side, frame);
    depth = touched();
    must(depth < DEEP, "deeper than the painted stack", which, frame);
    must(done(which), "not done as it must be", which, frame);
    note(&deepest[which][side], depth, frame);
    note(&copied[which][side], longest_copy(depth), frame);
    memset(stack + DEEP - depth, PAINT, depth);
}

/* The cases. */

static unsigned digit(unsigned *number, unsigned base)
{
    unsigned lowest = *number % base;

    *number /= base;
    return lowest;
}

static void all_sent(uint8_t *r)
{
    r[PIL_RECORD_SENT] = PIL_MOST_DATA;
    if (r[PIL_RECORD_TALKER] == PIL_TALKER_ID)
        r[PIL_RECORD_REPLY_SENT] = PIL_MOST_ID;
}

/* A device with none left is not configured. Gives 0 where the last byte of the data cannot be the next to go out. */
static int leave(uint8_t *r, unsigned left)
{
    r[PIL_RECORD_CONFIGURED] = left != NONE_LEFT;
    if (left == NONE_LEFT)
        all_sent(r);
    if (left < LAST_LEFT_PLAIN)
        return 1;
    r[PIL_RECORD_SENT] = PIL_MOST_DATA - 1;
    r[PIL_RECORD_END] = left == LAST_LEFT_END ? PIL_LAST_END : PIL_LAST_PLAIN;
    return r[PIL_RECORD_TALKER] == PIL_TALKER_ADDRESSED || r[PIL_RECORD_TALKER] == PIL_TALKER_DATA;
}

/* An extended device that has received both primaries, and half assigned where it listens. Gives 0 for a frame to which
   it is like a simple one. */
static int extend(uint8_t *r, unsigned frame)
{
    r[PIL_RECORD_ABILITIES] -= PIL_ABILITY_AUTO_ADDRESS;
    r[PIL_RECORD_MORE] |= PIL_MORE_EXTENDED;
    r[PIL_RECORD_FIXED_SECOND] = r[PIL_RECORD_SECOND] = SECOND + PIL_PRIMARY_RECEIVED;
    if (r[PIL_RECORD_CONFIGURED] && r[PIL_RECORD_LISTENER])
        r[PIL_RECORD_CONFIGURED] = PIL_HALF_ASSIGNED;
    return frame >= PIL_C3 && frame < FIRST_IDY;
}

/* Whether the device answers polls, and how: not at all, or to say a yes or a no by a one. */
static void make_poll(uint8_t *r, unsigned *number)
{
    static const uint8_t polls[] = {PIL_POLL_NONE, PIL_POLL_CONFIGURED + PIL_POLL_SENSE, PIL_POLL_CONFIGURED};

    r[PIL_RECORD_POLL] = polls[digit(number, sizeof polls)];
    r[PIL_RECORD_POLL_STATUS] = (uint8_t)digit(number, 2);
}

/* PPD, PPU, a PPE or an IDY. */
static int is_of_polls(unsigned frame)
{
    return frame == PPD || frame == PPU || (frame >= FIRST_PPE && frame <= LAST_PPE) || frame >= FIRST_IDY;
}

/* What only some frames find, by what is left of the number; gives 0 if there is more of it. A frame of polls finds how
   these are answered, another command remote and local, a data byte in a sending device NRD and the byte sent last. */
static int make_found(uint8_t *r, unsigned number, unsigned frame)
{
    static const unsigned others[] = {0, 1, PIL_C2};
    unsigned last;

    if (is_of_polls(frame)) {
        make_poll(r, &number);
    } else if (frame >= PIL_C3 && frame < PIL_C3 + PIL_C1) {
        r[PIL_RECORD_REMOTE] = (uint8_t)digit(&number, PIL_REMOTE_LOCKED + 1);
        r[PIL_RECORD_ENABLED] = (uint8_t)digit(&number, 2);
    } else if (frame < PIL_C3 && r[PIL_RECORD_TALKER] >= PIL_TALKER_DATA) {
        r[PIL_RECORD_NRD] = (uint8_t)digit(&number, 2);
        last = (frame ^ others[digit(&number, 3)]) & (PIL_C2 | PIL_C1 | PIL_DATA_BITS);
        r[PIL_RECORD_LAST] = (uint8_t)last;
        r[PIL_RECORD_LAST + 1] = (uint8_t)(last >> 8);
    }
    return number == 0;
}

/* A full record in each state that makes a difference to the frame, by number; gives 0 if a lower number has made one
   that the frame finds the same. */
static int make_record(uint8_t *r, unsigned number, unsigned frame)
{
    full_record(r, ADDRESS, digit(&number, LOOP_TALKER_STATES));
    r[PIL_RECORD_SERVICE] = (uint8_t)digit(&number, PIL_SERVICE_POLLED + 1);
    r[PIL_RECORD_LISTENER] = (uint8_t)digit(&number, 2);
    if (!leave(r, digit(&number, LEFTS)) || (digit(&number, 2) && !extend(r, frame)))
        return 0;
    return make_found(r, number, frame);
}

/* Every device has data, for which an opening of the old save chooses END. */
static void make_saves(void)
{
    model_save(ready, sizeof ready, save, sizeof save);
    memcpy(old_save, save, sizeof save);
    memcpy(upgraded, ready, sizeof ready);
    old_save[PIL_SAVE_EDITION] = PIL_EDITION_OLD;
    for (unsigned i = 0; i < LOOP_DEVICES; i++) {
        old_save[PIL_SAVE_RECORD_AT(i) + PIL_SAVE_HEAD_LENGTH + PIL_RECORD_END] = 0;
        upgraded[PIL_RECORD_AT(i) + PIL_RECORD_END] = PIL_LAST_END;
    }
}

static void try_case(unsigned number, unsigned frame)
{
    uint8_t record[PIL_RECORD_LENGTH];

    if (!make_record(record, number, frame))
        return;
    for (unsigned i = 0; i < LOOP_DEVICES; i++)
        memcpy(ready + PIL_RECORD_AT(i), record, sizeof record);
    fill_link(ready, HOPPER, 1, frame, 0);
    if (frame < calls[OPEN].frames)
        make_saves();
    for (unsigned which = 0; which < CALLS; which++)
        for (int side = PIL; frame < calls[which].frames && side <= MODEL; side++)
            measure(which, side, frame);
}

/* The report. */

static void print_deepest(void)
{
    printf("Bytes of stack from the call on, return address included, in loops of %d devices; the first frame and\n"
           "talker state with so many.\n%-20s%8s%24s\n", LOOP_DEVICES, "", "libpil", "model");
    for (unsigned which = 0; which < CALLS; which++) {
        printf("%-20s", calls[which].name);
        for (int side = PIL; side <= MODEL; side++)
            printf("%8u (%03x, talker %u)", deepest[which][side].bytes, deepest[which][side].frame,
                   deepest[which][side].talker);
        printf("\n");
    }
}

static int within(unsigned which, const char *limit)
{
    if (deepest[which][PIL].bytes <= strtoul(limit, NULL, 0))
        return 1;
    printf("%s: libpil takes %u bytes of stack, more than %s\n", calls[which].name, deepest[which][PIL].bytes, limit);
    return 0;
}

static int no_copy(unsigned which)
{
    const struct most *most = &copied[which][PIL];

    if (most->bytes < COPY)
        return 1;
    printf("%s: libpil copies %u bytes of a record to the stack (frame %03x, talker %u)\n", calls[which].name,
           most->bytes, most->frame, most->talker);
    return 0;
}

int main(int argc, char **argv)
{
    int well = 1;

    if (argc != 1 && argc != 4) {
        fprintf(stderr, "use: stack [HOP DRAIN WALK]\n");
        return 3;
    }
    idle_loop(ready);
    paint_all();
    for (unsigned number = 0; number < RECORDS; number++)
        for (unsigned frame = 0; frame < PIL_FRAMES; frame++)
            try_case(number, frame);
    print_deepest();
    for (unsigned which = 0; which < CALLS; which++)
        well &= no_copy(which);
    if (argc == 4)
        well &= within(HOP, argv[1]) & within(DRAIN, argv[2]) & within(WALK, argv[3]);
    return well ? 0 : 1;
}
