/* Measures libpil against the model, and its walk against its put, hops and take, the same work in one run: alternating
   runs, the median of each side, and the ratio. Use: times [lister model-lister text], the listers being commands. */
#define _POSIX_C_SOURCE 200809L
#include "both.h"
#include "loops.h"

#include <stdio.h>
#include <stdlib.h>
#include <string.h>
#include <time.h>

enum {
    PIL, MODEL,
    N = LOOP_DEVICES,
    NUL = 0x400,
    AREAS = 64,       /* areas that a run works through */
    RUNS = 41,        /* runs of each side; odd, so that one is the median */
    LISTER_RUNS = 11
};

static uint8_t areas[AREAS][LOOP_LENGTH], ready[LOOP_LENGTH], save[LOOP_SAVE_LENGTH], told[PIL_TOLD_LENGTH(N)];
static const size_t area_len = LOOP_LENGTH;

static double now(void)
{
    struct timespec t;

    clock_gettime(CLOCK_MONOTONIC, &t);
    return (double)t.tv_sec * 1e9 + (double)t.tv_nsec;
}

/* Idle loops with NULs in each link but the tail. */

static void idle_loop_with(uint8_t *area, unsigned nuls)
{
    idle_loop(area);
    for (unsigned link = 0; link < N; link++)
        fill_link(area, link, nuls, NUL, 0);
}

static void nul_in_each_link(uint8_t *area)
{
    idle_loop_with(area, 1);
}

static void links_full_of_nuls(uint8_t *area)
{
    idle_loop_with(area, PIL_LINK_DEPTH);
}

/* A busy loop whose save is there to be opened. */
static void saved_busy_loop(uint8_t *area)
{
    busy_loop(area);
    model_save(area, area_len, save, sizeof save);
}

/* The work: each does one area and gives a number that depends on the answers. */

static unsigned long hops(const struct calls *of, uint8_t *area)
{
    unsigned long sum = 0;

    for (unsigned device = N; device-- > 0;)
        sum += of->hop(area, area_len, device).frame;
    return sum;
}

static unsigned long drain(const struct calls *of, uint8_t *area)
{
    return of->drain(area, area_len, UINT64_MAX).hops;
}

static unsigned long round_trip(const struct calls *of, uint8_t *area)
{
    of->put(area, area_len, 0x041);
    of->drain(area, area_len, UINT64_MAX);
    return of->take(area, area_len).frame;
}

static unsigned long soundness(const struct calls *of, uint8_t *area)
{
    return of->hop(area, area_len, N).refusal == PIL_NO_DEVICE;
}

static unsigned long owed(const struct calls *of, uint8_t *area)
{
    return of->owed(area, area_len).hops;
}

static unsigned long saving(const struct calls *of, uint8_t *area)
{
    return of->save(area, area_len, save, sizeof save) == PIL_ACCEPTED;
}

static unsigned long opening(const struct calls *of, uint8_t *area)
{
    return of->open(area, area_len, save, sizeof save) == PIL_ACCEPTED;
}

/* The frame out and what is told of the last device. */
static unsigned long walk(const struct calls *of, uint8_t *area, unsigned frame)
{
    unsigned out = of->walk(area, PIL_RECORDS_LENGTH(N), frame, told, sizeof told).frame;

    return out + told[PIL_TOLD_AT(N - 1) + PIL_TOLD_BYTE] + told[PIL_TOLD_AT(N - 1) + PIL_TOLD_EVENT];
}

static unsigned long walk_of_byte(const struct calls *of, uint8_t *area)
{
    return walk(of, area, 0x041);
}

static unsigned long walk_of_nul(const struct calls *of, uint8_t *area)
{
    return walk(of, area, NUL);
}

static unsigned long walk_of_tad(const struct calls *of, uint8_t *area)
{
    return walk(of, area, 0x445);
}

static unsigned long walk_of_idy(const struct calls *of, uint8_t *area)
{
    return walk(of, area, 0x600);
}

static unsigned long walk_of_aad(const struct calls *of, uint8_t *area)
{
    return walk(of, area, 0x580);
}

static unsigned long walk_of_own_byte(const struct calls *of, uint8_t *area)
{
    return walk(of, area, LOOP_OWN_BYTE);
}

/* What a walk is to be the same as (02, l), on a whole area with empty links. */
static struct pil_walked put_hops_take(uint8_t *area, size_t records_len, uint64_t frame, uint8_t *to, size_t to_len)
{
    (void)records_len;
    pil_put(area, area_len, frame);
    for (unsigned i = 0; PIL_TOLD_AT(i) < to_len; i++) {
        struct pil_hopped hopped = pil_hop(area, area_len, i);

        to[PIL_TOLD_AT(i) + PIL_TOLD_HANDED] = hopped.handed;
        to[PIL_TOLD_AT(i) + PIL_TOLD_BYTE] = hopped.byte;
        to[PIL_TOLD_AT(i) + PIL_TOLD_END] = hopped.end;
        to[PIL_TOLD_AT(i) + PIL_TOLD_EVENT] = hopped.event;
    }
    return (struct pil_walked){.frame = pil_take(area, area_len).frame};
}

/* Both of libpil. */
static const struct calls ways[2] = {{.name = "walk", .walk = pil_walk}, {.name = "hops", .walk = put_hops_take}};

static const struct work {
    const char *name;
    void (*make_ready)(uint8_t *);
    unsigned units; /* what the work on one area counts as */
    unsigned long (*on)(const struct calls *, uint8_t *);
} walks[] = {
    {"walk of a data byte past listeners", listening_loop, 1, walk_of_byte},
    {"walk of a NUL", idle_loop, 1, walk_of_nul},
    {"walk of a TAD", idle_loop, 1, walk_of_tad},
    {"walk of an IDY, every device polled", polled_loop_to_walk, 1, walk_of_idy},
    {"walk of an AAD, taken by every device", idle_loop, 1, walk_of_aad},
    {"busy loop: walk of a data byte", busy_loop_to_walk, 1, walk_of_own_byte},
}, works[] = {
    {"hop of one device, a frame in each link", nul_in_each_link, N, hops},
    {"drain of a full loop, four hops a device", links_full_of_nuls, 1, drain},
    {"round trip: put, drain, take", idle_loop, 1, round_trip},
    {"drain of four IDYs, every device polled", polled_loop, 1, drain},
    {"drain of TADs and SADs, extended devices", extended_loop, 1, drain},
    {"soundness: a hop refused with 3", links_full_of_nuls, 1, soundness},
    {"busy loop: hop of one device", busy_loop_to_hop, N, hops},
    {"busy loop: drain, four hops a device, data bytes", busy_loop_to_drain, 1, drain},
    {"busy loop: soundness, a hop refused with 3", busy_loop, 1, soundness},
    {"busy loop: hops owed, links full", busy_loop, 1, owed},
    {"busy loop: save", busy_loop, 1, saving},
    {"busy loop: opening", saved_busy_loop, 1, opening},
};

/* One run of one side: nanoseconds a unit. The areas are made anew first, outside the time taken. */
static double run(const struct work *w, const struct calls *of, unsigned long *sum)
{
    double start;

    for (unsigned i = 0; i < AREAS; i++)
        memcpy(areas[i], ready, area_len);
    *sum = 0;
    start = now();
    for (unsigned i = 0; i < AREAS; i++)
        *sum += w->on(of, areas[i]);
    return (now() - start) / (AREAS * w->units);
}

static int smaller(const void *a, const void *b)
{
    double x = *(const double *)a, y = *(const double *)b;

    return (x > y) - (x < y);
}

static double median(double *times, unsigned count)
{
    qsort(times, count, sizeof *times, smaller);
    return times[count / 2];
}

static void print_ratio(const char *name, double first, double second, const char *unit)
{
    printf("%-48s %10.1f %10.1f %s  ratio %.2f\n", name, first, second, unit, first / second);
}

/* The first of the two sides against the second. */
static int measure(const struct work *w, const struct calls sides[2])
{
    static double times[2][RUNS];
    unsigned long sums[2];

    w->make_ready(ready);
    for (unsigned i = 0; i < RUNS; i++)
        for (unsigned turn = 0; turn < 2; turn++) {
            int side = (i + turn) % 2;

            times[side][i] = run(w, &sides[side], &sums[side]);
        }
    if (sums[0] != sums[1] || sums[0] == 0) {
        printf("%s: the answers differ or are refusals\n", w->name);
        return 0;
    }
    print_ratio(w->name, median(times[0], RUNS), median(times[1], RUNS), "ns");
    return 1;
}

/* The listers are programs of their own, so whole runs are timed, start included; the start alone is the run over no
   input, printed beside it. */
static int measure_listers(char **commands, const char *text)
{
    static double times[2][LISTER_RUNS];
    static const char *const labels[2] = {"lister, start alone (no input)", "lister, 60,000 bytes, start included"};
    char line[2000];

    for (unsigned whole = 0; whole < 2; whole++) {
        for (unsigned i = 0; i < LISTER_RUNS; i++)
            for (unsigned side = PIL; side <= MODEL; side++) {
                double start = now();

                snprintf(line, sizeof line, "%s < %s > /dev/null", commands[side], whole ? text : "/dev/null");
                if (system(line) != 0) {
                    printf("lister: cannot run %s\n", line);
                    return 0;
                }
                times[side][i] = (now() - start) / 1000;
            }
        print_ratio(labels[whole], median(times[PIL], LISTER_RUNS), median(times[MODEL], LISTER_RUNS), "us");
    }
    return 1;
}

int main(int argc, char **argv)
{
    int well = 1;

    printf("libpil against the model (plain C, same checks, -O2), medians of %d alternating runs over %d areas of %d\n"
           "devices. Areas are written anew before each run, outside the time; nothing is cleared within it.\n", RUNS,
           AREAS, LOOP_DEVICES);
#ifdef EMULATED
    printf("EMULATED: x86-64 code under an emulator on another processor; the figures are of emulated code, where\n"
           "identical code at another place in memory has taken up to 1.6 times as long.\n");
#endif
    printf("%-48s %10s %10s\n", "", "libpil", "model");
    for (unsigned i = 0; i < sizeof works / sizeof *works; i++)
        well &= measure(&works[i], both);
    for (unsigned i = 0; i < sizeof walks / sizeof *walks; i++)
        well &= measure(&walks[i], both);
    if (argc == 4)
        well &= measure_listers(argv + 1, argv[3]);
    printf("%-48s %10s %10s\n", "libpil's walk against its put, hops and take", ways[0].name, ways[1].name);
    for (unsigned i = 0; i < sizeof walks / sizeof *walks; i++)
        well &= measure(&walks[i], ways);
    return well ? 0 : 1;
}
