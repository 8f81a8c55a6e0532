/* The tables of polls.h: what a command tells, what an answer is, and what a count has to be. */
#include "polls.h"

const char *const tellers[TELLERS] = {"PPE at a listener", "PPE at no listener", "PPD at a listener",
                                      "PPD at no listener", "PPU", "IFC", "DCL"};

/* What becomes of byte 22 where a device can be polled: it keeps it, is told it, or forgets it. */
enum after { KEEPS, IS_TOLD, FORGETS };

static const enum after after[TELLERS + 1] = {
    [PPE_LISTENER] = IS_TOLD, [PPE_OTHER] = KEEPS, [PPD_LISTENER] = FORGETS, [PPD_OTHER] = KEEPS,
    [PPU_ALL] = FORGETS, [IFC_ALL] = KEEPS, [DCL_ALL] = KEEPS, [TELLERS] = KEEPS
};

/* The bit by BBB, and whether it is made a one by S and the status. */
static const uint8_t bits[DATA_BITS] = {0x01, 0x02, 0x04, 0x08, 0x10, 0x20, 0x40, 0x80};
static const uint8_t made_one[2][2] = {{1, 0}, {0, 1}};

enum polled polled(const uint8_t *record)
{
    if (record[PIL_RECORD_MORE] % 2 == 0)
        return UNABLE;
    return (enum polled)((record[PIL_RECORD_POLL] ? TOLD : UNTOLD) + record[PIL_RECORD_POLL_STATUS]);
}

enum teller teller(const uint8_t *record, unsigned frame)
{
    int listener = record[PIL_RECORD_LISTENER];

    if (frame >= FIRST_PPE && frame < FIRST_PPE + PPES)
        return listener ? PPE_LISTENER : PPE_OTHER;
    switch (frame) {
    case 0x405: return listener ? PPD_LISTENER : PPD_OTHER;
    case 0x414: return DCL_ALL;
    case 0x415: return PPU_ALL;
    case 0x490: return IFC_ALL;
    default: return TELLERS;
    }
}

unsigned told_after(const uint8_t *record, unsigned frame)
{
    if (polled(record) == UNABLE)
        return 0;
    switch (after[teller(record, frame)]) {
    case IS_TOLD: return 16 + frame - FIRST_PPE;
    case FORGETS: return 0;
    default: return record[PIL_RECORD_POLL];
    }
}

unsigned answer_bit(const uint8_t *record)
{
    return bits[record[PIL_RECORD_POLL] % DATA_BITS];
}

unsigned idy_after(const uint8_t *record, unsigned frame)
{
    unsigned sense = record[PIL_RECORD_POLL] / DATA_BITS % 2;

    if (record[PIL_RECORD_SERVICE] == PIL_SERVICE_ASKING)
        frame |= PIL_C1;
    if (polled(record) >= TOLD && made_one[sense][record[PIL_RECORD_POLL_STATUS]])
        frame |= answer_bit(record);
    return frame;
}

/* The lowest one has only zeros below it, and without it there is one fewer: the IDY of no ones settles the others. */
int counted_right(uint64_t number, struct pil_polled count, struct pil_polled fewer)
{
    if (number < FIRST_IDY || number >= PIL_FRAMES)
        return count.refusal == PIL_BAD_FRAME && count.ones == 0 && count.lowest == 0;
    if (count.refusal != PIL_ACCEPTED)
        return 0;
    if (number % 256 == 0)
        return count.ones == 0 && count.lowest == PIL_NO_BIT;
    return count.lowest < DATA_BITS && number % (2u * bits[count.lowest]) == bits[count.lowest]
        && fewer.refusal == PIL_ACCEPTED && count.ones == fewer.ones + 1;
}
