/* Parallel polls as tables (02, f; 001, 2.12 and note 5 of its message table), for checks that need no model. */
#ifndef POLLS_H
#define POLLS_H

#include "pil.h"

enum { PPES = 16, FIRST_PPE = 0x480, FIRST_IDY = 0x600, DATA_BITS = 8 };

/* What tells a device how to answer, and what might be taken for it: PPE and PPD where it is no listener, IFC, DCL. */
enum teller { PPE_LISTENER, PPE_OTHER, PPD_LISTENER, PPD_OTHER, PPU_ALL, IFC_ALL, DCL_ALL, TELLERS };

extern const char *const tellers[TELLERS];

/* How a device stands: it cannot be polled; or it is not told how to answer, or told, each with status no or yes. */
enum polled { UNABLE, UNTOLD, UNTOLD_YES, TOLD, TOLD_YES, POLLEDS };

/* The record is a sound one, here and below. */
enum polled polled(const uint8_t *record);
/* What the frame is to the device; TELLERS if it tells nothing of polls. */
enum teller teller(const uint8_t *record, unsigned frame);
/* Byte 22 after the device has taken the frame. */
unsigned told_after(const uint8_t *record, unsigned frame);
/* The data bit on which a device that is told answers. */
unsigned answer_bit(const uint8_t *record);
/* The frame that the device sends for an IDY. */
unsigned idy_after(const uint8_t *record, unsigned frame);
/* Whether a poll count answers this to the number; fewer is the answer to the number less its lowest one. */
int counted_right(uint64_t number, struct pil_polled count, struct pil_polled fewer);

#endif
