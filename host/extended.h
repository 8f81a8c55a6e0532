/* Extended addresses as tables (02, i; 001, 2.7, 2.8 and 2.15), for checks that need no model. */
#ifndef EXTENDED_H
#define EXTENDED_H

#include "pil.h"

/* What a frame is to an extended device: LAD, TAD and SAD its own, its own without the ability or another's, every
   other command, a code among these that is no message, the ready frames of 2.14 and 2.15, and all else. */
enum called {
    OWN_LAD, UNABLE_LAD, OTHER_LAD, OWN_TAD, UNABLE_TAD, OTHER_TAD, OWN_SAD, OTHER_SAD, GOT_NUL, GOT_GTL, GOT_SDC,
    GOT_PPD, GOT_GET, GOT_LLO, GOT_DCL, GOT_PPU, GOT_EAR, GOT_UNL, GOT_UNT, GOT_PPE, GOT_IFC, GOT_REN, GOT_NRE, GOT_AAU,
    GOT_LPD, GOT_DDL, GOT_DDT, NO_COMMAND, GOT_AES, GOT_IES, GOT_AEP, GOT_IEP, GOT_AAD, GOT_IAA, OTHER_READY, GOT_IDY,
    GOT_DATA, CALLED,
    COMMANDS_CALLED = NO_COMMAND /* those below are commands */
};

extern const char *const called_names[CALLED];

/* The primaries that it has received. */
enum primaries { NO_PRIMARY, LISTEN_PRIMARY, TALK_PRIMARY, BOTH_PRIMARIES, PRIMARIES };

/* How far its addresses are assigned; a half assigned one at 31 waits for AAU. */
enum assigned { UNASSIGNED, ASSIGNED, HALF, HALF_AT_31, ASSIGNEDS };

int is_extended(const uint8_t *record);
/* The record is a sound one of an extended device, here and below. */
enum called called(const uint8_t *record, unsigned frame);
enum primaries primaries(const uint8_t *record);
/* Those whose ability it has. */
enum primaries able_primaries(const uint8_t *record);
enum assigned assigned(const uint8_t *record);
/* Whether a hop that took the frame, found the one record, left the other and sent that frame did with addresses,
   primaries, listener and talker what it must. The record may be a simple device's here, which leaves all of it. */
int addressed_right(const uint8_t *was, const uint8_t *now, unsigned frame, unsigned sent);

#endif
