/* The loops that bench, count and stack measure on, made without a call of libpil: idle ones, and busy ones with full
   records in every talker state. They have as many devices as a loop can, or as LOOP_DEVICES is defined to be. */
#ifndef LOOPS_H
#define LOOPS_H

#include "pil.h"

#ifndef LOOP_DEVICES
#define LOOP_DEVICES PIL_MOST_DEVICES
#endif

enum {
    LOOP_MOST_OWED = 2 * LOOP_DEVICES * (LOOP_DEVICES + 1), /* hops, with all links full */
    LOOP_DRAIN = PIL_LINK_DEPTH * LOOP_DEVICES, /* hops that drain the loops made for it */
    LOOP_LENGTH = PIL_AREA_LENGTH(LOOP_DEVICES), /* bytes of each area here .. */
    LOOP_SAVE_LENGTH = PIL_SAVE_LENGTH(LOOP_DEVICES), /* .. and of its save */
    LOOP_TALKER_STATES = PIL_TALKER_ACCESSORY + 1,
    LOOP_FIRST_BYTE = 0xb8, /* a full record's ID and data, which stand together, count up from this byte .. */
    LOOP_LAST_BYTE = LOOP_FIRST_BYTE + PIL_MOST_ID + PIL_MOST_DATA - 1, /* .. to this one */
    LOOP_OWN_BYTE = LOOP_FIRST_BYTE + PIL_MOST_ID + PIL_MOST_DATA / 2 - 1 /* what a full record that sends data sent */
};

/* Devices at power-on with every ability and no address; links empty. */
void idle_loop(uint8_t *area);
/* Makes the link hold that many frames, the first and then each by the step more than the one before. */
void fill_link(uint8_t *area, unsigned link, unsigned frames, unsigned first, unsigned step);

/* A record with every ability, configured at the address, ID and data of full length and half sent, the data to end in
   an END; no listener. */
void full_record(uint8_t *record, unsigned address, unsigned talker);
/* Full records, the talker states in turn so that the last device is sending data, service mixed; every link holds
   four data bytes, and each byte that comes to a sending device is its own, undamaged. */
void busy_loop(uint8_t *area);
/* The same with one place free in the tail: from the highest device down, each can hop once. */
void busy_loop_to_hop(uint8_t *area);
/* The same with an empty tail: LOOP_DRAIN hops are possible, the highest device's first. */
void busy_loop_to_drain(uint8_t *area);
/* An idle loop whose devices answer parallel polls, told by the PPEs in turn, every third status yes; link 0 holds
   four IDYs. */
void polled_loop(uint8_t *area);
/* The busy and the polled loop for a walk: all links empty. A walk of LOOP_OWN_BYTE is its own byte to the first device
   that sends data, and what that one sends ends another's talk with ETE. */
void busy_loop_to_walk(uint8_t *area);
void polled_loop_to_walk(uint8_t *area);
/* An idle loop of listeners. */
void listening_loop(uint8_t *area);
/* An idle loop of extended devices, each with a second address of its own behind one primary; link 0 holds the TAD of
   that primary and the SAD of the first device, and the same for the last. */
void extended_loop(uint8_t *area);
/* Full records of idle devices, but one in the middle is addressed to talk and has sent nothing; links empty. */
void talker_loop(uint8_t *area);

#endif
