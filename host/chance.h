/* What random histories are made of: numbers from a seed, set-up items, frames that a controller would send, and
   sound areas made up byte by byte. */
#ifndef CHANCE_H
#define CHANCE_H

#include "pil.h"

void chance_seed(uint64_t seed);
uint64_t chance(void);
/* A number below n, for n of 1 or more. */
unsigned below(unsigned n);
/* True once in n times. */
int one_in(unsigned n);
void chance_bytes(uint8_t *bytes, size_t length);

/* A number that is likely to be out of range, to wrap or to look like good when its high bytes are cut off. */
uint64_t wild_number(uint64_t good);
/* What a damaged byte becomes: near the good one, at a limit of some field, or any. */
uint8_t damaged_value(uint8_t good);
/* A number of devices: mostly few, sometimes any or the most. */
unsigned chance_devices(void);
/* One of the lengths that an item can have. */
size_t chance_item_length(void);
/* Items of that length for n devices, all allowed. */
void chance_items(uint8_t *items, unsigned n, size_t length);
/* Makes an allowed item of that length one that is not. */
void spoil_item(uint8_t *item, size_t length);
/* Gives the record of a device that can be polled any configuration and poll status. */
void chance_poll(uint8_t *record);
/* Gives the record of an extended device any assignment, addresses and primaries received. */
void chance_assigned(uint8_t *record);
/* Makes the record a sound one of an extended device, in any state. */
void chance_extended(uint8_t *record);
/* Fills the area of n devices with sound records and links in any states. */
void chance_sound_area(uint8_t *area, unsigned n);
/* The frame in two bytes of a record or a link. */
unsigned frame_at(const uint8_t *bytes);
/* A frame for a device that stands so, mostly an extended one, by a script and the step in it: both halves of
   addresses, commands between these, assignments, and talks. */
enum { SCRIPTS = 8, STEPS = 4 };
unsigned chance_script_frame(const uint8_t *record, unsigned script, unsigned step);
/* A frame for link 0: often the frame taken last, come round, and otherwise what suits the devices' states. */
unsigned chance_frame(const uint8_t *area, unsigned taken);

#endif
