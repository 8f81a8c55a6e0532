/* Saves made into others for the comparison: with other contents, or into bytes that are no save. */
#ifndef SPOIL_H
#define SPOIL_H

#include "pil.h"

enum { SAVE_ROOM = PIL_SAVE_LENGTH(PIL_MOST_DEVICES + 2) };

struct save {
    uint8_t bytes[SAVE_ROOM];
    size_t length;
};

/* How a save's form is spoilt. */
enum spoilt {
    CUT_SHORT,
    LONGER,
    HEAD_CHANGED,  /* a byte of a head */
    OUT_OF_ORDER,  /* two parts of different kinds have changed places */
    COUNT_CHANGED, /* the header's number of devices, and no other byte */
    COUNT_REFUSED, /* well-formed, but of no or too many devices */
    NO_EDITION,    /* an edition that there is not, and no other byte */
    SPOILINGS
};

/* The number of devices that the save tells. */
unsigned saved_devices(const struct save *s);
/* Where the head of a part begins: part 0 is the header, then the records, then the links, then the end. */
size_t part_at(unsigned devices, unsigned part);
/* Spoils the form of a save, which is no save after it. */
void spoil_form(struct save *s, enum spoilt how);
/* Changes bytes of bodies, or the places of two bodies of one kind: its form stays, and perhaps it is still sound. */
void spoil_contents(struct save *s);

/* The record of a device in a save, which is well-formed. */
uint8_t *saved_record(struct save *s, unsigned device);
/* Makes a new save an old one (02, h), in which every byte 19 is zero; or they are left for a refusal. */
void make_old(struct save *s, int with_choices);
/* Makes an old save the new one that it is opened as. */
void upgrade(struct save *s);

#endif
