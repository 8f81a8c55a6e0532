/* The C interface of the loop model: the calls of libpil.a, the numbers they answer, and the layout of the area
   that a bench lends to them. Every number of this file but the version is fixed by the papers 01 and 02; what devices
   do with frames is told in docs/RULES.md of the repository, and pil_names.h has names of kinds, refusals, stops,
   states and events. For C99 and C++.

   A call allocates nothing and keeps nothing outside the area that it is lent: a copy of the area's bytes is a copy of
   the loop, and different areas may be used by different threads at once (one area by one thread at a time). An area
   needs no alignment, and libpil.a no function but memset. A loop is put away as a save, the same bytes on every
   machine, and opened again another day. */
#ifndef PIL_H
#define PIL_H

#include <stddef.h>
#include <stdint.h>

/* The version: the first number rises where a bench has to be changed or compiled anew, the second where something is
   added. */
#define PIL_VERSION_MAJOR 4
#define PIL_VERSION_MINOR 3
#define PIL_VERSION_PATCH 0
#define PIL_VERSION (PIL_VERSION_MAJOR * 10000 + PIL_VERSION_MINOR * 100 + PIL_VERSION_PATCH)

#ifdef __cplusplus
extern "C" {
#endif

/* Refusals. A refused call answers its refusal and zeros and alters nothing; the smallest that holds is given, but at
   opening 10 before 1 and 2. */
enum {
    PIL_ACCEPTED = 0,   /* no refusal */
    PIL_SHAPE = 1,      /* the area's length is that of no loop or, but at set-up and opening, not that of its byte 0,
                           as where it was not set up or opened yet; at set-up items of none of 12, 13 and 14 bytes
                           a device, at saving an output of another length; at opening an area of another length than
                           the saved loop's; at a walk records whose length is that of no loop's records or not that of
                           their byte 0, or another length of what is told than theirs asks for */
    PIL_UNSOUND = 2,    /* the area's contents break a rule of "What is sound" below; at set-up an item does, at opening
                           the saved contents do, at a walk header or records do; a load's choice is not 0 or 1; in a
                           save made before version 3 byte 19 of a record (PIL_RECORD_END) is not zero */
    PIL_NO_DEVICE = 3,  /* the device number is the number of devices or more */
    PIL_BAD_FRAME = 4,  /* a frame over 2,047, at a walk too; a kind or offset outside the message table, a C1 that is
                           not 0 or 1, or a C1 of 1 on a kind without one; at a poll count, any number that is no IDY */
    PIL_EMPTY = 5,      /* the link to take from holds no frame */
    PIL_FULL = 6,       /* the link to add to holds four frames */
    PIL_NO_ABILITY = 7, /* the device lacks the ability: data for a load, status for a status, service request for a
                           wish, also for wish 0, and parallel poll for a poll status, also for 0 */
    PIL_TOO_LONG = 8,   /* a load of more than 32 bytes */
    PIL_BUSY = 9,       /* a load while the device is sending data (talker state 2) */
    PIL_BAD_SAVE = 10   /* at opening, no save: a body of a wrong kind, at a wrong place or of a wrong length, bytes
                           missing at the end or left over, a number of devices that no loop has, or an edition that is
                           not 0 or 1 */
};

/* Why a drain stopped. A refused drain answers 0 here as well: look at its refusal first. */
enum {
    PIL_STOP_NO_HOP = 0, /* no device can hop. Then the links before the tail are empty, or the tail is full and frames
                            wait for it: take some, and drain again */
    PIL_STOP_BUDGET = 1, /* the budget is spent, and a hop is still possible */
    PIL_STOP_HANDED = 2, /* the last hop handed a byte; the answer names device, byte and end bit. The frame has gone on
                            into the next link all the same */
    PIL_STOP_EVENT = 3   /* the last hop reported a clear or trigger; the answer names the device and, as the byte,
                            which of them. The frame has gone on here too */
};

/* What a hop reports, and a walk tells, besides a byte handed. It alters nothing in the record: what a device does when
   it is cleared or triggered is the bench's part. (DCL, SDC and GET are commands like others to an extended device that
   waits for its SAD.) */
enum {
    PIL_EVENT_NONE = 0,   /* nothing of the kind */
    PIL_EVENT_CLEAR = 1,  /* the device is cleared: at every DCL, at SDC if it is a listener */
    PIL_EVENT_TRIGGER = 2 /* the device is triggered: at GET if it is a listener */
};

/* Kinds of frame: the messages of the loop, by their codes. The number of a message, as 0-30, is its offset. */
enum {
    PIL_KIND_NONE = 0,  /* no message */
    PIL_KIND_DAB = 1,   /* 000-1ff data byte */
    PIL_KIND_END = 2,   /* 200-3ff data byte with the end bit */
    PIL_KIND_NUL = 3,   /* 400 null command */
    PIL_KIND_GTL = 4,   /* 401 go to local */
    PIL_KIND_SDC = 5,   /* 404 selected device clear */
    PIL_KIND_PPD = 6,   /* 405 parallel poll disable */
    PIL_KIND_GET = 7,   /* 408 group execute trigger */
    PIL_KIND_LLO = 8,   /* 411 local lockout */
    PIL_KIND_DCL = 9,   /* 414 device clear */
    PIL_KIND_PPU = 10,  /* 415 parallel poll unconfigure */
    PIL_KIND_EAR = 11,  /* 418 enable asynchronous requests */
    PIL_KIND_LAD = 12,  /* 420-43e listen address 0-30 */
    PIL_KIND_UNL = 13,  /* 43f unlisten */
    PIL_KIND_TAD = 14,  /* 440-45e talk address 0-30 */
    PIL_KIND_UNT = 15,  /* 45f untalk */
    PIL_KIND_SAD = 16,  /* 460-47e secondary address 0-30 */
    PIL_KIND_PPE = 17,  /* 480-48f parallel poll enable 0-15 */
    PIL_KIND_IFC = 18,  /* 490 interface clear */
    PIL_KIND_REN = 19,  /* 492 remote enable */
    PIL_KIND_NRE = 20,  /* 493 not remote enable */
    PIL_KIND_AAU = 21,  /* 49a auto address unconfigure */
    PIL_KIND_LPD = 22,  /* 49b loop power down */
    PIL_KIND_DDL = 23,  /* 4a0-4bf device dependent listener 0-31 */
    PIL_KIND_DDT = 24,  /* 4c0-4df device dependent talker 0-31 */
    PIL_KIND_RFC = 25,  /* 500 ready for command */
    PIL_KIND_ETO = 26,  /* 540 end of transmission, all well */
    PIL_KIND_ETE = 27,  /* 541 end of transmission, error */
    PIL_KIND_NRD = 28,  /* 542 not ready for data */
    PIL_KIND_SDA = 29,  /* 560 send data */
    PIL_KIND_SST = 30,  /* 561 send status */
    PIL_KIND_SDI = 31,  /* 562 send device ID */
    PIL_KIND_SAI = 32,  /* 563 send accessory ID */
    PIL_KIND_TCT = 33,  /* 564 take control */
    PIL_KIND_AAD = 34,  /* 580-59e auto address 0-30 */
    PIL_KIND_IAA = 35,  /* 59f illegal auto address */
    PIL_KIND_AEP = 36,  /* 5a0-5be auto extended primary 0-30 */
    PIL_KIND_IEP = 37,  /* 5bf illegal extended primary */
    PIL_KIND_AES = 38,  /* 5c0-5de auto extended secondary 0-30 */
    PIL_KIND_IES = 39,  /* 5df illegal extended secondary */
    PIL_KIND_AMP = 40,  /* 5e0-5fe auto multiple primary 0-30 */
    PIL_KIND_IMP = 41,  /* 5ff illegal multiple primary */
    PIL_KIND_IDY = 42,  /* 600-7ff identify */
    PIL_KINDS = 43      /* how many kinds there are, 0 among them */
};

/* Parts of a frame. */
enum {
    PIL_FRAMES = 2048,     /* how many frames there are: 0 to 2,047 */
    PIL_DATA_BITS = 0x0ff, /* data bits D8 to D1 */
    PIL_C1 = 0x100,        /* control bit C1: service asked for, in DAB, END and IDY */
    PIL_C2 = 0x200,        /* control bit C2: the end bit of a data byte */
    PIL_C3 = 0x400         /* control bit C3: 0 in data bytes, DAB and END, and in nothing else */
};

/* Limits and lengths, in bytes where not said otherwise. */
enum {
    PIL_MOST_DEVICES = 31,         /* devices of the longest loop */
    PIL_LINK_DEPTH = 4,            /* frames that a link holds */
    PIL_MOST_ID = 8,               /* longest device ID */
    PIL_MOST_DATA = 32,            /* longest load */
    PIL_NO_ADDRESS = 31,           /* the address that no LAD, TAD or SAD names */
    PIL_NO_BIT = 8,                /* the number of the lowest one where all eight data bits are zero */
    PIL_ITEM_LENGTH = 12,          /* a device's set-up item, */
    PIL_POLL_ITEM_LENGTH = 13,     /* one that gives further abilities too, */
    PIL_EXTENDED_ITEM_LENGTH = 14, /* and one that gives these and a fixed second address */
    PIL_HEADER_LENGTH = 8,         /* the area's header */
    PIL_RECORD_LENGTH = 64,        /* a device's record */
    PIL_LINK_LENGTH = 10,          /* a link */
    PIL_TOLD_EACH = 4,             /* what a walk tells of each device */
    PIL_SAVE_HEAD_LENGTH = 6       /* what stands before each body in a save */
};

/* The area of n devices: header, n records, n + 1 links; link i feeds device i and the last link is the tail. */
#define PIL_AREA_LENGTH(n) (PIL_LINK_AT(n, 0) + PIL_LINK_LENGTH * ((size_t)(n) + 1))
/* Where device i's record begins. */
#define PIL_RECORD_AT(i) (PIL_HEADER_LENGTH + PIL_RECORD_LENGTH * (size_t)(i))
/* Where link i of a loop of n devices begins. */
#define PIL_LINK_AT(n, i) (PIL_RECORD_AT(n) + PIL_LINK_LENGTH * (size_t)(i))
/* Header and records of n devices, the area's first part, which is all that a walk is lent of it. */
#define PIL_RECORDS_LENGTH(n) PIL_RECORD_AT(n)
/* The length of what a walk tells of n devices, and where it tells of device i. */
#define PIL_TOLD_LENGTH(n) (PIL_TOLD_EACH * (size_t)(n))
#define PIL_TOLD_AT(i) (PIL_TOLD_EACH * (size_t)(i))
/* The length of n devices' set-up items, and where device i's item begins. */
#define PIL_ITEMS_LENGTH(n) (PIL_ITEM_LENGTH * (size_t)(n))
#define PIL_ITEM_AT(i) (PIL_ITEM_LENGTH * (size_t)(i))
/* The same of items that give further abilities; in one set-up all items have one length. */
#define PIL_POLL_ITEMS_LENGTH(n) (PIL_POLL_ITEM_LENGTH * (size_t)(n))
#define PIL_POLL_ITEM_AT(i) (PIL_POLL_ITEM_LENGTH * (size_t)(i))
/* And of items that give a fixed second address as well. */
#define PIL_EXTENDED_ITEMS_LENGTH(n) (PIL_EXTENDED_ITEM_LENGTH * (size_t)(n))
#define PIL_EXTENDED_ITEM_AT(i) (PIL_EXTENDED_ITEM_LENGTH * (size_t)(i))

/* The save of n devices: header, n records and n + 1 links as they stand in the area, each a body behind a head; but
   in the header's byte 1, zero in the area, a save tells its edition. */
#define PIL_SAVE_LENGTH(n) PIL_SAVE_LINK_AT(n, (size_t)(n) + 1)
/* Where the head of device i's record begins in a save, and that of link i of n devices. The header's is at 0. */
#define PIL_SAVE_RECORD_AT(i) \
    (PIL_SAVE_HEAD_LENGTH + PIL_HEADER_LENGTH + (PIL_SAVE_HEAD_LENGTH + PIL_RECORD_LENGTH) * (size_t)(i))
#define PIL_SAVE_LINK_AT(n, i) (PIL_SAVE_RECORD_AT(n) + (PIL_SAVE_HEAD_LENGTH + PIL_LINK_LENGTH) * (size_t)(i))

/* Abilities: bits of an item's and a record's first byte. */
enum {
    PIL_ABILITY_LISTEN = 1,        /* takes data bytes as a listener */
    PIL_ABILITY_DATA = 2,          /* sends data when asked by SDA */
    PIL_ABILITY_STATUS = 4,        /* sends its status when asked by SST */
    PIL_ABILITY_ID = 8,            /* sends its device ID when asked by SDI */
    PIL_ABILITY_ACCESSORY = 16,    /* sends its accessory ID when asked by SAI */
    PIL_ABILITY_AUTO_ADDRESS = 32, /* takes an address from AAD; at AAU its fixed address is its address again. Not in
                                      an extended device */
    PIL_ABILITY_UNADDRESS = 64,    /* own LAD ends its talking and own TAD its listening, in an extended device the SAD
                                      behind them; needs listen, and at least one of data, status, ID and accessory */
    PIL_ABILITY_SERVICE = 128      /* may ask for service; needs status */
};

/* Further abilities: bits of a longer item's thirteenth byte and of a record's byte 7. */
enum {
    PIL_MORE_POLL = 1,    /* answers parallel polls, once a PPE has told it how. It needs no other ability, but a PPE
                             tells only listeners */
    PIL_MORE_EXTENDED = 2 /* is an extended device, with a primary and a second address: its own LAD or TAD and then,
                             with no other command between, its own SAD make it listener or talker; AES and AEP assign
                             the two. Not together with auto address. Other devices let SAD, AES and AEP go by */
};

/* Offsets in a set-up item. */
enum {
    PIL_ITEM_ABILITIES = 0, /* abilities */
    PIL_ITEM_FIXED = 1,     /* fixed address 0-30, 31 for none */
    PIL_ITEM_ACCESSORY = 2, /* accessory ID */
    PIL_ITEM_ID_LENGTH = 3, /* length of the device ID, 0-8 */
    PIL_ITEM_ID = 4,        /* eight bytes: the device ID, zero past its length */
    PIL_ITEM_MORE = 12,     /* further abilities, in an item of 13 or 14 bytes; one of 12 has none */
    PIL_ITEM_SECOND = 13    /* fixed second address 0-30, 31 for none, in an item of 14 bytes; a shorter one means 0,
                               and a device that is not extended has 0 */
};

/* Offsets in the header. */
enum {
    PIL_HEADER_DEVICES = 0, /* number of devices */
    PIL_HEADER_ZEROS = 1    /* seven zero bytes */
};

/* Offsets in a record. */
enum {
    PIL_RECORD_ABILITIES = 0,     /* abilities */
    PIL_RECORD_FIXED = 1,         /* fixed address 0-30, 31 for none */
    PIL_RECORD_ADDRESS = 2,       /* address now, 0-31 */
    PIL_RECORD_CONFIGURED = 3,    /* assignment state: whether AAD, or AES and AEP, gave it its address */
    PIL_RECORD_LISTENER = 4,      /* 1 if listener, else 0 */
    PIL_RECORD_TALKER = 5,        /* talker state */
    PIL_RECORD_SERVICE = 6,       /* service state */
    PIL_RECORD_MORE = 7,          /* further abilities, 0-3 */
    PIL_RECORD_ZERO = 7,          /* its name before 4.1, when it was zero */
    PIL_RECORD_NRD = 8,           /* 1 if NRD was seen while sending, else 0 */
    PIL_RECORD_STATUS = 9,        /* status byte */
    PIL_RECORD_ACCESSORY = 10,    /* accessory ID */
    PIL_RECORD_ID_LENGTH = 11,    /* length of the device ID, 0-8 */
    PIL_RECORD_DATA_LENGTH = 12,  /* length of the data, 0-32 */
    PIL_RECORD_SENT = 13,         /* bytes of the data already sent, a damaged one among them */
    PIL_RECORD_LAST = 14,         /* while sending, the reply's last byte as the frame sent: two bytes, little-endian */
    PIL_RECORD_REPLY_SENT = 16,   /* bytes of a status or ID reply already sent */
    PIL_RECORD_REMOTE = 17,       /* remote and local, 0-3 */
    PIL_RECORD_ENABLED = 18,      /* 1 if remote control is enabled, by REN and till NRE, else 0 */
    PIL_RECORD_END = 19,          /* how the last byte of the data goes out: 0 plain, 1 END */
    PIL_RECORD_FIXED_SECOND = 20, /* of an extended device: fixed second address 0-30, 31 for none, in the low five
                                     bits, and its listen primary received or not. Zero in any other */
    PIL_RECORD_SECOND = 21,       /* of an extended device: second address now, 0-31, in the low five bits, and its
                                     talk primary received or not. Zero in any other */
    PIL_RECORD_ZEROS = 20,        /* name of these two before 4.2, when they were zero */
    PIL_RECORD_POLL = 22,         /* how it answers parallel polls: 0 not at all, 16-31 as a PPE told it */
    PIL_RECORD_POLL_STATUS = 23,  /* poll status: 1 for yes, 0 for no */
    PIL_RECORD_ID = 24,           /* eight bytes: the device ID, zero past its length */
    PIL_RECORD_DATA = 32          /* thirty-two bytes: the data, zero past its length */
};

/* Offsets in a link. */
enum {
    PIL_LINK_COUNT = 0, /* frames that the link holds, 0-4 */
    PIL_LINK_ZERO = 1,  /* zero byte */
    PIL_LINK_FRAMES = 2 /* four frames of two bytes, little-endian, oldest first, unused ones zero */
};

/* Offsets in what a walk tells of a device: what a hop of it answers under the same names. */
enum {
    PIL_TOLD_HANDED = 0, /* 1 if the device was handed a byte, else 0 */
    PIL_TOLD_BYTE = 1,   /* the byte handed, else 0 */
    PIL_TOLD_END = 2,    /* its end bit, else 0 */
    PIL_TOLD_EVENT = 3   /* whether the device is cleared or triggered: PIL_EVENT_NONE to PIL_EVENT_TRIGGER */
};

/* Offsets in a head of a save; the body stands behind it. */
enum {
    PIL_SAVE_BODY_LENGTH = 0, /* the body's length: four bytes, little-endian */
    PIL_SAVE_KIND = 4         /* the body's kind: two bytes, little-endian */
};

/* The edition of a save, which tells how it was written. */
enum {
    PIL_SAVE_EDITION = PIL_SAVE_HEAD_LENGTH + 1, /* its place in a save: the header's byte 1 */
    PIL_EDITION_OLD = 0, /* before version 3: byte 19 (PIL_RECORD_END) is zero in each record, and all data ended in an
                            END */
    PIL_EDITION_NOW = 1  /* since then */
};

/* Kinds of a save's bodies. */
enum {
    PIL_SAVED_HEADER = 1, /* the area's header, once and first */
    PIL_SAVED_RECORD = 2, /* then each device's record, in order */
    PIL_SAVED_LINK = 3    /* then each link, in order */
};

/* Assignment states: a record's byte 3. AAU leads back to the first of them. */
enum {
    PIL_UNCONFIGURED = 0, /* at its fixed address or addresses */
    PIL_CONFIGURED = 1,   /* at the address that AAD gave it, or at the two that AES and AEP gave it */
    PIL_HALF_ASSIGNED = 2 /* of an extended device alone: AES gave it its second address, and it waits for AEP. At 31,
                             which no AES gives, it would wait for AAU */
};

/* Parts of a record's bytes 20 and 21, where the device is extended. */
enum {
    PIL_SECOND_ADDRESS = 31,  /* mask: a second address, fixed in byte 20, now in byte 21 */
    PIL_PRIMARY_RECEIVED = 32 /* set since its own LAD (in byte 20) or own TAD (in byte 21), with the ability for it,
                                 till a command that is neither that one again nor its own SAD */
};

/* Talker states: a record's byte 5. */
enum {
    PIL_TALKER_IDLE = 0,      /* not addressed to talk */
    PIL_TALKER_ADDRESSED = 1, /* addressed to talk, not sending */
    PIL_TALKER_DATA = 2,      /* sending data */
    PIL_TALKER_STATUS = 3,    /* sending its status */
    PIL_TALKER_ID = 4,        /* sending its device ID */
    PIL_TALKER_ACCESSORY = 5  /* sending its accessory ID */
};

/* Service states: a record's byte 6. */
enum {
    PIL_SERVICE_NONE = 0,   /* asks for nothing */
    PIL_SERVICE_ASKING = 1, /* asks for service: sets C1 in each DAB, END and IDY it sends */
    PIL_SERVICE_POLLED = 2  /* has sent its status since it asked */
};

/* Remote and local: a record's byte 17. A device hears and talks alike in all of these; what it obeys is the bench's
   part. */
enum {
    PIL_LOCAL = 0,        /* the panel has control, as at power-on */
    PIL_REMOTE = 1,       /* the loop has control, after REN and the device's own LAD; the panel key takes it back */
    PIL_LOCAL_LOCKED = 2, /* the panel has control, and once remote its key will do nothing */
    PIL_REMOTE_LOCKED = 3 /* the loop has control, and the panel key does nothing. LLO locks, and NRE unlocks */
};

/* How a device answers parallel polls: a record's byte 22. Sense and bit are the parts of a PPE's number too: PPE with
   PIL_POLL_SENSE + 5 has the listeners show a yes on D6. */
enum {
    PIL_POLL_NONE = 0,       /* not at all, as at power-on, after PPU and, at a listener, after PPD */
    PIL_POLL_BIT = 7,        /* mask: the number of its data bit, 0 for D1 to 7 for D8 */
    PIL_POLL_SENSE = 8,      /* set: it makes that bit a one where its poll status is yes, not set: where it is no. Else
                                the bit goes on as it came */
    PIL_POLL_CONFIGURED = 16 /* set since a PPE told it bit and sense */
};

/* How the last byte of the data goes out: a load's choice, and a record's byte 19. */
enum {
    PIL_LAST_PLAIN = 0, /* as a DAB, like the bytes before it */
    PIL_LAST_END = 1    /* as an END */
};

/* What is sound. An area whose length and byte 0 fit is refused with 2 where
   - a value is outside the range given for it above, a zero byte or a byte past a length is not zero, or an unused
     place of a link is not zero;
   - a link holds a frame over 2,047, or a last frame is over 1,023;
   - service request is there without status; unaddress without listen, or with none of data, status, ID, accessory;
   - a device is not configured and its address is not the fixed one; or is configured at 31 or, if it is not extended,
     without auto address. Both addresses of an extended one count here, and half assigned it may have any;
   - auto address is there in an extended device; a device that is not extended is half assigned, or has a byte 20 or 21
     that is not zero;
   - a listener cannot listen, a device that asks or was polled cannot ask for service, one that sends data, status,
     ID or accessory ID cannot send that, or talker state 1 stands with none of data, status, ID, accessory;
   - there is data without the ability for it; more is sent than there is; or data is being sent and none is sent yet;
   - the reply bytes sent are not 1 while status or accessory ID is sent, not 1 to the ID's length while the ID is sent,
     or not 0 otherwise;
   - NRD is noted, or a last frame kept, outside the talker states 2 to 5;
   - how to answer parallel polls, or a poll status of 1, is kept without parallel poll.
   Either choice for the last byte is sound in every record, also where there is no data or no ability for it; and so is
   every state of remote and local, with the enable flag 0 or 1 and whatever the abilities; and, in an extended device,
   either primary received or both, whatever the abilities.
   A walk is lent no links, and refused with 2 where header or records break one of these.
   So damage that breaks a rule gives 2, and any change of byte 0 gives 1: no other count of devices fits the area's
   length. Damage that leaves a sound area is not seen. A record is judged by itself, so that one copied from another
   sound area may take a device's place (example.c exchanges a meter so).
   A set-up item gives 2 where the record that it would become is not sound: a fixed address over 31, an ID length over
   8, an ID that is not zero past its length, service request or unaddress without what they need, a thirteenth byte
   over 3, an extended device with auto address, or a fourteenth byte over 31 or, in a device that is not extended, over
   0. */

/* What a hop answers. */
struct pil_hopped {
    uint16_t frame;  /* the frame sent */
    uint8_t refusal; /* 0 if accepted */
    uint8_t handed;  /* 1 if the device was handed a byte */
    uint8_t byte;    /* the byte handed, else 0 */
    uint8_t end;     /* its end bit, else 0 */
    uint8_t event;   /* whether the device is cleared or triggered: PIL_EVENT_NONE to PIL_EVENT_TRIGGER */
};

/* What a take answers. */
struct pil_taken {
    uint16_t frame;  /* the frame taken out at the tail */
    uint8_t refusal; /* 0 if accepted */
};

/* What a walk answers. What happened at each device on the way is told beside it. */
struct pil_walked {
    uint16_t frame;  /* the frame that came out behind the last device */
    uint8_t refusal; /* 0 if accepted */
};

/* What a drain answers. */
struct pil_drained {
    uint32_t hops;   /* hops made */
    uint8_t refusal; /* 0 if accepted */
    uint8_t reason;  /* why it stopped; 0 if refused */
    uint8_t device;  /* for PIL_STOP_HANDED and PIL_STOP_EVENT the device, else 0 */
    uint8_t byte;    /* for PIL_STOP_HANDED the byte handed, for PIL_STOP_EVENT the event, else 0 */
    uint8_t end;     /* for PIL_STOP_HANDED its end bit, else 0 */
};

/* What pil_owed answers. */
struct pil_owing {
    uint32_t hops;   /* hops still owed */
    uint8_t refusal; /* 0 if accepted */
};

/* What a poll count answers. */
struct pil_polled {
    uint8_t refusal; /* 0 if accepted */
    uint8_t ones;    /* how many of the eight data bits are one */
    uint8_t lowest;  /* the number of the lowest one, 0 for D1 to 7 for D8; PIL_NO_BIT if there is none, 0 if refused */
};

/* What the decoder answers. */
struct pil_decoded {
    uint16_t offset; /* DAB, END, IDY: the data bits; kind 0: 0; others: the frame less the first code of its kind */
    uint8_t refusal; /* 0 if accepted */
    uint8_t kind;    /* the frame's kind */
    uint8_t c1;      /* DAB, END, IDY: control bit C1, service asked for; other kinds have none: 0 */
};

/* What the encoder answers. */
struct pil_encoded {
    uint16_t frame;  /* the frame of that kind, offset and C1 */
    uint8_t refusal; /* 0 if accepted */
};

/* The calls. A uint8_t answer is the refusal; in a struct look at the refusal first, since the frame 0 that a refused
   call answers would be a data byte. Pointers are not null, at length 0 either; items, bytes to load and saves lie
   outside the area, and what a walk tells outside the records. Any number may be passed for a uint64_t. Each call on
   an area but set-up and opening judges the whole of it before it does anything, a walk all that it is lent of it. A
   bench may read the area between calls, and write to it at its own risk: what is not sound is refused, what is sound
   is believed. */

/* Writes the power-on loop of the items' devices into the area, whatever that held. The area's length says how many
   devices there are, PIL_AREA_LENGTH(n) for n, and there are n items, all of PIL_ITEM_LENGTH bytes, all of
   PIL_POLL_ITEM_LENGTH or all of PIL_EXTENDED_ITEM_LENGTH; in each of these a device that needs less has zeros for the
   rest. Gives 1, 2. */
uint8_t pil_set_up(uint8_t *area, size_t area_len, const uint8_t *items, size_t items_len);
/* Puts a frame of any kind into link 0, which feeds device 0. Gives 1, 2, 4, 6. */
uint8_t pil_put(uint8_t *area, size_t area_len, uint64_t frame);
/* Lets the device take its oldest frame and send one into the next link. Gives 1, 2, 3, 5, 6. */
struct pil_hopped pil_hop(uint8_t *area, size_t area_len, uint64_t device);
/* Takes the oldest frame out of the tail. Gives 1, 2, 5. */
struct pil_taken pil_take(uint8_t *area, size_t area_len);
/* Walks a frame of any kind past every device in order, without links: each does with it what it would at a hop, and
   the next one gets what it sent. Lent are header and records, the first PIL_RECORDS_LENGTH(n) bytes of an area or a
   copy of them, which become those after the frame, and PIL_TOLD_LENGTH(n) bytes in which it tells of every device what
   a hop would answer, over whatever they held and with zeros where nothing happened. On a sound area with empty links a
   put, a hop of each device in order and a take come to the same records, bytes handed, events and frame out, and none
   of them is refused with 6. It is written apart from those, as a second witness: to run both, lend it a copy. Frames
   in links are not looked at and stay behind. Leaves all that is lent as it was where it refuses. Gives 1, 2, 4. */
struct pil_walked pil_walk(uint8_t *records, size_t records_len, uint64_t frame, uint8_t *told, size_t told_len);
/* Gives the device new data to send, none of it sent yet; with no bytes the device has nothing to send. The choice end
   says how the last byte goes out, PIL_LAST_PLAIN or PIL_LAST_END, and is kept in the record, with no bytes too; any
   other number gives 2. Refused while it sends data: its talk has to end first (by ETO or ETE, UNT, IFC, any TAD or,
   with unaddress, its own LAD; in an extended device not by its own TAD or LAD but by the SAD behind it). Before
   version 3 there was no choice, and the last byte was an END: a bench of that time calls pil_load_end. Gives 1, 2, 3,
   7, 8, 9. */
uint8_t pil_load(uint8_t *area, size_t area_len, uint64_t device, const uint8_t *bytes, size_t bytes_len, uint64_t end);
/* pil_load with PIL_LAST_END, as for a printer that waits for the end bit. Gives 1, 2, 3, 7, 8, 9. */
uint8_t pil_load_end(uint8_t *area, size_t area_len, uint64_t device, const uint8_t *bytes, size_t bytes_len);
/* Sets the device's status byte. A wish for service sets no bit of it: that is the bench's. Gives 1, 2, 3, 7. */
uint8_t pil_status(uint8_t *area, size_t area_len, uint64_t device, uint8_t status);
/* Has the device ask for service (any wish but 0), or no longer (0). Any wish but 0 leaves a device that asks already,
   or was polled since it asked, as it is: to ask a second time after a poll, wish 0 and then 1. Gives 1, 2, 3, 7. */
uint8_t pil_wish(uint8_t *area, size_t area_len, uint64_t device, uint64_t wish);
/* Presses the device's panel key: PIL_REMOTE becomes PIL_LOCAL, enabled or not. In any other state it does nothing, and
   is accepted all the same. It needs no ability. Gives 1, 2, 3. */
uint8_t pil_key(uint8_t *area, size_t area_len, uint64_t device);
/* Sets the device's poll status, which it shows in the IDYs that pass it once a PPE has told it how: yes for any number
   but 0, no for 0. No frame changes it, nor does a wish or pil_status. Gives 1, 2, 3, 7. */
uint8_t pil_poll_status(uint8_t *area, size_t area_len, uint64_t device, uint64_t status);
/* Hops the highest-numbered device that can hop, again and again, at most budget times. A hop that hands a byte ends it
   at once, with PIL_STOP_HANDED, and one that reports a clear or trigger with PIL_STOP_EVENT, both even if the budget
   is spent; otherwise, before each hop, PIL_STOP_NO_HOP if none is possible, else PIL_STOP_BUDGET if the budget is
   spent. So budget 0 makes no hop and tells whether one is possible, and DCL stops a drain once at every device.
   A budget of what pil_owed answers always suffices, and so does 2n(n + 1). The frames that devices send are not
   answered: they lie in the links, and come out at the tail. Gives 1, 2. */
struct pil_drained pil_drain(uint8_t *area, size_t area_len, uint64_t budget);
/* The hops still owed: for every frame in a link the devices ahead of it, summed. So it is 0 just where the links
   before the tail are empty; above 0 there may be no hop possible before a take, as the tail may be full. An accepted
   put adds n, the number of devices; an accepted hop lowers it by one, a drain by the hops that it answers; an accepted
   set-up makes it 0, an accepted opening what the saved loop owed, and all else leaves it. It is at most 2n(n + 1).
   Gives 1, 2. */
struct pil_owing pil_owed(const uint8_t *area, size_t area_len);
/* Writes the loop into the output as its save, over whatever that held, and leaves the area as it was. The output's
   length is PIL_SAVE_LENGTH(n) for n devices, no more and no less; any other gives 1, where the area is unsound too. A
   sound area has one save, of the edition now, and no other has the same. A libpil before version 3 refuses to open a
   save of this edition, with 2, version 3 one with a device that is enabled or not PIL_LOCAL, any before 4.1 one with a
   device that has further abilities, and 4.1 one with an extended device. Refused, pil_save leaves the output as it
   was. Gives 1, 2. */
uint8_t pil_save(const uint8_t *area, size_t area_len, uint8_t *save, size_t save_len);
/* Writes the saved loop into the area, whatever that held: every byte of it is then that of the area saved, and the
   frames in its links go on from where they were. The area's length is PIL_AREA_LENGTH(n) for the saved number of
   devices, which is save[PIL_SAVE_HEAD_LENGTH] (in a save of any length above that). A save made before version 3
   (PIL_EDITION_OLD) opens too: each device with data gets PIL_LAST_END, as its data ended then, and saved again it is a
   new save. Leaves the save as it was and, refused, the area too. Gives 10, then 1, then 2. */
uint8_t pil_open(uint8_t *area, size_t area_len, const uint8_t *save, size_t save_len);
/* The kind of a frame, 0 where it is no message, its offset in the kind, and C1. Gives 4. */
struct pil_decoded pil_decode(uint64_t frame);
/* The frame of a kind 1-42, an offset in the kind and C1: the one for which pil_decode answers these. DAB, END and IDY
   have offsets 0-255 and C1 0 or 1, the other kinds offsets below the number of their codes and C1 0. Gives 4, as for
   LAD 31: no message has address 31. */
struct pil_encoded pil_encode(uint64_t kind, uint64_t offset, uint64_t c1);
/* What an IDY that came back says: how many of its eight data bits are one, and which is the lowest of these. A bit may
   be one because the IDY was put with it, since no device clears a bit. C1 is not counted. Gives 4. */
struct pil_polled pil_poll_count(uint64_t frame);

#ifdef __cplusplus
}
#endif

#endif
