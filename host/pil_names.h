#ifndef PIL_NAMES_H
#define PIL_NAMES_H

/* Names for the numbers of pil.h: each array is indexed by such a number. */

/* Mnemonics of kinds, PIL_KIND_NONE to PIL_KIND_IDY. */
static const char *const pil_kind_names[43] = {
    "---",
    "DAB",
    "END",
    "NUL",
    "GTL",
    "SDC",
    "PPD",
    "GET",
    "LLO",
    "DCL",
    "PPU",
    "EAR",
    "LAD",
    "UNL",
    "TAD",
    "UNT",
    "SAD",
    "PPE",
    "IFC",
    "REN",
    "NRE",
    "AAU",
    "LPD",
    "DDL",
    "DDT",
    "RFC",
    "ETO",
    "ETE",
    "NRD",
    "SDA",
    "SST",
    "SDI",
    "SAI",
    "TCT",
    "AAD",
    "IAA",
    "AEP",
    "IEP",
    "AES",
    "IES",
    "AMP",
    "IMP",
    "IDY",
};

/* Refusals, PIL_ACCEPTED to PIL_BAD_SAVE. */
static const char *const pil_refusal_texts[11] = {
    "accepted",
    "shape: lengths do not fit, or no set-up yet",
    "unsound: the area, an item or a choice breaks a rule",
    "no device: its number is too high",
    "bad frame: no such frame, kind, offset or C1, or no IDY",
    "empty: no frame to take",
    "full: no room for a frame",
    "no ability: the device cannot do that",
    "too long: more than 32 bytes",
    "busy: the device is sending data",
    "bad save: no saved loop, or not all of one",
};

/* Why a drain stopped, PIL_STOP_NO_HOP to PIL_STOP_EVENT. */
static const char *const pil_stop_texts[4] = {
    "no hop possible",
    "budget spent",
    "byte handed",
    "clear or trigger",
};

/* Assignment states, PIL_UNCONFIGURED to PIL_HALF_ASSIGNED. */
static const char *const pil_assignment_texts[3] = {
    "unconfigured",
    "configured",
    "half assigned",
};

/* Talker states, PIL_TALKER_IDLE to PIL_TALKER_ACCESSORY. */
static const char *const pil_talker_texts[6] = {
    "idle",
    "addressed",
    "sending data",
    "sending status",
    "sending device ID",
    "sending accessory ID",
};

/* Service states, PIL_SERVICE_NONE to PIL_SERVICE_POLLED. */
static const char *const pil_service_texts[3] = {
    "none",
    "asking",
    "polled",
};

/* Remote and local, PIL_LOCAL to PIL_REMOTE_LOCKED. */
static const char *const pil_remote_texts[4] = {
    "local",
    "remote",
    "local locked",
    "remote locked",
};

/* Events, PIL_EVENT_NONE to PIL_EVENT_TRIGGER. */
static const char *const pil_event_texts[3] = {
    "none",
    "clear",
    "trigger",
};

#endif
