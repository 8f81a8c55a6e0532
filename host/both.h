/* The calls of libpil and of the model side by side, so that one piece of code can drive either. */
#ifndef BOTH_H
#define BOTH_H

#include "model.h"
#include "pil.h"

struct calls {
    const char *name;
    uint8_t (*set_up)(uint8_t *, size_t, const uint8_t *, size_t);
    uint8_t (*put)(uint8_t *, size_t, uint64_t);
    struct pil_hopped (*hop)(uint8_t *, size_t, uint64_t);
    struct pil_taken (*take)(uint8_t *, size_t);
    uint8_t (*load)(uint8_t *, size_t, uint64_t, const uint8_t *, size_t, uint64_t);
    uint8_t (*load_end)(uint8_t *, size_t, uint64_t, const uint8_t *, size_t);
    uint8_t (*status)(uint8_t *, size_t, uint64_t, uint8_t);
    uint8_t (*wish)(uint8_t *, size_t, uint64_t, uint64_t);
    uint8_t (*key)(uint8_t *, size_t, uint64_t);
    uint8_t (*poll_status)(uint8_t *, size_t, uint64_t, uint64_t);
    struct pil_drained (*drain)(uint8_t *, size_t, uint64_t);
    struct pil_owing (*owed)(const uint8_t *, size_t);
    struct pil_walked (*walk)(uint8_t *, size_t, uint64_t, uint8_t *, size_t);
    uint8_t (*save)(const uint8_t *, size_t, uint8_t *, size_t);
    uint8_t (*open)(uint8_t *, size_t, const uint8_t *, size_t);
    struct pil_decoded (*decode)(uint64_t);
    struct pil_encoded (*encode)(uint64_t, uint64_t, uint64_t);
    struct pil_polled (*poll_count)(uint64_t);
};

static const struct calls both[2] = {
    {"pil", pil_set_up, pil_put, pil_hop, pil_take, pil_load, pil_load_end, pil_status, pil_wish, pil_key,
     pil_poll_status, pil_drain, pil_owed, pil_walk, pil_save, pil_open, pil_decode, pil_encode, pil_poll_count},
    {"model", model_set_up, model_put, model_hop, model_take, model_load, model_load_end, model_status, model_wish,
     model_key, model_poll_status, model_drain, model_owed, model_walk, model_save, model_open, model_decode,
     model_encode, model_poll_count},
};

#endif
