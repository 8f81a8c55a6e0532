/* An independent model of the papers 01 and 02 in plain C: the calls of pil.h under names of its own, over the same
   area, and the lister. Compiled with MODEL_FAULT 1 to 265 it has a deliberate fault, for checks of the comparison. */
#ifndef MODEL_H
#define MODEL_H

#include "pil.h"

uint8_t model_set_up(uint8_t *area, size_t area_len, const uint8_t *items, size_t items_len);
uint8_t model_put(uint8_t *area, size_t area_len, uint64_t frame);
struct pil_hopped model_hop(uint8_t *area, size_t area_len, uint64_t device);
struct pil_taken model_take(uint8_t *area, size_t area_len);
uint8_t model_load(uint8_t *area, size_t area_len, uint64_t device, const uint8_t *bytes, size_t bytes_len,
                   uint64_t end);
uint8_t model_load_end(uint8_t *area, size_t area_len, uint64_t device, const uint8_t *bytes, size_t bytes_len);
uint8_t model_status(uint8_t *area, size_t area_len, uint64_t device, uint8_t status);
uint8_t model_wish(uint8_t *area, size_t area_len, uint64_t device, uint64_t wish);
uint8_t model_key(uint8_t *area, size_t area_len, uint64_t device);
uint8_t model_poll_status(uint8_t *area, size_t area_len, uint64_t device, uint64_t status);
struct pil_drained model_drain(uint8_t *area, size_t area_len, uint64_t budget);
struct pil_owing model_owed(const uint8_t *area, size_t area_len);
struct pil_walked model_walk(uint8_t *records, size_t records_len, uint64_t frame, uint8_t *told, size_t told_len);
uint8_t model_save(const uint8_t *area, size_t area_len, uint8_t *save, size_t save_len);
uint8_t model_open(uint8_t *area, size_t area_len, const uint8_t *save, size_t save_len);
struct pil_decoded model_decode(uint64_t frame);
struct pil_encoded model_encode(uint64_t kind, uint64_t offset, uint64_t c1);
struct pil_polled model_poll_count(uint64_t frame);

enum {
    MODEL_MOST_TEXT = 60000,   /* longest text that the lister reads */
    MODEL_MOST_LISTED = MODEL_MOST_TEXT / 4 * (16 * PIL_MOST_DEVICES + 16) /* room for what it prints: a line for each
                                                                              frame and for each byte handed */
};

/* Lists the text into out, which has MODEL_MOST_LISTED bytes, and gives the length written. */
size_t model_list(const char *text, size_t length, char *out);

#endif
