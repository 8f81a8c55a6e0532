/* The model's lister as a program: standard input to standard output. With the word "text" and a seed it prints a
   random text for a lister instead, sometimes a wrong one; with "longest" one of 60,000 bytes that is right. */
#include "chance.h"
#include "model.h"

#include <stdio.h>
#include <stdlib.h>
#include <string.h>

static char text[MODEL_MOST_TEXT + 8];
static char out[MODEL_MOST_LISTED];

/* A loop line for the items; its length. */
static size_t print_loop(char *at, const uint8_t *items, unsigned n)
{
    size_t length = (size_t)sprintf(at, "loop");

    for (unsigned i = 0; i < n; i++)
        length += (size_t)sprintf(at + length, " %02x%02x", items[PIL_ITEM_AT(i) + PIL_ITEM_ABILITIES],
                                  items[PIL_ITEM_AT(i) + PIL_ITEM_FIXED]);
    return length + (size_t)sprintf(at + length, "\n");
}

/* Fills text with a loop and as many frames as fit in the length, its last newline left out if need be. */
static size_t fill_text(size_t length)
{
    uint8_t items[PIL_ITEMS_LENGTH(PIL_MOST_DEVICES)];
    static uint8_t area[PIL_AREA_LENGTH(PIL_MOST_DEVICES)];
    unsigned n = chance_devices();
    size_t at;

    chance_items(items, n, PIL_ITEM_LENGTH);
    chance_sound_area(area, n);
    at = print_loop(text, items, n);
    while (at + 4 <= length)
        at += (size_t)sprintf(text + at, "%03x\n", chance_frame(area, below(0x400)));
    return at;
}

/* Makes one byte another one; most often this makes its line wrong. */
static void spoil_text(size_t length)
{
    static const char others[] = "0123456789abcdefgA \n\r\tl";
    size_t place = one_in(3) ? below(12) : below((unsigned)length);

    if (place < length)
        text[place] = others[below(sizeof others - 1)];
}

static size_t random_text(uint64_t seed)
{
    size_t length;

    chance_seed(seed);
    if (one_in(20)) {
        size_t most = MODEL_MOST_TEXT + below(2);

        for (length = fill_text(most); length < most; length++)
            text[length] = '\n';
        return length;
    }
    length = fill_text(below(600));
    if (one_in(2))
        spoil_text(length);
    return one_in(3) ? below((unsigned)length + 1) : length - below(2);
}

int main(int argc, char **argv)
{
    size_t length;

    if (argc == 3 && strcmp(argv[1], "text") == 0) {
        length = random_text(strtoull(argv[2], NULL, 0));
        return fwrite(text, 1, length, stdout) != length;
    }
    if (argc == 2 && strcmp(argv[1], "longest") == 0) {
        chance_seed(1);
        length = fill_text(MODEL_MOST_TEXT);
        return fwrite(text, 1, length, stdout) != length;
    }
    length = model_list(text, fread(text, 1, MODEL_MOST_TEXT + 1, stdin), out);
    return fwrite(out, 1, length, stdout) != length;
}
