/* Tries the limits of the header: the library accepts each, and refuses what is one past it by the number that the header has for it. Only
   past the longest fonts there is nothing to try: their length words are 65,535, and have no more to say. Status 1: one is not so. */
#include <inttypes.h>
#include <stdio.h>
#include <string.h>

#include "pailradish.h"

/* A kerned font of 256 codes, 82 rows and 796 words in each, all of it empty. */
static const uint16_t font[PAILRADISH_FONT_WORDS] = {0x9000, 0, 255, 0, 0, 0, 0, 0, 65535, 82, 0, 0, 796};
/* A kerned index of 256 codes and as many bodies as there can be, each that font's. The map, which names one picture for all codes, and the
   width entries are zeros. */
static uint16_t many[PAILRADISH_INDEX_WORDS];
static const uint8_t text[PAILRADISH_LABEL_BYTES + 1];
static const pailradish_counts none;
/* Longer than the largest panel, so that it is not too short for one that is a word or a row larger. */
static uint16_t panel[2 * PAILRADISH_PANEL_WORDS];

static const pailradish_call most = {{PAILRADISH_ROW_WORDS, PAILRADISH_ROWS, PAILRADISH_STRIP_COLUMNS},
                                     {PAILRADISH_STRIPS - 1, PAILRADISH_MOST_PLACE, PAILRADISH_MOST_PLACE, PAILRADISH_INVERT}};
static int status;

static void expect(const char *what, uint32_t answer, uint32_t number)
{
    if (answer == number)
        return;
    printf("%s: %" PRIu32 ", not %" PRIu32 "\n", what, answer, number);
    status = 1;
}

static uint32_t painting(pailradish_call call, size_t text_bytes, size_t panel_words, pailradish_counts counts)
{
    return pailradish_paint(font, PAILRADISH_FONT_WORDS, call, text, text_bytes, panel, panel_words, counts).reply.number;
}

/* With the index, of which so many bodies are told. */
static uint32_t with_bodies(uint16_t bodies)
{
    const uint16_t front[] = {0xD000, 0, 255, 0, 0, 0, 0, 0, 0, 0, bodies};

    memcpy(many, front, sizeof front);
    for (size_t k = 0; k < PAILRADISH_BODIES; k++)
        memcpy(many + 268 + k * 65535, font + 8, 5 * sizeof *font);
    return pailradish_paint(many, PAILRADISH_INDEX_WORDS, most, text, PAILRADISH_LABEL_BYTES, panel, PAILRADISH_PANEL_WORDS,
                            none).reply.number;
}

static uint32_t with_text(size_t bytes)
{
    return painting(most, bytes, PAILRADISH_PANEL_WORDS, none);
}

static uint32_t with_panel(size_t words)
{
    return painting(most, PAILRADISH_LABEL_BYTES, words, none);
}

static uint32_t with_call(pailradish_call call)
{
    return painting(call, PAILRADISH_LABEL_BYTES, 2 * PAILRADISH_PANEL_WORDS, none);
}

static uint32_t clearing(pailradish_counts counts)
{
    return pailradish_clear(most.shape, panel, PAILRADISH_PANEL_WORDS, counts).number;
}

/* The sheet puts out every dot, and the panel has none. */
static uint32_t applying(pailradish_counts counts)
{
    static const uint16_t dark[PAILRADISH_PANEL_WORDS];

    return pailradish_apply(most.shape, dark, PAILRADISH_PANEL_WORDS, dark, PAILRADISH_PANEL_WORDS, panel, PAILRADISH_PANEL_WORDS,
                            counts).number;
}

/* Nothing alters a dot, so that a count is refused for what it is alone: over the dots of its strip. */
static void expect_of_counts(size_t strip)
{
    pailradish_counts full = none, over;

    full.lit[strip] = PAILRADISH_STRIP_COLUMNS * PAILRADISH_ROWS;
    over = full;
    over.lit[strip]++;
    expect("painting with a full strip", painting(most, 0, PAILRADISH_PANEL_WORDS, full), PAILRADISH_DONE);
    expect("clearing with a full strip", clearing(full), PAILRADISH_DONE);
    expect("applying with a full strip", applying(full), PAILRADISH_DONE);
    expect("painting with more", painting(most, 0, PAILRADISH_PANEL_WORDS, over), PAILRADISH_COUNT_RANGE);
    expect("clearing with more", clearing(over), PAILRADISH_COUNT_RANGE);
    expect("applying with more", applying(over), PAILRADISH_COUNT_RANGE);
}

/* The call `most` with another number in one place. */
#define EXPECT(part, value, number) \
    do { \
        pailradish_call call = most; \
        call.part = value; \
        expect(#part " = " #value, with_call(call), number); \
    } while (0)

int main(void)
{
    expect("all at their most", with_call(most), PAILRADISH_DONE);
    expect("the longest index", with_bodies(PAILRADISH_BODIES), PAILRADISH_DONE);
    expect("an index of more bodies", with_bodies(PAILRADISH_BODIES + 1), PAILRADISH_FONT_BODIES);
    expect("the longest label", with_text(PAILRADISH_LABEL_BYTES), PAILRADISH_DONE);
    expect("a longer label", with_text(PAILRADISH_LABEL_BYTES + 1), PAILRADISH_LABEL_LONG);
    expect("the largest panel", with_panel(PAILRADISH_PANEL_WORDS), PAILRADISH_DONE);
    expect("too short for it", with_panel(PAILRADISH_PANEL_WORDS - 1), PAILRADISH_PANEL_SIZE);
    EXPECT(shape.row_words, PAILRADISH_ROW_WORDS + 1, PAILRADISH_PANEL_SIZE);
    EXPECT(shape.rows, PAILRADISH_ROWS + 1, PAILRADISH_PANEL_SIZE);
    EXPECT(shape.width, PAILRADISH_STRIP_COLUMNS + 1, PAILRADISH_PANEL_SIZE);
    EXPECT(label.strip, PAILRADISH_STRIPS, PAILRADISH_STRIP_RANGE);
    EXPECT(label.x, PAILRADISH_MOST_PLACE + 1, PAILRADISH_PLACE_RANGE);
    EXPECT(label.y, PAILRADISH_MOST_PLACE + 1, PAILRADISH_PLACE_RANGE);
    EXPECT(label.x, PAILRADISH_LEAST_PLACE, PAILRADISH_DONE);
    EXPECT(label.y, PAILRADISH_LEAST_PLACE, PAILRADISH_DONE);
    EXPECT(label.x, PAILRADISH_LEAST_PLACE - 1, PAILRADISH_PLACE_RANGE);
    EXPECT(label.y, PAILRADISH_LEAST_PLACE - 1, PAILRADISH_PLACE_RANGE);
    EXPECT(label.mode, PAILRADISH_INVERT + 1, PAILRADISH_MODE_RANGE);
    for (size_t strip = 0; strip < PAILRADISH_STRIPS; strip++)
        expect_of_counts(strip);
    return status;
}
