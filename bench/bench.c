/* Calls the exports, or plain C that does the same, on inputs that are made here and are the same each time.

       bench list                   prints the cases: kind|export|case|size|title
       bench check                  all give the same reply and the same words in every case, and on many inputs at random
       bench CASE SIZE WHO TIMES    sets up a case and calls it so many times; WHO is proved or plain, for paint and gather also words or
                                    tested
       bench where CASE             for paint and gather: the address of the words that are drawn on, and the one behind them
       bench least CASE SIZE        how often these words are read, and how often they are written, at the least */
#include "pailradish.h"
#include "plain.h"

#include <stdbool.h>
#include <stdio.h>
#include <stdlib.h>
#include <string.h>

enum { FONT = 131072, PANEL = 32768, CU = 65536, OUT = 65536 };

/* Everything that a call is handed, and its reply: all of it is compared. What calls write stands first. */
static struct state {
    uint16_t panel[PANEL], keep[PANEL], flip[PANEL], out[OUT], then_keep[PANEL], then_flip[PANEL], cu[CU], font[FONT];
    uint8_t font_bytes[2 * FONT], text[PAILRADISH_LABEL_BYTES + 1];
    size_t font_words, text_bytes, cu_words;
    pailradish_call call;
    size_t panel_words, flip_words;
    pailradish_counts counts;
    pailradish_reply reply;
    pailradish_conversion conversion;
} s;

/* Numbers at random, the same each time. */
static uint64_t seed;

static uint32_t any(void)
{
    seed = seed * 6364136223846793005u + 1442695040888963407u;
    return (uint32_t)(seed >> 33);
}

static uint32_t within(uint32_t least, uint32_t most)
{
    return least + any() % (most - least + 1);
}

static void fill(uint16_t *words, size_t count)
{
    for (size_t i = 0; i < count; i++)
        words[i] = (uint16_t)any();
}

/* The inputs. */

static void spell_font(void)
{
    for (size_t i = 0; i < s.font_words; i++) {
        s.font_bytes[2 * i] = (uint8_t)(s.font[i] >> 8);
        s.font_bytes[2 * i + 1] = (uint8_t)s.font[i];
    }
}

/* The font and the CU file of the paper's case C1. */
static const uint16_t c1_font[27] = {
    0x9000, 0x0041, 0x0044, 0x0004, 0xFFFF, 0xFFFF, 0x0004, 0x0003, 0x000E, 0x0002, 0x0001, 0x0000, 0x0001, 0x4F00,
    0xBF00, 0x1F00, 0x0000, 0x0003, 0x0004, 0x0004, 0x0004, 0x0008, 0x0104, 0x0000, 0xFFFF, 0x0102, 0x0004};
static const uint16_t c1_cu[17] = {
    0x0003, 0x0001, 0x0041, 0x0004, 0x2000, 0x5000, 0x0000, 0x0042, 0x0000, 0x0000, 0x8000, 0x8000, 0x0044, 0x0002,
    0x0000, 0x0000, 0x0000};

static void small_font(void)
{
    s.font_words = 27;
    memcpy(s.font, c1_font, sizeof c1_font);
    spell_font();
}

/* What a font is made of, part behind part. Each answers the word behind what it has put there. */

static uint16_t *put_words(uint16_t *next, const uint16_t *words, size_t count)
{
    memcpy(next, words, 2 * count);
    return next + count;
}

static uint16_t *put_often(uint16_t *next, uint16_t word, size_t times)
{
    while (times-- > 0)
        *next++ = word;
    return next;
}

/* A body of so many pictures, each of so many columns, dots at random. */
static uint16_t *put_body(uint16_t *next, unsigned raster, unsigned height, unsigned ascent, unsigned pictures, unsigned columns)
{
    unsigned bitmap = raster * height;
    next = put_words(next, (const uint16_t[]){bitmap + pictures + 6, ascent, height - ascent, 0, raster}, 5);
    fill(next, bitmap);
    next += bitmap;
    for (unsigned k = 0; k <= pictures; k++)
        *next++ = (uint16_t)(k * columns);
    return next;
}

static void end_font(const uint16_t *end)
{
    s.font_words = (size_t)(end - s.font);
    spell_font();
}

/* A kerned font of so many codes, each with a picture of so many columns, dots at random, moved right by one dot and set two columns
   further. */
static void kerned_font(unsigned min, unsigned codes, unsigned raster, unsigned height, unsigned ascent, unsigned columns)
{
    const uint16_t front[8] = {0x9000, min, min + codes - 1, columns + 1, 0, ascent - height, columns, height};
    uint16_t *next = put_words(s.font, front, 8);
    next = put_body(next, raster, height, ascent, codes + 1, columns);
    end_font(put_often(next, (uint16_t)(256 + columns + 1), codes + 1));
}

/* 64 KB. */
static void large_font(void)
{
    kerned_font(0, 256, 403, 80, 60, 25);
}

/* A font as labels use it: codes 32 to 126, 12 rows, 7 columns a picture, and a pen that moves by 8. */
static void label_font(void)
{
    kerned_font(32, 95, 42, 12, 9, 7);
}

/* The word that holds a dot of the body that begins here. */
static uint16_t *word_of(uint16_t *body, unsigned row, unsigned column)
{
    return body + 5 + row * body[4] + column / 16;
}

/* Which picture of a body: both counted from 0. */
typedef struct {
    unsigned body, number;
} dealt;

enum { PICTURES = 96 };

/* Picture k of those that are dealt out in turn to so many bodies. */
static dealt in_turn(unsigned k, unsigned bodies)
{
    return (dealt){k % bodies, k / bodies};
}

/* Of those of which each body takes half of what is left, and the last the rest. */
static dealt by_halves(unsigned k, unsigned bodies)
{
    dealt d = {0, k};
    for (unsigned half = PICTURES / 2; d.body + 1 < bodies && d.number >= half; half /= 2)
        d.body++, d.number -= half;
    return d;
}

/* The pictures of the label font dealt out to so many bodies, as a font with an index. Where they are dealt out in turn and there are more
   bodies than pictures, the last bodies have a picture that is not named. */
static void label_index(bool kerned, unsigned bodies, dealt (*deal)(unsigned, unsigned))
{
    static uint16_t whole[FONT];
    enum { ROWS = 12, ASCENT = 9, COLUMNS = 7 };
    label_font();
    memcpy(whole, s.font, sizeof whole);
    unsigned has[128];
    uint16_t *next = put_words(s.font, whole, kerned ? 8 : 4), *starts[128];
    s.font[0] = kerned ? 0xD000 : 0xC000;
    next = put_words(next, (const uint16_t[]){ASCENT, ROWS - ASCENT, bodies}, 3);
    for (unsigned k = 0; k < bodies; k++)
        has[k] = 1;
    for (unsigned k = 0; k < PICTURES; k++) {
        dealt d = deal(k, bodies);
        *next++ = (uint16_t)(d.body << 8 | d.number);
        has[d.body] = d.number + 1;
    }
    for (unsigned k = 0; k < bodies; k++) {
        unsigned raster = (has[k] * COLUMNS + 15) / 16;
        starts[k] = next;
        next = put_body(next, raster, ROWS, ASCENT, has[k], COLUMNS);
        memset(starts[k] + 5, 0, 2 * raster * ROWS);
    }
    for (unsigned k = 0; k < PICTURES; k++)
        for (unsigned row = 0; row < ROWS; row++)
            for (unsigned column = 0; column < COLUMNS; column++) {
                dealt d = deal(k, bodies);
                unsigned from = k * COLUMNS + column, to = d.number * COLUMNS + column;
                if (*word_of(whole + 8, row, from) & 0x8000 >> from % 16)
                    *word_of(starts[d.body], row, to) |= 0x8000 >> to % 16;
            }
    end_font(kerned ? put_often(next, 256 + COLUMNS + 1, PICTURES) : next);
}

/* The same with 20 columns a picture: no row of it is within one word. */
static void wide_font(void)
{
    kerned_font(32, 95, 120, 12, 9, 20);
}

/* 64 rows and 60 columns a picture. */
static void poster_font(void)
{
    kerned_font(32, 95, 360, 64, 60, 60);
}

static void text(size_t bytes)
{
    for (size_t i = 0; i < bytes; i++)
        s.text[i] = (uint8_t)(33 + i);
    s.text_bytes = bytes;
}

static void shape(uint32_t row_words, uint32_t rows, uint32_t width)
{
    s.call.shape = (pailradish_shape){row_words, rows, width};
    s.panel_words = s.flip_words = (size_t)row_words * rows;
}

static void at(uint32_t strip, int32_t x, int32_t y, uint32_t mode)
{
    s.call.label = (pailradish_label){strip, x, y, mode};
}

/* A CU file of so many characters from code 65 on; dots at random, or one in the last row and column of each. */
static void cu_file(unsigned characters, unsigned rows, unsigned row_words, bool last_dot_only)
{
    uint16_t *next = s.cu;
    *next++ = (uint16_t)rows;
    *next++ = (uint16_t)row_words;
    for (unsigned k = 0; k < characters; k++) {
        *next++ = (uint16_t)((65 + k) % 256);
        *next++ = (uint16_t)within(1, 200);
        size_t raster = (size_t)rows * row_words;
        if (last_dot_only)
            memset(next, 0, 2 * raster), next[raster - 1] = 1;
        else
            fill(next, raster);
        next += raster;
    }
    s.cu_words = (size_t)(next - s.cu);
}

/* The true counts: the panel is gone through dot by dot. */
static void count_panel(void)
{
    pailradish_shape shape = s.call.shape;
    memset(&s.counts, 0, sizeof s.counts);
    for (size_t row = 0; row < shape.rows; row++)
        for (size_t column = 0; column < PAILRADISH_STRIPS * shape.width; column++)
            s.counts.lit[column / shape.width] += s.panel[row * shape.row_words + column / 16] >> (15 - column % 16) & 1;
}

/* A call of each export, and of its plain C. */

#define TEXT s.text, s.text_bytes
#define SHEET s.keep, s.panel_words, s.flip, s.flip_words

/* One by one: between them the struct has bytes that mean nothing. */
static void set_conversion(pailradish_conversion done)
{
    s.conversion.number = done.number;
    s.conversion.words = done.words;
}

/* The counts that are handed back are those of the next call. */
static void set_painted(pailradish_painted painted)
{
    s.reply = painted.reply;
    s.counts = painted.counts;
}

static void set_settled(pailradish_settled settled)
{
    s.reply.number = settled.number;
    s.counts = settled.counts;
}

#define LABEL_CALLS(who) \
    static void who##_call_paint(void) \
    { \
        set_painted(who##_paint(s.font, s.font_words, s.call, TEXT, s.panel, s.panel_words, s.counts)); \
    } \
    static void who##_call_gather(void) { s.reply = who##_gather(s.font, s.font_words, s.call, TEXT, SHEET); }

#define ALL_CALLS(who) \
    LABEL_CALLS(who) \
    static void who##_call_check(void) { s.reply.number = who##_check(s.font_bytes, 2 * s.font_words); } \
    static void who##_call_measure(void) { s.reply = who##_measure(s.font_bytes, 2 * s.font_words, s.call.label.x, TEXT); } \
    static void who##_call_words(void) { set_conversion(who##_words(s.font_bytes, 2 * s.font_words, s.out, OUT)); } \
    static void who##_call_fresh(void) { s.reply.number = who##_fresh(s.call.shape, SHEET); } \
    static void who##_call_join(void) \
    { \
        s.reply.number = who##_join(s.call.shape, SHEET, s.then_keep, s.panel_words, s.then_flip, s.panel_words); \
    } \
    static void who##_call_apply(void) { set_settled(who##_apply(s.call.shape, SHEET, s.panel, s.panel_words, s.counts)); } \
    static void who##_call_clear(void) { set_settled(who##_clear(s.call.shape, s.panel, s.panel_words, s.counts)); } \
    static void who##_call_convert(void) { set_conversion(who##_convert(s.cu, s.cu_words, s.out, OUT)); }

ALL_CALLS(pailradish)
ALL_CALLS(plain)
LABEL_CALLS(words)
LABEL_CALLS(tested)

typedef void call(void);
enum { CHECK, MEASURE, WORDS, PAINT, GATHER, FRESH, JOIN, APPLY, CLEAR, CONVERT, EXPORTS };
static const char *const export_names[EXPORTS] = {"check", "measure", "words", "paint", "gather",
                                                  "fresh", "join",    "apply", "clear", "convert"};

/* Who can be called. The library stands first. */
static const struct caller {
    const char *name;
    call *calls[EXPORTS];
} callers[] = {
    {"proved", {pailradish_call_check, pailradish_call_measure, pailradish_call_words, pailradish_call_paint, pailradish_call_gather,
                pailradish_call_fresh, pailradish_call_join, pailradish_call_apply, pailradish_call_clear, pailradish_call_convert}},
    {"plain", {plain_call_check, plain_call_measure, plain_call_words, plain_call_paint, plain_call_gather, plain_call_fresh,
               plain_call_join, plain_call_apply, plain_call_clear, plain_call_convert}},
    {"words", {[PAINT] = words_call_paint, [GATHER] = words_call_gather}},
    {"tested", {[PAINT] = tested_call_paint, [GATHER] = tested_call_gather}},
};
enum { PROVED, PLAIN, BY_WORDS, TESTED, CALLERS };

/* The cases. */

static void set_small_font(unsigned n) { (void)n, small_font(); }
static void set_large_font(unsigned n) { (void)n, large_font(); }
static void set_codes(unsigned n) { kerned_font(0, n, 130, 12, 9, 8), text(8), memset(s.text, 0, 8); }
static void set_words(unsigned n) { s.font_words = n, fill(s.font, n), spell_font(); }
static void set_bitmap_rows(unsigned n) { kerned_font(32, 95, 42, n, n, 7); }
static void set_strip(unsigned n) { shape(128, 16, 64), text(n), at(31, 0, 11, 0); }
static void set_label(unsigned n) { label_font(), set_strip(n); }
static void set_index(unsigned n) { label_index(true, 4, in_turn), set_strip(n); }
static void set_uneven(unsigned n) { label_index(true, 4, by_halves), set_strip(n); }
static void set_bodies(unsigned n) { label_index(true, 128, in_turn), set_strip(n); }
static void set_plain_index(unsigned n) { label_index(false, 4, in_turn), set_strip(n); }
static void set_erased(unsigned n) { set_label(n), at(31, 0, 11, 1); }
static void set_inverted(unsigned n) { set_label(n), at(31, 0, 11, 2); }
static void set_left_edge(unsigned n) { set_label(n), at(31, -37, 11, 0); }
static void set_left(unsigned n) { set_label(n), at(31, -1000, 11, 0); }
static void set_right(unsigned n) { set_label(n), at(31, 1000, 11, 0); }
static void set_top_edge(unsigned n) { set_label(n), at(31, 0, 2, 0); }
static void set_wide(unsigned n) { wide_font(), shape(128, 16, 64), text(n), at(31, 12, 11, 0); }
static void set_poster(unsigned n) { poster_font(), shape(128, 80, 64), text(n), at(31, 1, 62, 0); }
static void set_large_label(unsigned n) { large_font(), shape(128, 16, 64), text(n), at(31, 0, 11, 0); }
static void set_picture_rows(unsigned n) { kerned_font(32, 95, 42, n, n, 7), shape(128, 256, 64), text(8), at(31, 0, n, 0); }
static void set_panel_rows(unsigned n) { label_font(), shape(128, n, 64), text(8), at(31, 0, 11, 0); }
static void set_strip_columns(unsigned n) { label_font(), shape(128, 16, n), text(8), at(31, 0, 11, 0); }
/* One dot too many in the count of the strip. */
static void set_untrue(unsigned n) { set_label(n), count_panel(), s.counts.lit[31]++; }
/* The same where the pictures reach every row: then no dot elsewhere says that the count cannot leave what it may be. */
static void set_unsure(unsigned n)
{
    kerned_font(32, 95, 42, n, n, 7), shape(128, n, 64), text(8), at(31, 0, (int32_t)n, 0);
    count_panel(), s.counts.lit[31]++;
}
static void set_panel(unsigned n)
{
    n == 24 ? shape(8, 3, 4) : shape(128, n / 128, 64);
}
/* A sheet as a call for one label makes it. Its dots flip, so that each time it is applied it alters the same words. */
static void set_one_label(unsigned n)
{
    set_inverted(8), set_panel(n);
    plain_call_fresh(), plain_call_gather();
}
static void set_small_cu(unsigned n)
{
    (void)n;
    memcpy(s.cu, c1_cu, sizeof c1_cu);
    s.cu_words = 17;
}
static void set_large_cu(unsigned n) { cu_file(n, 126, 2, false); }
static void set_last_dots(unsigned n) { cu_file(n, 126, 2, true); }
static void set_characters(unsigned n) { cu_file(n, 16, 1, false); }
static void set_cu_rows(unsigned n) { cu_file(16, n, 1, false); }

/* A case has one size. A series has several. */
static const struct one {
    const char *name, *title;
    int export;
    void (*set)(unsigned);
    unsigned sizes[6];
} cases[] = {
    {"check-c1", "check: the font of C1, 27 words", CHECK, set_small_font, {27}},
    {"check-64k", "check: a kerned font of 256 codes, 32,768 words", CHECK, set_large_font, {32768}},
    {"check-label", "check: the font of the labels below, 95 codes, 710 words", CHECK, set_label, {1}},
    {"check-index", "check: the same in a kerned index of 4 bodies, 851 words", CHECK, set_index, {1}},
    {"check-uneven", "check: the same, of 48, 24, 12 and 12 pictures, 851 words", CHECK, set_uneven, {1}},
    {"check-bodies", "check: the same in a kerned index of 128 bodies, 2,635 words", CHECK, set_bodies, {1}},
    {"measure-8", "measure: 8 bytes", MEASURE, set_label, {8}},
    {"measure-64", "measure: 64 bytes", MEASURE, set_label, {64}},
    {"measure-64k", "measure: 8 bytes, the font of 32,768 words", MEASURE, set_large_label, {8}},
    {"measure-index", "measure: 8 bytes, a kerned index of 4 bodies", MEASURE, set_index, {8}},
    {"measure-plain", "measure: 8 bytes, a plain index of 4 bodies", MEASURE, set_plain_index, {8}},
    {"words-64k", "words: 65,536 bytes", WORDS, set_words, {32768}},
    {"paint-8", "paint: 8 bytes, all inside the strip", PAINT, set_label, {8}},
    {"paint-erase", "paint: 8 bytes, Erase", PAINT, set_erased, {8}},
    {"paint-invert", "paint: 8 bytes, Invert", PAINT, set_inverted, {8}},
    {"paint-untrue", "paint: 8 bytes, a count that is not true", PAINT, set_untrue, {8}},
    {"paint-wide", "paint: 2 bytes of 20 columns", PAINT, set_wide, {2}},
    {"paint-poster", "paint: 1 byte of 60 columns and 64 rows", PAINT, set_poster, {1}},
    {"paint-64", "paint: 64 bytes, 8 of them inside", PAINT, set_label, {64}},
    {"paint-left", "paint: 16 bytes, clipped left and right", PAINT, set_left_edge, {16}},
    {"paint-outside-left", "paint: 8 bytes, all left of the strip", PAINT, set_left, {8}},
    {"paint-outside-right", "paint: 8 bytes, all right of the strip", PAINT, set_right, {8}},
    {"paint-top", "paint: 8 bytes, 7 of 12 rows above the panel", PAINT, set_top_edge, {8}},
    {"paint-index", "paint: 8 bytes, a kerned index of 4 bodies", PAINT, set_index, {8}},
    {"paint-uneven", "paint: 8 bytes, a kerned index of 4 bodies, of 48, 24, 12 and 12 pictures", PAINT, set_uneven, {8}},
    {"paint-bodies", "paint: 8 bytes, a kerned index of 128 bodies", PAINT, set_bodies, {8}},
    {"paint-plain", "paint: 8 bytes, a plain index of 4 bodies", PAINT, set_plain_index, {8}},
    {"paint-index-64", "paint: 64 bytes, 8 of them inside, a kerned index of 4 bodies", PAINT, set_index, {64}},
    {"paint-bodies-64", "paint: 64 bytes, 8 of them inside, a kerned index of 128 bodies", PAINT, set_bodies, {64}},
    {"gather-paint", "gather: 8 bytes, Paint", GATHER, set_label, {8}},
    {"gather-erase", "gather: 8 bytes, Erase", GATHER, set_erased, {8}},
    {"gather-invert", "gather: 8 bytes, Invert", GATHER, set_inverted, {8}},
    {"gather-index", "gather: 8 bytes, Paint, a kerned index of 4 bodies", GATHER, set_index, {8}},
    {"gather-wide", "gather: 2 bytes of 20 columns", GATHER, set_wide, {2}},
    {"gather-poster", "gather: 1 byte of 60 columns and 64 rows", GATHER, set_poster, {1}},
    {"fresh-24", "fresh: R = 8, H = 3", FRESH, set_panel, {24}},
    {"fresh-32768", "fresh: R = 128, H = 256", FRESH, set_panel, {32768}},
    {"join-24", "join: R = 8, H = 3", JOIN, set_panel, {24}},
    {"join-32768", "join: R = 128, H = 256", JOIN, set_panel, {32768}},
    {"apply-24", "apply: R = 8, H = 3", APPLY, set_panel, {24}},
    {"apply-32768", "apply: R = 128, H = 256", APPLY, set_panel, {32768}},
    {"apply-label", "apply: R = 128, H = 256, one label on the sheet", APPLY, set_one_label, {32768}},
    {"clear-24", "clear: R = 8, H = 3", CLEAR, set_panel, {24}},
    {"clear-32768", "clear: R = 128, H = 256", CLEAR, set_panel, {32768}},
    {"convert-c1", "convert: the CU file of C1, 17 words", CONVERT, set_small_cu, {17}},
    {"convert-64k", "convert: 129 characters of 126 × 32 dots, 32,768 words", CONVERT, set_large_cu, {129}},
    {"convert-last", "convert: the same, one dot in the last row and column", CONVERT, set_last_dots, {129}},

    {"check-codes", "check, by codes of the font", CHECK, set_codes, {1, 4, 16, 64, 256}},
    {"check-rows", "check, by rows of the bitmap", CHECK, set_bitmap_rows, {1, 4, 16, 64, 256}},
    {"measure-bytes", "measure, by bytes of the label", MEASURE, set_label, {1, 4, 8, 16, 64}},
    {"measure-codes", "measure 8 bytes, by codes of the font", MEASURE, set_codes, {1, 4, 16, 64, 256}},
    {"words-words", "words, by words written", WORDS, set_words, {128, 512, 2048, 8192, 32768}},
    {"paint-bytes", "paint, by bytes of the label", PAINT, set_label, {1, 4, 8, 16, 64}},
    {"paint-picture", "paint 8 bytes, by rows of the picture", PAINT, set_picture_rows, {1, 4, 16, 64, 256}},
    {"paint-panel", "paint 8 bytes, by rows of the panel", PAINT, set_panel_rows, {12, 16, 64, 256}},
    {"paint-strip", "paint 8 bytes, by columns of the strip", PAINT, set_strip_columns, {16, 32, 48, 64}},
    {"paint-unsure", "paint 8 bytes, a count that is not true, by rows of picture and panel", PAINT, set_unsure, {1, 4, 16, 64, 256}},
    {"gather-bytes", "gather Paint, by bytes of the label", GATHER, set_label, {1, 4, 8, 16, 64}},
    {"fresh-words", "fresh, by words of the panel", FRESH, set_panel, {128, 512, 2048, 8192, 32768}},
    {"join-words", "join, by words of the panel", JOIN, set_panel, {128, 512, 2048, 8192, 32768}},
    {"apply-words", "apply, by words of the panel", APPLY, set_panel, {128, 512, 2048, 8192, 32768}},
    {"clear-words", "clear, by words of the panel", CLEAR, set_panel, {128, 512, 2048, 8192, 32768}},
    {"convert-chars", "convert, by characters of 16 × 16 dots", CONVERT, set_characters, {1, 4, 16, 64, 250}},
    {"convert-rows", "convert 16 characters, by rows of 16 dots", CONVERT, set_cu_rows, {1, 4, 16, 64, 128}},
};
enum { CASES = sizeof cases / sizeof *cases };

static void set_up(const struct one *c, unsigned size)
{
    memset(&s, 0, sizeof s);
    seed = 1980;
    fill(s.panel, PANEL);
    fill(s.keep, PANEL);
    fill(s.flip, PANEL);
    fill(s.then_keep, PANEL);
    fill(s.then_flip, PANEL);
    fill(s.out, OUT);
    c->set(size);
    if (c->set != set_untrue && c->set != set_unsure)
        count_panel();
    s.reply = (pailradish_reply){0, 0, 0};
}

/* The parts of the font that stands there. */

static bool font_kerned(void) { return s.font[0] & 0x1000; }
static bool font_index(void) { return s.font[0] & 0x4000; }
static unsigned font_codes(void) { return s.font[2] - s.font[1] + 1; }
static unsigned font_bodies(void) { return font_index() ? s.font[font_kerned() ? 10 : 6] : 1; }

static uint16_t *body_at(unsigned k)
{
    uint16_t *body = s.font + (font_kerned() ? 8 : 4) + (font_index() ? 3 + font_codes() + 1 : 0);
    while (k-- > 0)
        body += body[0];
    return body;
}

static uint16_t *font_map(void) { return s.font + (font_kerned() ? 11 : 7); }
static uint16_t *font_widths(void) { return s.font + s.font_words - font_codes() - 1; }

static uint16_t *pointers_of(uint16_t *body) { return body + 5 + body[4] * (body[1] + body[2]); }

/* The place of what is shown for a code, from the first code's. */
static unsigned shown(unsigned code)
{
    unsigned k = code - s.font[1], dummy = font_codes();
    if (code < s.font[1] || code > s.font[2])
        return dummy;
    if (font_kerned() && font_widths()[k] == 0xFFFF)
        return dummy;
    if (font_index())
        return font_map()[k] & 0x8000 ? dummy : k;
    const uint16_t *pointers = pointers_of(body_at(0));
    return !font_kerned() && pointers[k] == pointers[k + 1] ? dummy : k;
}

/* The trips over the bus that a drawing call cannot do without: each character reads and writes each word that its picture reaches inside
   strip and panel. Painting also counts the lit dots of the strip in the rows that a picture of the font may reach, once before and once
   after. It is made as simply as can be, and takes nothing from what is measured. */

/* The words that a picture reaches: it is gone through dot by dot, and each word is marked. `left` is counted from the strip. */
static unsigned long words_reached(int left, int columns, int top, int rows)
{
    static bool reached[PANEL];
    pailradish_shape shape = s.call.shape;
    unsigned long count = 0;
    memset(reached, 0, sizeof reached);
    for (int row = top; row < top + rows; row++)
        for (int column = left; column < left + columns; column++) {
            if (row < 0 || row >= (int)shape.rows || column < 0 || column >= (int)shape.width)
                continue;
            size_t word = (size_t)row * shape.row_words + (s.call.label.strip * shape.width + (size_t)column) / 16;
            count += !reached[word];
            reached[word] = true;
        }
    return count;
}

struct trips {
    unsigned long reads, writes;
};

static struct trips least_trips(int export)
{
    int pen = s.call.label.x, y = s.call.label.y, above = 0, below = 0;
    unsigned long count = 0;
    for (size_t i = 0; i < s.text_bytes; i++) {
        unsigned k = shown(s.text[i]), name = font_index() ? font_map()[k] : k;
        uint16_t *body = body_at(font_index() ? name / 256 : 0), *pointers = pointers_of(body) + (font_index() ? name % 256 : name);
        int columns = pointers[1] - pointers[0];
        int left = font_kerned() ? pen + (int16_t)s.font[4] + font_widths()[k] / 256 : pen;
        count += words_reached(left, columns, y - body[1], body[1] + body[2]);
        pen += font_kerned() ? font_widths()[k] % 256 : columns;
    }
    if (export == GATHER && s.call.label.mode != PAILRADISH_INVERT)
        count *= 2;
    for (unsigned k = 0; k < font_bodies(); k++) {
        const uint16_t *body = body_at(k);
        above = body[1] > above ? body[1] : above;
        below = body[2] > below ? body[2] : below;
    }
    /* In the rows that are reached the whole strip is read: it is one picture of all its columns. */
    unsigned long counted = export == PAINT ? 2 * words_reached(0, (int)s.call.shape.width, y - above, above + below) : 0;
    return (struct trips){count + counted, count};
}

/* Comparing. */

static unsigned long compared, refused[PAILRADISH_COUNT_RANGE + 1];

static void fail(const char *what, unsigned size, const char *who, const char *why)
{
    printf("%s %u: %s %s\n", what, size, who, why);
    exit(1);
}

/* Of the plain C the check of a font refuses, and the drawing that is tested. */
static bool refuses(int who, int export)
{
    return export == CHECK || who == TESTED;
}

/* Of these the refusals are noted: what they are handed may be flawed. */
static bool may_be_refused(int export)
{
    return export == PAINT || export == GATHER || export == APPLY || export == CLEAR;
}

/* Applying and clearing answer a number alone. */
static pailradish_reply refusal(int export, const struct state *before)
{
    if (export == APPLY || export == CLEAR)
        return (pailradish_reply){s.reply.number, before->reply.pen, before->reply.substitutes};
    return (pailradish_reply){s.reply.number, 0, 0};
}

/* Beside the number of a refusal there are zeros, and all else is as it was, the counts too. */
static void note_refusal(const char *what, unsigned size, int export, const struct state *before)
{
    static struct state expected;
    expected = *before;
    expected.reply = refusal(export, before);
    if (memcmp(&expected, &s, sizeof s) != 0)
        fail(what, size, callers[PROVED].name, "refuses and alters something");
    refused[s.reply.number]++;
}

/* All answer what is set up now alike, and change the same words to the same. A case must be accepted, and must alter words where its
   export does. What the library refuses is asked only of those that refuse. */
static void compare(const char *what, unsigned size, int export, bool accepted, bool altering)
{
    static struct state before, first;
    before = s;
    callers[PROVED].calls[export]();
    first = s;
    if (accepted && (s.reply.number != 0 || s.conversion.number != 0))
        fail(what, size, callers[PROVED].name, "refuses");
    if (altering && memcmp(&before, &s, offsetof(struct state, then_keep)) == 0)
        fail(what, size, callers[PROVED].name, "alters nothing");
    if (may_be_refused(export) && s.reply.number != 0)
        note_refusal(what, size, export, &before);
    for (int who = PLAIN; who < CALLERS; who++) {
        if (!callers[who].calls[export] || !(accepted || first.reply.number == 0 || refuses(who, export)))
            continue;
        s = before;
        callers[who].calls[export]();
        if (memcmp(&first, &s, sizeof s) != 0)
            fail(what, size, callers[who].name, "answers differently");
        compared++;
    }
}

/* So many width entries; that of the dummy, the last, is never that of an absent code. */
static uint16_t *put_any_widths(uint16_t *next, unsigned count)
{
    for (unsigned k = 0; k < count; k++)
        *next++ = within(0, 3) == 0 && k + 1 < count ? 0xFFFF : (uint16_t)(within(0, 40) << 8 | within(0, within(0, 3) ? 30 : 254));
    return next;
}

/* Without an index. */
static void any_strike(void)
{
    unsigned codes = within(1, 40), height = within(1, 20), columns = within(0, 20);
    kerned_font(within(0, 256 - codes), codes, (columns * (codes + 1) + 15) / 16 + within(1, 2), height, within(0, height), columns);
    uint16_t *widths = s.font + s.font_words - codes - 1;
    s.font[4] = (uint16_t)(within(0, 510) - 255);
    put_any_widths(widths, codes + 1);
    if (within(0, 2) == 0) {
        /* The plain font with the same pictures; now and then a picture takes its neighbour's columns, and the dummy has none. */
        uint16_t *pointers = widths - codes - 2;
        for (unsigned k = 1; k < codes; k++)
            if (within(0, 3) == 0)
                pointers[k] = pointers[k - 1];
        memmove(s.font + 4, s.font + 8, 2 * (s.font_words - 8));
        s.font[0] = 0x8000;
        s.font_words -= 4 + codes + 1;
        if (within(0, 3) == 0)
            s.font[s.font_words - 1] = s.font[s.font_words - 2];
    }
    spell_font();
}

/* Of a body's pictures now and then one takes its neighbour's columns. */
static uint16_t *put_any_body(uint16_t *next, unsigned pictures, bool large)
{
    unsigned height = large ? within(100, 256) : within(1, 20), columns = within(0, 20);
    unsigned raster = (columns * pictures + 15) / 16 + (large ? within(50, 150) : within(1, 2));
    uint16_t *end = put_body(next, raster, height, within(0, height), pictures, columns), *pointers = end - pictures - 1;
    for (unsigned k = 1; k < pictures; k++)
        if (within(0, 3) == 0)
            pointers[k] = pointers[k - 1];
    return end;
}

/* With an index: several codes may share a picture, and what is absent may name none. Where there are few bodies, now and then the first
   two are so large that the others begin far behind them, or one has more pictures than a map entry can name. */
static void any_index(void)
{
    bool kerned = within(0, 1);
    unsigned codes = within(1, 40), bodies = within(1, within(0, 3) ? 6 : 128), min = within(0, 256 - codes), pictures[128];
    const uint16_t front[8] = {kerned ? 0xD000 : 0xC000, min, min + codes - 1, any(), within(0, 510) - 255, any(), any(), any()};
    uint16_t *next = put_words(s.font, front, kerned ? 8 : 4);
    next = put_words(next, (const uint16_t[]){any(), any(), bodies}, 3);
    uint16_t *map = next;
    next += codes + 1;
    bool few = bodies <= 6, large = few && within(0, 3) == 0;
    for (unsigned k = 0; k < bodies; k++) {
        bool large_one = large && k < 2;
        pictures[k] = within(1, few && !large_one && within(0, 3) == 0 ? 300 : 8);
        next = put_any_body(next, pictures[k], large_one);
    }
    uint16_t *widths = next;
    if (kerned)
        next = put_any_widths(next, codes + 1);
    for (unsigned k = 0; k <= codes; k++) {
        unsigned body = within(0, bodies - 1), most = pictures[body] < 256 ? pictures[body] - 1 : 255;
        map[k] = (uint16_t)(body << 8 | within(within(0, 3) ? 0 : most, most));
        if (k < codes && within(0, 4) == 0)
            map[k] = (uint16_t)(any() | 0x8000);
        else if (kerned && widths[k] == 0xFFFF && within(0, 1))
            map[k] = (uint16_t)any();
    }
    end_font(next);
}

static void any_font(void)
{
    within(0, 1) ? any_index() : any_strike();
}

static void any_panel(void)
{
    uint32_t row_words = within(2, 40), rows = within(1, 40);
    shape(row_words, rows, within(1, row_words / 2));
}

static void any_dots(void)
{
    fill(s.panel, s.panel_words);
    count_panel();
}

/* Characters with fewer dots or none, and codes with gaps between them; code 65, the first, stays as it is. */
static void any_cu(void)
{
    unsigned characters = within(1, 30), stride = 2 * within(0, 3) + 1;
    cu_file(characters, within(1, 20), within(1, 3), false);
    size_t raster = (size_t)s.cu[0] * s.cu[1];
    for (unsigned k = 1; k < characters; k++) {
        uint16_t *character = s.cu + 2 + k * (2 + raster);
        character[0] = (uint16_t)((65 + k * stride) % 256);
        unsigned thinner = within(0, 4);
        for (size_t i = 0; i < raster && thinner > 0; i++)
            character[2 + i] &= (uint16_t)(thinner < 4 ? any() & any() & any() : 0);
    }
}

static uint16_t *any_body(void)
{
    return body_at(within(0, font_bodies() - 1));
}

/* A word of a font, and what it may be damaged to: a number at a limit, its neighbour, or any. Mostly it is one that is tested: of a font's
   first words, of the map, of the head of some body, its last pointer, or a width entry. */
static uint16_t *any_font_word(void)
{
    uint16_t *body;
    switch (within(0, font_index() ? 9 : 1)) {
    case 0: return s.font + within(0, 12);
    case 1: case 2: case 3: return s.font + within(0, (uint32_t)s.font_words - 1);
    case 4: return s.font + (font_kerned() ? 10 : 6);
    case 5: return font_map() + within(0, font_codes());
    case 6: return font_map() + font_codes();
    case 7: return any_body() + within(0, 4);
    case 8: body = any_body(); return body + body[0] - 1;
    default: return font_widths() + within(0, font_codes());
    }
}

static uint16_t any_damage(uint16_t was)
{
    static const uint16_t edges[] = {0,      1,      127,    128,    129,    254,    255,    256,    257,   4096,
                                     4097,   0x8000, 0x9000, 0xA000, 0xC000, 0xD000, 0xFF00, 0xFF01, 0xFFFF};
    switch (within(0, 4)) {
    case 0: return (uint16_t)any();
    case 1: return (uint16_t)(was + 1);
    case 2: return (uint16_t)(was - 1);
    default: return edges[within(0, sizeof edges / sizeof *edges - 1)];
    }
}

/* What says that the dummy is there: its width entry, its map entry, or in a plain font without an index nothing. */
static uint16_t *any_dummy_word(void)
{
    return font_index() && (!font_kerned() || within(0, 1)) ? font_map() + font_codes() : s.font + s.font_words - 1;
}

/* How many words of it are handed over: up to two more than it has, hardly a header, or hardly more than up to some body's head. */
static size_t any_font_end(void)
{
    switch (within(0, 3)) {
    case 0: return (size_t)(any_body() - s.font) + within(0, 6) - 1;
    case 1: return within(0, 14);
    case 2: return s.font_words + within(0, 3) - 1;
    default: return within(0, (uint32_t)s.font_words + 2);
    }
}

/* A font that may be refused: the check alone says why. Some have two words that are damaged, and some are damaged and cut, since one
   refusal comes before the other. */
static void damaged_fonts(unsigned i)
{
    for (unsigned k = 0; k < 8; k++) {
        uint16_t *word = any_font_word(), *other = k % 2 ? any_font_word() : word, was = *word, other_was = *other;
        size_t whole = s.font_words, end = any_font_end();
        *word = any_damage(was);
        *other = any_damage(other_was);
        spell_font();
        compare("damaged font", i, CHECK, false, false);
        if (k % 4 < 2) {
            *word = was;
            *other = other_was;
            spell_font();
        }
        s.font_words = end;
        compare("font cut short", i, CHECK, false, false);
        s.font_words = whole;
        *word = was;
        *other = other_was;
    }
    spell_font();
}

/* What may be wrong with a call on a panel or a sheet: for each test a value on either side of its limit, or one far away. Some values are
   accepted. */
enum {
    FONT_DUMMY, FONT_WORD, FONT_END, ROW_WORDS, ROWS, WIDTH, PANEL_END, FLIP_END, STRIP, PLACE_X, PLACE_Y, TEXT_END, MODE, COUNTS, FLAWS
};

static uint32_t one_of(const uint32_t *values, uint32_t count)
{
    return values[within(0, count - 1)];
}
#define ONE_OF(...) one_of((const uint32_t[]){__VA_ARGS__}, sizeof(const uint32_t[]){__VA_ARGS__} / sizeof(uint32_t))

static int32_t any_far_place(void)
{
    static const int32_t places[] = {INT32_MIN, -1025, -1024, 1023, 1024, INT32_MAX};
    return places[within(0, sizeof places / sizeof *places - 1)];
}

/* Of the label's own strip every other time. */
static uint32_t *any_count(void)
{
    uint32_t strip = s.call.label.strip;
    return &s.counts.lit[within(0, 1) && strip < PAILRADISH_STRIPS ? strip : within(0, PAILRADISH_STRIPS - 1)];
}

static uint32_t any_untrue_count(uint32_t lit)
{
    uint32_t most = s.call.shape.width * s.call.shape.rows;
    return ONE_OF(0, 1, lit - 1, lit + 1, lit / 2, most - lit, most - 1, most, most + 1, 0x80000000, 0xFFFFFFFF);
}

/* `word` is one of the font's, and `end` how many of them are handed over: they are chosen while the font is whole. */
static void spoil(int flaw, uint16_t *word, size_t end)
{
    pailradish_shape *shape = &s.call.shape;
    pailradish_label *label = &s.call.label;
    uint32_t half = shape->row_words / 2, *count = any_count();
    switch (flaw) {
    case FONT_DUMMY: *any_dummy_word() = 0xFFFF; break;
    case FONT_WORD: *word = any_damage(*word); break;
    case FONT_END: s.font_words = end; break;
    case ROW_WORDS: shape->row_words = ONE_OF(0, 1, 2 * shape->width - 1, 128, 129, 0x80000000, 0xFFFFFFFF); break;
    case ROWS: shape->rows = ONE_OF(0, 256, 257, 0x80000000, 0xFFFFFFFF); break;
    case WIDTH: shape->width = ONE_OF(0, half, half + 1, 64, 65, 0x80000000, 0x80000001, 0xFFFFFFFF); break;
    case PANEL_END: s.panel_words -= within(0, 2); break;
    case FLIP_END: s.flip_words -= within(0, 2); break;
    case STRIP: label->strip = ONE_OF(31, 32, 0x80000000, 0xFFFFFFFF); break;
    case PLACE_X: label->x = any_far_place(); break;
    case PLACE_Y: label->y = any_far_place(); break;
    case TEXT_END: s.text_bytes = ONE_OF(PAILRADISH_LABEL_BYTES, PAILRADISH_LABEL_BYTES + 1); break;
    case MODE: label->mode = ONE_OF(2, 3, 0x80000000, 0xFFFFFFFF); break;
    case COUNTS: *count = any_untrue_count(*count); break;
    }
    if (flaw == ROW_WORDS || flaw == ROWS)
        s.panel_words = s.flip_words = PANEL;
}

/* By how much the label of a call without a flaw changes the count of its strip. */
static uint32_t gained_by_label(void)
{
    static struct state before;
    before = s;
    plain_call_paint();
    uint32_t gained = s.counts.lit[s.call.label.strip] - before.counts.lit[s.call.label.strip];
    s = before;
    return gained;
}

/* The count of the label's strip becomes one that the label brings to the end of what a count may be, or next to it. */
static void spoil_own_count(void)
{
    uint32_t gained = gained_by_label();
    uint32_t end = (int32_t)gained > 0 ? s.call.shape.width * s.call.shape.rows : 0;
    s.counts.lit[s.call.label.strip] = end - gained + ONE_OF(-1, 0, 1);
}

/* With one flaw, each in its turn; with a count alone; and with some flaws together. */
enum { ONE_FLAW, OWN_COUNT, SOME_FLAWS, WAYS };

static void spoil_call(unsigned way, unsigned i)
{
    uint16_t *word = any_font_word();
    size_t end = any_font_end();
    if (way == ONE_FLAW)
        spoil((int)(i % FLAWS), word, end);
    else if (way == OWN_COUNT)
        spoil_own_count();
    else
        for (int flaw = 0; flaw < FLAWS; flaw++)
            if (within(0, 2) == 0)
                spoil(flaw, word, end);
}

/* Calls that may be refused. */
static void flawed_calls(unsigned i)
{
    static const int calls[] = {PAINT, GATHER, APPLY, CLEAR};
    static struct state whole, flawed;
    whole = s;
    for (unsigned way = 0; way < WAYS; way++) {
        spoil_call(way, i);
        flawed = s;
        for (unsigned k = 0; k < sizeof calls / sizeof *calls; k++) {
            compare("flawed call", i, calls[k], false, false);
            s = flawed;
        }
        s = whole;
    }
}

/* A label of which half is codes of the font. */
static void any_text(void)
{
    s.text_bytes = within(0, PAILRADISH_LABEL_BYTES);
    for (size_t k = 0; k < s.text_bytes; k++)
        s.text[k] = (uint8_t)(within(0, 1) ? any() : within(s.font[1], s.font[2]));
}

/* Mostly such that the pictures come near the strip, wherever FBBox has them, and that some of their rows are on the panel. */
static void any_place(void)
{
    bool near = within(0, 3);
    const uint16_t *body = any_body();
    uint32_t height = body[1] + body[2];
    int32_t x = (int32_t)within(0, 60) - 50 - (font_kerned() ? (int16_t)s.font[4] : 0);
    int32_t y = (int32_t)within(1, s.call.shape.rows + height - 1) - (int32_t)height + body[1];
    if (!near) {
        x = (int32_t)within(0, 120) - 60;
        y = (int32_t)within(0, 80) - 20;
    }
    at(within(0, 31), x, y, within(0, 2));
}

/* Calls with everything at random. The reply that stands there before is a wrong one. */
static void random_calls(unsigned count)
{
    static const int label_calls[] = {CHECK, MEASURE, PAINT, GATHER, JOIN, APPLY, CLEAR, PAINT, FRESH};
    for (unsigned i = 0; i < count; i++) {
        any_font();
        any_panel();
        any_dots();
        any_text();
        any_place();
        for (unsigned k = 0; k < sizeof label_calls / sizeof *label_calls; k++) {
            s.reply.number = 99;
            compare("random call", i, label_calls[k], true, false);
        }
        s.conversion.number = 99;
        if (s.font_words <= OUT)
            compare("random words", i, WORDS, true, false);
        s.conversion.number = 99;
        any_cu();
        compare("random convert", i, CONVERT, true, false);
        s.reply = (pailradish_reply){99, 99, 99};
        damaged_fonts(i);
        any_dots();
        flawed_calls(i);
        s.reply.number = 0;
    }
}

static void check_all(void)
{
    for (const struct one *c = cases; c < cases + CASES; c++)
        for (const unsigned *size = c->sizes; *size; size++) {
            set_up(c, *size);
            bool outside = c->set == set_left || c->set == set_right;
            compare(c->name, *size, c->export, true, c->export >= WORDS && !outside);
        }
    set_up(cases, 27);
    random_calls(500);
    static const unsigned numbers[] = {1, 2, 3, 4, 5, 6, 7, 8, 9, 10, 11, 12, 15, 16, PAILRADISH_COUNT_RANGE};
    for (unsigned k = 0; k < sizeof numbers / sizeof *numbers; k++)
        if (refused[numbers[k]] == 0)
            fail("refusal", numbers[k], "nobody", "gives it");
    printf("%lu calls compared, all equal\n", compared);
}

static void list(void)
{
    for (const struct one *c = cases; c < cases + CASES; c++)
        for (const unsigned *size = c->sizes; *size; size++)
            printf("%s|%s|%s|%u|%s\n", c->sizes[1] ? "series" : "case", export_names[c->export], c->name, *size, c->title);
}

/* The keep and the flip of a sheet stand side by side. */
static void where(const struct one *c)
{
    const uint16_t *first = c->export == PAINT ? s.panel : s.keep, *end = c->export == PAINT ? s.panel + PANEL : s.flip + PANEL;
    printf("%ju %ju\n", (uintmax_t)(uintptr_t)first, (uintmax_t)(uintptr_t)end);
}

static const struct one *case_of(const char *name)
{
    for (const struct one *c = cases; c < cases + CASES; c++)
        if (strcmp(name, c->name) == 0)
            return c;
    return NULL;
}

static call *call_of(const char *name, int export)
{
    for (int who = PROVED; who < CALLERS; who++)
        if (strcmp(name, callers[who].name) == 0)
            return callers[who].calls[export];
    return NULL;
}

static unsigned long number_of(const char *word)
{
    return strtoul(word, NULL, 10);
}

static int usage(void)
{
    fprintf(stderr, "usage: bench list, bench check, bench CASE SIZE proved|plain|words|tested TIMES, bench where CASE, or\n"
                    "       bench least CASE SIZE\n");
    return 2;
}

int main(int count, char **words)
{
    const char *command = count > 1 ? words[1] : "";
    bool drawing = count > 2 && (strcmp(command, "where") == 0 || strcmp(command, "least") == 0);
    const struct one *c = case_of(drawing ? words[2] : command);
    if (count == 2 && strcmp(command, "list") == 0)
        list();
    else if (count == 2 && strcmp(command, "check") == 0)
        check_all();
    else if (!c || (drawing && c->export != PAINT && c->export != GATHER))
        return usage();
    else if (count == 3 && strcmp(command, "where") == 0)
        where(c);
    else if (count == 4 && strcmp(command, "least") == 0) {
        set_up(c, (unsigned)number_of(words[3]));
        struct trips least = least_trips(c->export);
        printf("%lu %lu\n", least.reads, least.writes);
    } else if (count == 5 && call_of(words[3], c->export)) {
        set_up(c, (unsigned)number_of(words[2]));
        call *chosen = call_of(words[3], c->export);
        for (unsigned long times = number_of(words[4]); times > 0; times--)
            chosen();
    } else
        return usage();
    return 0;
}
