/* Pailradish for C: the functions of libdesk.a, for x86-64.

   They paint names on the panel of an audio router that has 32 strips, one for each channel, with strike fonts of the Xerox Alto. The way
   of a label from a font file to the panel:

       pailradish_check     is this file a font?
       pailradish_words     its bytes become words
       pailradish_paint     a label is painted; or labels are gathered on a sheet (pailradish_fresh, pailradish_gather), which is applied to
                            the panel at once (pailradish_apply)
       pailradish_clear     all dots of the panel go out

   Beside the panel the caller keeps how many dots are lit in each strip: see pailradish_counts.

   Every function answers for every value of its numbers and for slices of every length; nothing has to be tested before a call. A slice is
   a pointer and a count of its elements. The pointer is never null, also where the count is 0, and is aligned for its elements. A slice
   that a call writes overlaps no other slice of that call.

   A refusal's number stands below and in docs/REFUSALS.md; 0 means done. Beside a refusal the other numbers are 0, no lent word has
   changed, and counts are those that were given.

   Words are 16 bits. In a file's bytes the high byte of a word comes first; a slice of words has them in the processor's own order.

   Nothing is kept from one call to the next: no function allocates memory, has variables of its own, or uses a pointer after it has
   returned. So calls may run at the same time where none writes what another uses. pailradish_convert takes about 7 KB of stack,
   pailradish_paint about 3.5 KB, every other function less than 2.5 KB. */
#ifndef PAILRADISH_H
#define PAILRADISH_H

#include <stddef.h>
#include <stdint.h>

#ifdef __cplusplus
extern "C" {
#endif

/* How many strips there are; and limits, for the sizes of arrays: each is the most that is accepted. */
enum {
    PAILRADISH_STRIPS = 32,
    PAILRADISH_ROW_WORDS = 128,
    PAILRADISH_ROWS = 256,
    PAILRADISH_PANEL_WORDS = 32768, /* 128 * 256 */
    PAILRADISH_STRIP_COLUMNS = 64,
    PAILRADISH_LABEL_BYTES = 64,
    PAILRADISH_FONT_WORDS = 65800,  /* of a strike file without an index, be it accepted or written */
    PAILRADISH_BODIES = 128,        /* of an index */
    PAILRADISH_INDEX_WORDS = 8389005 /* of a strike file with an index: 128 bodies of 65,535 words, and 525 words around them */
};

/* The least and the most of x and y. */
enum { PAILRADISH_LEAST_PLACE = -1024, PAILRADISH_MOST_PLACE = 1023 };

/* The size of a panel. It has `rows` rows of `row_words` words, row behind row from the top. Column 0 is the most significant bit of a
   row's first word, column 16 that of its second. A dot is set where its bit is 1. Strip k is the columns from k * width to
   k * width + width - 1.

   Accepted are row_words 1 to 128, rows 1 to 256 and width 1 to 64, where the 32 strips are on the panel: 32 * width <= 16 * row_words. A
   slice that holds a panel, or one half of a sheet, has at least row_words * rows words. It may be longer: the words behind are never
   touched. Anything else is refused by 8. */
typedef struct {
    uint32_t row_words, rows, width;
} pailradish_shape;

/* Modes of painting. Each dot of a character's picture that is 1 sets a dot of the panel, clears it, or flips it. Characters are drawn in
   order; where pictures overlap, PAILRADISH_INVERT flips a dot once for each. */
enum { PAILRADISH_PAINT = 0, PAILRADISH_ERASE = 1, PAILRADISH_INVERT = 2 };

/* Where and how a label is painted.

   strip   0 to 31.
   x       Where the pen starts, in columns from the left edge of the strip: -1024 to 1023. A plain font has the left column of a picture at
           the pen, and the pen then moves by the picture's width. A kerned font says for each character where its left column is, which is
           pen + FBBox + offset and may be left of the pen, and how far the pen moves.
   y       The baseline, in rows from the top of the panel: -1024 to 1023. Row r of a picture, from 0 at its top, is in row y - ascent + r
           of the panel, with the ascent of the font; of a font with an index, that of the body in which the picture is. So the `ascent`
           rows of a picture that stand on the baseline are in rows y - ascent to y - 1. Row y is the first one below the letters' feet;
           what hangs below the baseline is in rows y to y + descent - 1.
   mode    PAILRADISH_PAINT, PAILRADISH_ERASE or PAILRADISH_INVERT.

   Dots that come outside the strip, or outside the panel, are dropped. That is no refusal: a name that is too long ends at the edge of its
   strip. */
typedef struct {
    uint32_t strip;
    int32_t x, y;
    uint32_t mode;
} pailradish_label;

/* One label call: on what panel, and where. */
typedef struct {
    pailradish_shape shape;
    pailradish_label label;
} pailradish_call;

/* Measuring, painting and gathering: where the pen stands behind the last character, in strip columns, and for how many codes the dummy
   stood in. */
typedef struct {
    uint32_t number;
    int32_t pen;
    uint32_t substitutes;
} pailradish_reply;

/* How many dots are lit in each strip, for the backlight's dimmer: thirty-two counts that the caller keeps beside the panel. Painting,
   applying a sheet and clearing are handed the counts and hand back the new ones. That is each count as it was, one more for each dot of
   the strip that has come on by the call, and one less for each that has gone out. Dots in columns of no strip are counted nowhere.

   To start, set the panel's memory to zeros, and the counts too:

       memset(panel, 0, sizeof panel);
       pailradish_counts counts = {{0}};

   Then hand each call the counts that the one before handed back, be it done or refused, and they are true after every call: lit[k] dots
   are lit in strip k. They stop being true where something else writes on the panel, where the panel gets another size, or where counts
   that a call handed back are lost. No call notices that while every count stays within 0 and width * rows; where one would not, the call
   is refused by 30. The way back is to start again, with zeros in both, or to count the panel's dots oneself. */
typedef struct {
    uint32_t lit[PAILRADISH_STRIPS];
} pailradish_counts;

/* Painting: the reply, and the counts for the next call. */
typedef struct {
    pailradish_reply reply;
    pailradish_counts counts;
} pailradish_painted;

/* Applying and clearing: the number, and the counts for the next call. */
typedef struct {
    uint32_t number;
    pailradish_counts counts;
} pailradish_settled;

/* Converting, and making words of bytes: how many words were written. */
typedef struct {
    uint32_t number;
    size_t words;
} pailradish_conversion;

/* The numbers of the refusals, in the order of their tests: where several hold, the first is given. In a strike file n is the number of its
   codes, max - min + 1, and height is ascent + descent. A file without an index is one body; the bodies of an index are tested in turn by
   4, 5 and 6, so that 6 of the first comes before 4 of the second. FBBox is the font's, and is tested before them. */
enum {
    PAILRADISH_DONE = 0,

    PAILRADISH_ODD_BYTES = 14,    /* an odd number of bytes, where words are read from bytes */

    PAILRADISH_FONT_SHORT = 1,    /* fewer than 9 words; tested behind 2: fewer than 13 in a kerned file; behind 15: fewer than stand before
                                     the bodies of an index, n + 8 in a plain one, n + 12 in a kerned one */
    PAILRADISH_FONT_FORMAT = 2,   /* first word: top bit 0, or the low twelve bits not 0 */
    PAILRADISH_FONT_CODES = 3,    /* min over max, or max over 255 */
    PAILRADISH_FONT_BODIES = 15,  /* an index of no body, or of more than 128 */
    PAILRADISH_FONT_SIZES = 4,    /* height not 1 to 256, raster not 1 to 4096, xoffset not 0, or in a kerned file FBBox not -255 to 255 */
    PAILRADISH_FONT_LENGTH = 5,   /* length word not raster * height + n + 7; or words of the file not raster * height and n + 11 more in a
                                     plain one, 2 * n + 16 more in a kerned one. Of an index: five words of a body not all there (tested
                                     before its 4), a length word below raster * height + 7, fewer words in the file than that; or behind
                                     the last body not just n + 1 words in a kerned one, not none in a plain one */
    PAILRADISH_FONT_POINTERS = 6, /* a column pointer below the one before it, or the last one over 16 * raster */
    PAILRADISH_FONT_NAMES = 16,   /* a map entry, of a code that is not absent or of the dummy, that names no body or no picture of it */
    PAILRADISH_FONT_DUMMY = 7,    /* in a kerned file the dummy's width entry is FFFF, in an index the top bit of its map entry is 1. A
                                     plain file's dummy may have no columns */

    PAILRADISH_PANEL_SIZE = 8,    /* row_words, rows or width out of range, strips wider than the panel, or a slice too short for it */
    PAILRADISH_STRIP_RANGE = 9,   /* strip over 31 */
    PAILRADISH_PLACE_RANGE = 10,  /* x or y not -1024 to 1023 */
    PAILRADISH_LABEL_LONG = 11,   /* text over 64 bytes */
    PAILRADISH_MODE_RANGE = 12,   /* mode over 2 */
    PAILRADISH_COUNT_RANGE = 30,  /* a count, of any strip, over width * rows, or one that would be below 0 or over that when the call is
                                     done. True counts are never refused: those given do not fit the panel. Start again as at
                                     pailradish_counts; pailradish_clear does not help, since it may be refused too */

    PAILRADISH_CU_SIZE = 20,      /* fewer than 2 words, H (rows of a raster) not 1 to 128, or WW (words of its row) not 1 to 16 */
    PAILRADISH_CU_LENGTH = 21,    /* words behind the first two no multiple of 2 + H * WW */
    PAILRADISH_CU_CODES = 22,     /* a code over 255, or there twice */
    PAILRADISH_CU_ORIGIN = 23,    /* no code 65 with a dot */
    PAILRADISH_CU_SPACING = 24,   /* a spacing over 255, or offset and spacing both 255 */
    PAILRADISH_CU_OFFSET = 25,    /* an offset over 255; no CU file has one that 20 does not refuse */
    PAILRADISH_OUT_LARGE = 26,    /* in the file to be written: over 65,535 columns, or a length word over 65,535 */
    PAILRADISH_OUT_SHORT = 27     /* the slice to be written is too short */
};

/* The message for a number: for a refusal, as in docs/REFUSALS.md. It lives as long as the program. */
static inline const char *pailradish_message(uint32_t number)
{
    switch (number) {
    case PAILRADISH_DONE: return "done";
    case PAILRADISH_ODD_BYTES: return "odd number of bytes";
    case PAILRADISH_FONT_SHORT: return "font file too short for its header";
    case PAILRADISH_FONT_FORMAT: return "not a plain or kerned strike file";
    case PAILRADISH_FONT_CODES: return "font codes out of order or over 255";
    case PAILRADISH_FONT_BODIES: return "index: number of bodies not 1 to 128";
    case PAILRADISH_FONT_SIZES: return "size in the font's header out of range";
    case PAILRADISH_FONT_LENGTH: return "font's length is not what its header says";
    case PAILRADISH_FONT_POINTERS: return "font's column pointers out of order or past the bitmap";
    case PAILRADISH_FONT_NAMES: return "index: a code names no picture";
    case PAILRADISH_FONT_DUMMY: return "font has no dummy character";
    case PAILRADISH_PANEL_SIZE: return "panel size out of range, or its memory too short";
    case PAILRADISH_STRIP_RANGE: return "strip over 31";
    case PAILRADISH_PLACE_RANGE: return "x or y not -1024 to 1023";
    case PAILRADISH_LABEL_LONG: return "label over 64 bytes";
    case PAILRADISH_MODE_RANGE: return "mode over 2";
    case PAILRADISH_COUNT_RANGE: return "lit dots of a strip out of range";
    case PAILRADISH_CU_SIZE: return "CU file too short, or its raster size out of range";
    case PAILRADISH_CU_LENGTH: return "CU file ends inside a character";
    case PAILRADISH_CU_CODES: return "CU code over 255, or there twice";
    case PAILRADISH_CU_ORIGIN: return "CU file has no code 65 with a dot";
    case PAILRADISH_CU_SPACING: return "CU spacing too large";
    case PAILRADISH_CU_OFFSET: return "CU character too far right";
    case PAILRADISH_OUT_LARGE: return "font to be written too large";
    case PAILRADISH_OUT_SHORT: return "output memory too short";
    default: return "unknown number";
    }
}

/* Fonts. There are four kinds of font file, and every function that is handed a font takes all of them and tells them apart by their first
   word. A PlainStrike (8000) or a KernedStrike (9000) is one body: a bitmap, and for each code from min to max the columns of its picture
   there. A PlainStrikeIndex (C000) or a KernedStrikeIndex (D000) has up to 128 bodies, and a map that names a body and a picture in it for
   each code and for the dummy, so that many codes can share one picture. A third bit, 2000, for fixed spacing, may be set in each.

   Each body of an index has an ascent of its own, so that pictures of any height stand on the one baseline y of a label. No label touches
   a row above y less the greatest ascent of a body, nor one at or below y plus the greatest descent; the words maxascent and maxdescent of
   the file are not looked at. Codes of a kerned index that share a picture have each their own offset and spacing.

   Absent is a code below min or over max; in a PlainStrike a code whose picture has no columns; in an index one whose map entry has its top
   bit set; in both kerned kinds one whose width entry is FFFF. Any other code is there, also where its picture has no columns: nothing is
   drawn then, and the pen moves by the spacing, in a PlainStrikeIndex by 0.

   Each function that is handed a font tests it in every call, and is refused by 1, 2, 1 for a short kerned file, 3, 15, 1 for an index that
   ends before its bodies, 4, 5, 6, 16 and 7: below, "the font's numbers". What is refused elsewhere comes in the order in which it is
   named.

   A text is bytes, each a code of the font. A zero does not end it. A code that is absent is shown as the font's dummy character and
   counted as a substitute. Where a plain font gives its dummy no columns, nothing is drawn for such a code and the pen stays where it is;
   it is counted all the same. */

/* Checks the bytes of a strike file: 14, or the font's numbers, or 0 for a font that is accepted. */
uint32_t pailradish_check(const uint8_t *font, size_t font_bytes);

/* Measures a label with the font in these bytes, from the pen x on: what painting would reply, without a panel. Refused by 14, the font's
   numbers, 10 for x, and 11. */
pailradish_reply pailradish_measure(const uint8_t *font, size_t font_bytes, int32_t x, const uint8_t *text, size_t text_bytes);

/* Writes the words that the bytes of a file spell, byte_count / 2 of them, over the first words; the words behind them stay. Refused by 14,
   and by 27 where word_count is below byte_count / 2. */
pailradish_conversion pailradish_words(const uint8_t *bytes, size_t byte_count, uint16_t *words, size_t word_count);

/* Paints a label on a panel. Refused by the font's numbers, 8, 9, 10, 11, 12 and 30. Of the counts only that of the label's strip
   changes. */
pailradish_painted pailradish_paint(const uint16_t *font, size_t font_words, pailradish_call call, const uint8_t *text, size_t text_bytes,
                                    uint16_t *panel, size_t panel_words, pailradish_counts counts);

/* Clears a panel: its words become 0, all row_words * rows of them. Refused by 8 and 30. The dots that go out are taken off the counts:
   true ones become 0, and others keep what was too many. */
pailradish_settled pailradish_clear(pailradish_shape shape, uint16_t *panel, size_t panel_words, pailradish_counts counts);

/* Sheets. A sheet holds what labels do to a panel, so that it can be done later, at once, and to more than one panel. It has two halves of
   the panel's shape, keep and flip: applied, each word of the panel becomes (word & keep) ^ flip. */

/* Makes a sheet fresh: applied, it alters nothing. keep becomes FFFF and flip 0. Refused by 8. */
uint32_t pailradish_fresh(pailradish_shape shape, uint16_t *keep, size_t keep_words, uint16_t *flip, size_t flip_words);

/* Gathers a label on a sheet, behind those that are on it, and replies as painting it does. Refused by the font's numbers, 8, for both
   halves, 9, 10, 11 and 12. There are no counts before the sheet is applied. */
pailradish_reply pailradish_gather(const uint16_t *font, size_t font_words, pailradish_call call, const uint8_t *text, size_t text_bytes,
                                   uint16_t *keep, size_t keep_words, uint16_t *flip, size_t flip_words);

/* Joins a second sheet onto a first, which changes: applied, it does what the first did and then what the second does. Refused by 8, for
   all four halves. */
uint32_t pailradish_join(pailradish_shape shape, uint16_t *keep, size_t keep_words, uint16_t *flip, size_t flip_words,
                         const uint16_t *then_keep, size_t then_keep_words, const uint16_t *then_flip, size_t then_flip_words);

/* Applies a sheet to a panel. Refused by 8, for both halves and the panel, and 30. True counts become what they would be if its labels had
   been painted one by one. */
pailradish_settled pailradish_apply(pailradish_shape shape, const uint16_t *keep, size_t keep_words, const uint16_t *flip,
                                    size_t flip_words, uint16_t *panel, size_t panel_words, pailradish_counts counts);

/* Writes the KernedStrike file of a CU file over the first words of the output; the words behind it stay. Refused by 20 to 27. A CU file is
   H, WW, and for each character its code, its spacing and H * WW words of raster, the top row first; characters come in any order. An
   output of PAILRADISH_FONT_WORDS is never too short. */
pailradish_conversion pailradish_convert(const uint16_t *cu, size_t cu_words, uint16_t *out, size_t out_words);

#ifdef __cplusplus
}
#endif

#endif
