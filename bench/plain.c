/* Plain C that does what the exports do, as it is written where nothing is proved: it believes its inputs. It refuses nothing and tests no
   index, paints and converts dot by dot, and applies, joins and clears word by word. It counts lit dots where it alters them. Only the
   check of a font tests, since testing is what it is for. It is here to be measured against, and is no part of the library. */
#include "font.h"
#include "plain.h"

APART uint32_t check_index(const uint8_t *font, size_t words)
{
    survey v;
    return index_number(by_bytes, disorder_by_bytes, font, words, &v);
}

uint32_t plain_check(const uint8_t *font, size_t font_bytes)
{
    if (font_bytes % 2)
        return 14;
    if (has_index(by_bytes, font, font_bytes / 2))
        return check_index(font, font_bytes / 2);
    return strike_number(by_bytes, disorder_by_bytes, font, font_bytes / 2);
}

/* Where there are width entries no body is looked at. */
APART pailradish_reply measure_index(const uint8_t *font, size_t font_bytes, int32_t x, const uint8_t *text, size_t text_bytes)
{
    uint32_t starts[MOST_BODIES];
    face f = index_of(by_bytes, font, font_bytes / 2);
    if (!f.kerned)
        walk(by_bytes, font, &f, starts);
    pailradish_reply reply = {0, x, 0};
    for (size_t i = 0; i < text_bytes; i++) {
        unsigned k = mapped_place(by_bytes, font, &f, text[i]);
        if (f.kerned)
            reply.pen += (int32_t)(by_bytes(font, f.widths + k) & 0xFF);
        else
            reply.pen += (int32_t)mapped_glyph(by_bytes, font, &f, starts, k).columns;
        reply.substitutes += k == f.codes;
    }
    return reply;
}

pailradish_reply plain_measure(const uint8_t *font, size_t font_bytes, int32_t x, const uint8_t *text, size_t text_bytes)
{
    if (by_bytes(font, 0) & INDEX)
        return measure_index(font, font_bytes, x, text, text_bytes);
    face f = face_of(by_bytes, font);
    pailradish_reply reply = {0, x, 0};
    for (size_t i = 0; i < text_bytes; i++) {
        glyph g = glyph_of(by_bytes, font, &f, text[i]);
        reply.pen += (int32_t)g.advance;
        reply.substitutes += g.substitute;
    }
    return reply;
}

pailradish_conversion plain_words(const uint8_t *bytes, size_t byte_count, uint16_t *words, size_t word_count)
{
    (void)word_count;
    for (size_t i = 0; i < byte_count / 2; i++)
        words[i] = (uint16_t)by_bytes(bytes, i);
    return (pailradish_conversion){0, byte_count / 2};
}

/* The rows of a picture that are on the panel, and the row of the panel where its first one is or would be. */
typedef struct {
    int top, first, end;
} span;

ALWAYS span span_of(const face *f, const pailradish_call *call)
{
    span r;
    int rows = (int)call->shape.rows;
    r.top = call->label.y - (int)f->ascent;
    r.first = r.top < 0 ? -r.top : 0;
    r.end = r.top + (int)f->height > rows ? rows - r.top : (int)f->height;
    return r;
}

/* Draws a label dot by dot: on a panel, where there is no keep and the count of the strip goes along, or on the keep and the flip of a
   sheet. In a font without an index all pictures have the same rows. Whether there is an index is a constant in each copy that the compiler
   makes of this. */
ALWAYS pailradish_reply draw(bool index, const uint16_t *font, size_t font_words, const pailradish_call *call, const uint8_t *text,
                             size_t text_bytes, uint16_t *keep, uint16_t *flip, uint32_t *lit)
{
    uint32_t starts[MOST_BODIES];
    face f = index ? index_of(by_words, font, font_words) : face_of(by_words, font);
    if (index)
        walk(by_words, font, &f, starts);
    span r = span_of(&f, call);
    pailradish_shape shape = call->shape;
    uint32_t mode = call->label.mode;
    pailradish_reply reply = {0, call->label.x, 0};
    for (size_t i = 0; i < text_bytes; i++) {
        glyph g;
        if (index) {
            g = mapped_glyph(by_words, font, &f, starts, mapped_place(by_words, font, &f, text[i]));
            r = span_of(&f, call);
        } else
            g = glyph_of(by_words, font, &f, text[i]);
        int left = reply.pen + f.fbbox + (int)g.offset;
        int first_column = left < 0 ? -left : 0;
        int end_column = left + (int)g.columns > (int)shape.width ? (int)shape.width - left : (int)g.columns;
        for (int row = r.first; row < r.end; row++) {
            const uint16_t *from = font + f.bitmap + (size_t)row * f.raster;
            size_t to = (size_t)(r.top + row) * shape.row_words;
            for (int column = first_column; column < end_column; column++) {
                unsigned at = g.first + (unsigned)column;
                if (!(from[at / 16] >> (15 - at % 16) & 1))
                    continue;
                unsigned dot = call->label.strip * shape.width + (unsigned)(left + column);
                uint16_t bit = 0x8000 >> dot % 16;
                bool was = flip[to + dot / 16] & bit;
                if (mode == PAILRADISH_PAINT)
                    flip[to + dot / 16] |= bit;
                else if (mode == PAILRADISH_ERASE)
                    flip[to + dot / 16] &= ~bit;
                else
                    flip[to + dot / 16] ^= bit;
                if (lit)
                    *lit += (mode == PAILRADISH_INVERT ? !was : mode == PAILRADISH_PAINT) - was;
                if (keep && mode != PAILRADISH_INVERT)
                    keep[to + dot / 16] &= ~bit;
            }
        }
        reply.pen += (int32_t)g.advance;
        reply.substitutes += g.substitute;
    }
    return reply;
}

APART pailradish_reply paint_index(const uint16_t *font, size_t font_words, const pailradish_call *call, const uint8_t *text,
                                   size_t text_bytes, uint16_t *panel, uint32_t *lit)
{
    uint32_t own = *lit;
    pailradish_reply reply = draw(true, font, font_words, call, text, text_bytes, NULL, panel, &own);
    *lit = own;
    return reply;
}

APART pailradish_reply gather_index(const uint16_t *font, size_t font_words, const pailradish_call *call, const uint8_t *text,
                                    size_t text_bytes, uint16_t *keep, uint16_t *flip)
{
    return draw(true, font, font_words, call, text, text_bytes, keep, flip, NULL);
}

pailradish_painted plain_paint(const uint16_t *font, size_t font_words, pailradish_call call, const uint8_t *text, size_t text_bytes,
                               uint16_t *panel, size_t panel_words, pailradish_counts counts)
{
    (void)panel_words;
    pailradish_reply reply;
    if (font[0] & INDEX)
        reply = paint_index(font, font_words, &call, text, text_bytes, panel, &counts.lit[call.label.strip]);
    else {
        uint32_t lit = counts.lit[call.label.strip];
        reply = draw(false, font, font_words, &call, text, text_bytes, NULL, panel, &lit);
        counts.lit[call.label.strip] = lit;
    }
    return (pailradish_painted){reply, counts};
}

pailradish_reply plain_gather(const uint16_t *font, size_t font_words, pailradish_call call, const uint8_t *text, size_t text_bytes,
                              uint16_t *keep, size_t keep_words, uint16_t *flip, size_t flip_words)
{
    (void)keep_words, (void)flip_words;
    if (font[0] & INDEX)
        return gather_index(font, font_words, &call, text, text_bytes, keep, flip);
    return draw(false, font, font_words, &call, text, text_bytes, keep, flip, NULL);
}

uint32_t plain_fresh(pailradish_shape shape, uint16_t *keep, size_t keep_words, uint16_t *flip, size_t flip_words)
{
    (void)keep_words, (void)flip_words;
    for (size_t i = 0; i < (size_t)shape.row_words * shape.rows; i++) {
        keep[i] = 0xFFFF;
        flip[i] = 0;
    }
    return 0;
}

uint32_t plain_join(pailradish_shape shape, uint16_t *keep, size_t keep_words, uint16_t *flip, size_t flip_words,
                    const uint16_t *then_keep, size_t then_keep_words, const uint16_t *then_flip, size_t then_flip_words)
{
    (void)keep_words, (void)flip_words, (void)then_keep_words, (void)then_flip_words;
    for (size_t i = 0; i < (size_t)shape.row_words * shape.rows; i++) {
        keep[i] &= then_keep[i];
        flip[i] = (flip[i] & then_keep[i]) ^ then_flip[i];
    }
    return 0;
}

/* A word of the panel becomes another, `column` being its first: what each strip gains and loses by it. */
ALWAYS void recount(pailradish_counts *counts, uint32_t width, uint32_t column, unsigned was, unsigned is)
{
    uint32_t from = column, end = column + 16;
    for (uint32_t strip = from / width; strip < PAILRADISH_STRIPS && from < end; strip++) {
        uint32_t upto = (strip + 1) * width < end ? (strip + 1) * width : end;
        unsigned mask = (0xFFFFu >> (from - column)) & ~(0xFFFFu >> (upto - column));
        counts->lit[strip] += (uint32_t)__builtin_popcount(is & mask) - (uint32_t)__builtin_popcount(was & mask);
        from = upto;
    }
}

/* Most words of most sheets alter nothing: those are not counted. */
pailradish_settled plain_apply(pailradish_shape shape, const uint16_t *keep, size_t keep_words, const uint16_t *flip, size_t flip_words,
                               uint16_t *panel, size_t panel_words, pailradish_counts counts)
{
    (void)keep_words, (void)flip_words, (void)panel_words;
    for (uint32_t row = 0; row < shape.rows; row++)
        for (uint32_t word = 0; word < shape.row_words; word++) {
            size_t i = (size_t)row * shape.row_words + word;
            unsigned was = panel[i], is = (was & keep[i]) ^ flip[i];
            if (is != was)
                recount(&counts, shape.width, 16 * word, was, is);
            panel[i] = (uint16_t)is;
        }
    return (pailradish_settled){0, counts};
}

pailradish_settled plain_clear(pailradish_shape shape, uint16_t *panel, size_t panel_words, pailradish_counts counts)
{
    (void)panel_words;
    for (uint32_t row = 0; row < shape.rows; row++)
        for (uint32_t word = 0; word < shape.row_words; word++) {
            size_t i = (size_t)row * shape.row_words + word;
            recount(&counts, shape.width, 16 * word, panel[i], 0);
            panel[i] = 0;
        }
    return (pailradish_settled){0, counts};
}

/* One dot of a character of a CU file. */
ALWAYS unsigned cu_dot(const uint16_t *character, unsigned row_words, unsigned row, unsigned column)
{
    return character[2 + row * row_words + column / 16] >> (15 - column % 16) & 1;
}

pailradish_conversion plain_convert(const uint16_t *cu, size_t cu_words, uint16_t *out, size_t out_words)
{
    (void)out_words;
    unsigned rows = cu[0], row_words = cu[1], width = 16 * row_words;
    size_t step = 2 + (size_t)rows * row_words;
    const uint16_t *places[256] = {0};
    unsigned lefts[256], columns[256], spacings[256];
    unsigned min = 255, max = 0, most = 0, least = 255;
    unsigned left = width, right = 0, top = rows, bottom = 0;

    /* Each character, and its box. */
    for (size_t at = 2; at < cu_words; at += step) {
        const uint16_t *character = cu + at;
        unsigned code = character[0], spacing = character[1], from = width, upto = 0;
        for (unsigned i = 0; i < rows; i++)
            for (unsigned j = 0; j < width; j++)
                if (cu_dot(character, row_words, i, j)) {
                    if (j < from) from = j;
                    if (j + 1 > upto) upto = j + 1;
                    if (i < top) top = i;
                    if (i > bottom) bottom = i;
                }
        places[code] = character;
        lefts[code] = from;
        columns[code] = upto > from ? upto - from : 0;
        spacings[code] = spacing;
        if (from < left) left = from;
        if (upto > right) right = upto;
        if (code < min) min = code;
        if (code > max) max = code;
        if (spacing > most) most = spacing;
        if (spacing < least) least = spacing;
    }

    /* The origin: the leftmost dot of the lowest row of code 65 that has one. */
    unsigned base = rows, origin = width;
    while (origin == width) {
        base--;
        for (origin = 0; origin < width && !cu_dot(places[65], row_words, base, origin); origin++)
            ;
    }

    /* The header. */
    unsigned codes = max - min + 1, height = bottom - top + 1, total = right - left;
    for (unsigned c = min; c <= max; c++)
        if (places[c])
            total += columns[c];
    unsigned raster = (total + 15) / 16;
    uint16_t header[13] = {least == most ? 0xB000 : 0x9000, min, max, most, left - origin, base - bottom, right - left, height,
                           raster * height + codes + 7, base - top + 1, bottom - base, 0, raster};
    for (unsigned i = 0; i < 13; i++)
        out[i] = header[i];

    /* The bitmap, the pointers and the width entries. */
    uint16_t *bitmap = out + 13, *pointers = bitmap + (size_t)raster * height, *widths = pointers + codes + 2;
    for (size_t i = 0; i < (size_t)raster * height; i++)
        bitmap[i] = 0;
    unsigned at = 0;
    for (unsigned c = min; c <= max; c++) {
        pointers[c - min] = at;
        widths[c - min] = 0xFFFF;
        if (!places[c])
            continue;
        widths[c - min] = (columns[c] ? lefts[c] - left : origin - left) << 8 | spacings[c];
        for (unsigned i = 0; i < height; i++)
            for (unsigned j = 0; j < columns[c]; j++)
                if (cu_dot(places[c], row_words, top + i, lefts[c] + j))
                    bitmap[i * raster + (at + j) / 16] |= 0x8000 >> (at + j) % 16;
        at += columns[c];
    }
    pointers[codes] = at;
    for (unsigned j = 0; j < right - left; j++, at++)
        for (unsigned i = 0; i < height; i++)
            bitmap[i * raster + at / 16] |= 0x8000 >> at % 16;
    pointers[codes + 1] = at;
    widths[codes] = most;
    return (pailradish_conversion){0, 13 + (size_t)raster * height + 2 * codes + 3};
}
