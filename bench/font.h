/* What plain.c and words.c read of a font, and how they test one. Everything here is made part of its caller, so that each of them is
   compiled for the way in which it reads words. */
#ifndef FONT_H
#define FONT_H

#include "pailradish.h"

#include <stdbool.h>

#define ALWAYS static inline __attribute__((always_inline))
/* What is done for a font with an index stands apart, so that a font without one is not slower for it. */
#define APART static __attribute__((noinline))

/* Word i of a font: of its words, or of its bytes, the high byte first. */
typedef unsigned reader(const void *font, size_t i);

ALWAYS unsigned by_words(const void *font, size_t i)
{
    return ((const uint16_t *)font)[i];
}

ALWAYS unsigned by_bytes(const void *font, size_t i)
{
    const uint8_t *bytes = font;
    return bytes[2 * i] << 8 | bytes[2 * i + 1];
}

/* What finds the pictures of a font. Where it has an index the map says in which body a picture is, and ascent, height, raster, bitmap and
   pointers are those of the body that was opened last. */
typedef struct {
    bool kerned;
    unsigned min, max, codes, ascent, height, raster;
    int fbbox;
    size_t bitmap, pointers, widths, map;
} face;

enum { MOST_BODIES = PAILRADISH_BODIES };

/* The bit of a map entry that says that there is no picture, the entry of an absent code in the widths, and the bit of a font that has an
   index. */
enum { MISSING = 0x8000, ABSENT = 0xFFFF, INDEX = 0x4000 };

ALWAYS face front_of(reader *word, const void *font)
{
    face f = {0};
    f.kerned = word(font, 0) & 0x1000;
    f.min = word(font, 1);
    f.max = word(font, 2);
    f.codes = f.max - f.min + 1;
    f.fbbox = f.kerned ? (int16_t)word(font, 4) : 0;
    return f;
}

/* The body that begins with word `at`. */
ALWAYS void open_body(reader *word, const void *font, face *f, size_t at)
{
    f->ascent = word(font, at + 1);
    f->height = f->ascent + word(font, at + 2);
    f->raster = word(font, at + 4);
    f->bitmap = at + 5;
    f->pointers = f->bitmap + (size_t)f->raster * f->height;
}

/* A font without an index. */
ALWAYS face face_of(reader *word, const void *font)
{
    face f = front_of(word, font);
    open_body(word, font, &f, f.kerned ? 8 : 4);
    f.widths = f.pointers + f.codes + 2;
    return f;
}

/* A font of so many words that has an index; no body of it is open. The word in front of the map counts the bodies, which stand behind
   it. The width entries are the last words. */
ALWAYS face index_of(reader *word, const void *font, size_t words)
{
    face f = front_of(word, font);
    f.map = f.kerned ? 11 : 7;
    f.widths = words - f.codes - 1;
    return f;
}

/* Where each body begins. */
ALWAYS void walk(reader *word, const void *font, const face *f, uint32_t *starts)
{
    unsigned bodies = word(font, f->map - 1);
    size_t at = f->map + f->codes + 1;
    for (unsigned k = 0; k < bodies; k++) {
        starts[k] = (uint32_t)at;
        at += word(font, at);
    }
}

/* A column pointer is below the one before it, or the last is over the most. A word of bytes is dear to make, so each is made once; where
   there are words it is quicker to read each twice than to hand it on to the next turn. */
typedef bool disorder(const void *font, size_t first, size_t end, unsigned most);

ALWAYS bool disorder_by_bytes(const void *font, size_t first, size_t end, unsigned most)
{
    unsigned before = 0;
    for (size_t i = first; i < end; i++) {
        unsigned pointer = by_bytes(font, i);
        if (pointer < before)
            return true;
        before = pointer;
    }
    return before > most;
}

ALWAYS bool disorder_by_words(const void *font, size_t first, size_t end, unsigned most)
{
    for (size_t i = first; i < end - 1; i++)
        if (by_words(font, i + 1) < by_words(font, i))
            return true;
    return by_words(font, end - 1) > most;
}

/* What every font is asked first. */
ALWAYS uint32_t front_number(reader *word, const void *font, size_t words)
{
    if (words < 9)
        return PAILRADISH_FONT_SHORT;
    unsigned format = word(font, 0), min = word(font, 1), max = word(font, 2);
    if ((format & 0x8FFF) != 0x8000)
        return PAILRADISH_FONT_FORMAT;
    if (format & 0x1000 && words < 13)
        return PAILRADISH_FONT_SHORT;
    if (min > max || max > 255)
        return PAILRADISH_FONT_CODES;
    return PAILRADISH_DONE;
}

ALWAYS bool bad_box(const face *f)
{
    return f->fbbox < -255 || f->fbbox > 255;
}

/* Of the body that is open. */
ALWAYS bool bad_sizes(reader *word, const void *font, const face *f)
{
    return f->height < 1 || f->height > 256 || f->raster < 1 || f->raster > 4096 || word(font, f->bitmap - 2);
}

/* The number by which a font of so many words, that has no index, is refused, or 0. */
ALWAYS uint32_t strike_number(reader *word, disorder *disordered, const void *font, size_t words)
{
    uint32_t number = front_number(word, font, words);
    if (number)
        return number;
    face f = face_of(word, font);
    if (bad_sizes(word, font, &f) || bad_box(&f))
        return PAILRADISH_FONT_SIZES;
    size_t end = f.kerned ? f.widths + f.codes + 1 : f.widths;
    if (word(font, f.bitmap - 5) != f.raster * f.height + f.codes + 7 || words != end)
        return PAILRADISH_FONT_LENGTH;
    if (disordered(font, f.pointers, f.widths, 16 * f.raster))
        return PAILRADISH_FONT_POINTERS;
    if (f.kerned && word(font, end - 1) == ABSENT)
        return PAILRADISH_FONT_DUMMY;
    return PAILRADISH_DONE;
}

/* What the test of a font with an index finds out by the way: where its bodies begin, and the most rows that one of them has above the
   baseline and below. */
typedef struct {
    uint32_t starts[MOST_BODIES];
    unsigned above, below;
} survey;

/* By its bodies in turn, which are more than none; and how many pictures each has. */
ALWAYS uint32_t bodies_number(reader *word, disorder *disordered, const void *font, size_t words, face *f, unsigned bodies, survey *v,
                              uint16_t *pictures)
{
    size_t at = f->map + f->codes + 1, behind = f->kerned ? f->codes + 1 : 0;
    unsigned k = 0;
    for (;;) {
        if (words - at < 5)
            return PAILRADISH_FONT_LENGTH;
        open_body(word, font, f, at);
        if (bad_sizes(word, font, f))
            return PAILRADISH_FONT_SIZES;
        size_t end = at + word(font, at);
        if (end < f->pointers + 2 || words < end)
            return PAILRADISH_FONT_LENGTH;
        bool last = k + 1 == bodies;
        if (last && words - end != behind)
            return PAILRADISH_FONT_LENGTH;
        if (disordered(font, f->pointers, end, 16 * f->raster))
            return PAILRADISH_FONT_POINTERS;
        v->starts[k] = (uint32_t)at;
        if (f->ascent > v->above) v->above = f->ascent;
        if (f->height - f->ascent > v->below) v->below = f->height - f->ascent;
        pictures[k] = (uint16_t)(end - f->pointers - 1);
        if (last)
            return PAILRADISH_DONE;
        at = end;
        k++;
    }
}

/* By the map and the width entries. A body that is not there has no picture. */
ALWAYS uint32_t map_number(reader *word, const void *font, const face *f, bool kerned, const uint16_t *pictures)
{
    bool absent = false;
    for (size_t k = 0; k <= f->codes; k++) {
        unsigned entry = word(font, f->map + k);
        absent = entry & MISSING || (kerned && word(font, f->widths + k) == ABSENT);
        if (!absent && entry % 256 >= pictures[entry / 256])
            return PAILRADISH_FONT_NAMES;
    }
    return absent ? PAILRADISH_FONT_DUMMY : PAILRADISH_DONE;
}

/* The number by which a font of so many words, that has an index, is refused, or 0. */
ALWAYS uint32_t index_number(reader *word, disorder *disordered, const void *font, size_t words, survey *v)
{
    uint32_t number = front_number(word, font, words);
    if (number)
        return number;
    face f = index_of(word, font, words);
    unsigned bodies = word(font, f.map - 1);
    if (bodies < 1 || bodies > MOST_BODIES)
        return PAILRADISH_FONT_BODIES;
    if (words < f.map + f.codes + 1)
        return PAILRADISH_FONT_SHORT;
    if (bad_box(&f))
        return PAILRADISH_FONT_SIZES;
    uint16_t pictures[MOST_BODIES] = {0};
    v->above = v->below = 0;
    number = bodies_number(word, disordered, font, words, &f, bodies, v, pictures);
    if (number)
        return number;
    return f.kerned ? map_number(word, font, &f, true, pictures) : map_number(word, font, &f, false, pictures);
}

/* Of a font of any length. */
ALWAYS bool has_index(reader *word, const void *font, size_t words)
{
    return words >= 9 && word(font, 0) & INDEX;
}

/* What a font shows for a code: the columns of its picture, how far right of the pen and the font's FBBox they go, and how far the pen
   moves. */
typedef struct {
    unsigned first, columns, offset, advance, substitute;
} glyph;

/* The picture whose pointer is this, with width entry k, for a code that is absent or not. */
ALWAYS glyph picture_of(reader *word, const void *font, const face *f, size_t pointer, unsigned k, bool absent)
{
    glyph g;
    g.first = word(font, pointer);
    g.columns = word(font, pointer + 1) - g.first;
    g.substitute = absent;
    if (f->kerned) {
        unsigned entry = word(font, f->widths + k);
        g.offset = entry >> 8;
        g.advance = entry & 0xFF;
    } else {
        g.offset = 0;
        g.advance = g.columns;
    }
    return g;
}

/* In a font without an index. */
ALWAYS glyph glyph_of(reader *word, const void *font, const face *f, unsigned code)
{
    unsigned k = code - f->min;
    bool absent = k >= f->codes
        || (f->kerned ? word(font, f->widths + k) == ABSENT : word(font, f->pointers + k) == word(font, f->pointers + k + 1));
    if (absent)
        k = f->codes;
    return picture_of(word, font, f, f->pointers + k, k, absent);
}

/* In one that has an index: the place of what is shown, in the map and the width entries. */
ALWAYS unsigned mapped_place(reader *word, const void *font, const face *f, unsigned code)
{
    unsigned k = code - f->min;
    bool absent = k >= f->codes || word(font, f->map + k) & MISSING || (f->kerned && word(font, f->widths + k) == ABSENT);
    return absent ? f->codes : k;
}

/* What is shown, by its place. Its body is opened. */
ALWAYS glyph mapped_glyph(reader *word, const void *font, face *f, const uint32_t *starts, unsigned k)
{
    unsigned entry = word(font, f->map + k);
    open_body(word, font, f, starts[entry / 256]);
    return picture_of(word, font, f, f->pointers + entry % 256, k, k == f->codes);
}

#endif
