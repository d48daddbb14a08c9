/* Plain C that paints and gathers by words, as it is written for a slow bus where nothing is proved: of a character only the rows and the
   words that its picture reaches inside strip and panel, each of them read once and written once. The dots that a panel gains and loses are
   counted as each word is written. words_paint and words_gather believe their inputs; tested_paint and tested_gather refuse what the
   library refuses. It is here to be measured against, and is no part of the library. */
#include "font.h"
#include "plain.h"

/* What a label is drawn on: the keep and the flip of a sheet, or a panel, which is a flip without a keep, and the count of the strip. The
   mode is a constant in every copy that the compiler makes of what follows, so that no loop asks for it. */
typedef struct {
    uint32_t mode;
    uint16_t *keep, *flip;
    size_t row_words;
    uint32_t lit;
} canvas;

/* What all characters of a label share, or in a font with an index those of one body: how many rows of a picture are on the panel, and for
   the first of these the word in front of the bitmap's and the first of the panel's. */
typedef struct {
    int rows;
    size_t source, target;
} frame;

/* One character's words: the first that is read of the font and the first that is touched, how far dots are turned between them, and how
   many more words of a row are touched. Of the first and the last of these only the dots of a mask may change. */
typedef struct {
    size_t source, target;
    unsigned more, turn, first_mask, last_mask;
} piece;

ALWAYS frame frame_of(const face *f, const pailradish_call *call)
{
    int top = call->label.y - (int)f->ascent, bottom = top + (int)f->height, rows = (int)call->shape.rows;
    int first = top < 0 ? 0 : top;
    frame r;
    r.rows = (bottom > rows ? rows : bottom) - first;
    r.source = f->bitmap - 1 + (size_t)(first - top) * f->raster;
    r.target = (size_t)first * call->shape.row_words;
    return r;
}

/* Of a picture whose left column is at `left`, the panel's columns from `from` to `last` are inside. The panel's word may begin before the
   picture, and the picture with the bitmap: so that no column is below 0, they are counted from the word in front of the bitmap's. */
ALWAYS piece piece_of(const frame *r, unsigned first_column, int left, unsigned from, unsigned last)
{
    unsigned word = from / 16, column = 16 + first_column + 16 * word - (unsigned)left;
    piece p;
    p.source = r->source + column / 16;
    p.target = r->target + word;
    p.more = last / 16 - word;
    p.turn = column % 16;
    p.first_mask = 0xFFFF >> from % 16;
    p.last_mask = 0xFFFF8000 >> last % 16;
    return p;
}

/* Sixteen dots from two neighbouring words of a font: a ring of 32 dots, turned. What stands above the sixteen means nothing. The first
   word is the lower half, since then the compiler reads both at once; it sees that from a pointer, and not from an array and an index. */
ALWAYS unsigned dots_of(const uint16_t *source, unsigned turn)
{
    uint32_t ring = (uint32_t)source[1] << 16 | source[0];
    return ring << turn | ring >> (-turn & 31);
}

/* How many of these dots a word has set. What stands above the sixteen means nothing. */
ALWAYS uint32_t set_of(unsigned word, unsigned dots)
{
    return (uint32_t)__builtin_popcount(word & dots & 0xFFFF);
}

/* What the strip gains by it, less what it loses. */
ALWAYS uint32_t gained(const canvas *c, size_t word, unsigned dots)
{
    unsigned was = c->flip[word];
    if (c->mode == PAILRADISH_PAINT)
        return set_of(~was, dots);
    if (c->mode == PAILRADISH_ERASE)
        return -set_of(was, dots);
    return set_of(was ^ dots, 0xFFFF) - set_of(was, 0xFFFF);
}

ALWAYS void touch(canvas *c, size_t word, unsigned dots)
{
    if (!c->keep)
        c->lit += gained(c, word, dots);
    if (c->mode == PAILRADISH_PAINT)
        c->flip[word] |= dots;
    else if (c->mode == PAILRADISH_ERASE)
        c->flip[word] &= ~dots;
    else
        c->flip[word] ^= dots;
    if (c->keep && c->mode != PAILRADISH_INVERT)
        c->keep[word] &= ~dots;
}

/* One word in each row. */
ALWAYS void draw_narrow(canvas *c, const uint16_t *font, size_t raster, piece p, int rows)
{
    unsigned mask = p.first_mask & p.last_mask;
    do {
        touch(c, p.target, dots_of(font + p.source, p.turn) & mask);
        p.source += raster;
        p.target += c->row_words;
    } while (--rows);
}

/* Two words or more in each row. */
ALWAYS void draw_wide(canvas *c, const uint16_t *font, size_t raster, piece p, int rows)
{
    do {
        touch(c, p.target, dots_of(font + p.source, p.turn) & p.first_mask);
        for (size_t i = 1; i < p.more; i++)
            touch(c, p.target + i, dots_of(font + p.source + i, p.turn));
        touch(c, p.target + p.more, dots_of(font + p.source + p.more, p.turn) & p.last_mask);
        p.source += raster;
        p.target += c->row_words;
    } while (--rows);
}

/* The pen is kept where a picture with offset 0 begins, in columns of the panel. In a font without an index all pictures have the same
   rows: where none of these is on the panel the strip has no columns either, and every character is outside it. Whether there is an index
   is a constant in every copy, too. */
ALWAYS pailradish_reply draw_on(canvas c, bool index, const uint16_t *font, size_t font_words, const uint32_t *starts,
                                const pailradish_call *call, const uint8_t *text, size_t text_bytes, uint32_t *lit)
{
    face f = index ? index_of(by_words, font, font_words) : face_of(by_words, font);
    frame r = frame_of(&f, call);
    int strip = (int)(call->label.strip * call->shape.width);
    int strip_end = strip + (index || r.rows > 0 ? (int)call->shape.width : 0);
    int pen = strip + f.fbbox + call->label.x;
    uint32_t substitutes = 0;
    for (size_t i = 0; i < text_bytes; i++) {
        glyph g;
        if (index)
            g = mapped_glyph(by_words, font, &f, starts, mapped_place(by_words, font, &f, text[i]));
        else
            g = glyph_of(by_words, font, &f, text[i]);
        int left = pen + (int)g.offset, end = left + (int)g.columns;
        int from = left < strip ? strip : left;
        end = end > strip_end ? strip_end : end;
        pen += (int)g.advance;
        substitutes += g.substitute;
        if (from >= end)
            continue;
        if (index)
            r = frame_of(&f, call);
        if (index && r.rows <= 0)
            continue;
        piece p = piece_of(&r, g.first, left, (unsigned)from, (unsigned)end - 1);
        if (p.more == 0)
            draw_narrow(&c, font, f.raster, p, r.rows);
        else
            draw_wide(&c, font, f.raster, p, r.rows);
    }
    *lit += c.lit;
    return (pailradish_reply){0, pen - f.fbbox - strip, substitutes};
}

ALWAYS pailradish_reply draw(bool index, const uint16_t *font, size_t font_words, const uint32_t *starts, const pailradish_call *call,
                             const uint8_t *text, size_t text_bytes, uint16_t *keep, uint16_t *flip, uint32_t *lit)
{
    size_t row_words = call->shape.row_words;
    canvas paint = {PAILRADISH_PAINT, keep, flip, row_words, 0};
    canvas erase = {PAILRADISH_ERASE, keep, flip, row_words, 0};
    canvas invert = {PAILRADISH_INVERT, keep, flip, row_words, 0};
    switch (call->label.mode) {
    case PAILRADISH_PAINT: return draw_on(paint, index, font, font_words, starts, call, text, text_bytes, lit);
    case PAILRADISH_ERASE: return draw_on(erase, index, font, font_words, starts, call, text, text_bytes, lit);
    default: return draw_on(invert, index, font, font_words, starts, call, text, text_bytes, lit);
    }
}

/* With an index, where it is known where the bodies begin. */
APART pailradish_reply paint_mapped(const uint16_t *font, size_t font_words, const uint32_t *starts, const pailradish_call *call,
                                    const uint8_t *text, size_t text_bytes, uint16_t *panel, uint32_t *lit)
{
    return draw(true, font, font_words, starts, call, text, text_bytes, NULL, panel, lit);
}

APART pailradish_reply gather_mapped(const uint16_t *font, size_t font_words, const uint32_t *starts, const pailradish_call *call,
                                     const uint8_t *text, size_t text_bytes, uint16_t *keep, uint16_t *flip)
{
    uint32_t lit = 0;
    return draw(true, font, font_words, starts, call, text, text_bytes, keep, flip, &lit);
}

/* With an index. */
APART pailradish_reply paint_index(const uint16_t *font, size_t font_words, const pailradish_call *call, const uint8_t *text,
                                   size_t text_bytes, uint16_t *panel, uint32_t *lit)
{
    uint32_t starts[MOST_BODIES];
    face f = index_of(by_words, font, font_words);
    walk(by_words, font, &f, starts);
    return paint_mapped(font, font_words, starts, call, text, text_bytes, panel, lit);
}

APART pailradish_reply gather_index(const uint16_t *font, size_t font_words, const pailradish_call *call, const uint8_t *text,
                                    size_t text_bytes, uint16_t *keep, uint16_t *flip)
{
    uint32_t starts[MOST_BODIES];
    face f = index_of(by_words, font, font_words);
    walk(by_words, font, &f, starts);
    return gather_mapped(font, font_words, starts, call, text, text_bytes, keep, flip);
}

pailradish_painted words_paint(const uint16_t *font, size_t font_words, pailradish_call call, const uint8_t *text, size_t text_bytes,
                               uint16_t *panel, size_t panel_words, pailradish_counts counts)
{
    (void)panel_words;
    uint32_t *lit = &counts.lit[call.label.strip];
    pailradish_reply reply;
    if (font[0] & INDEX)
        reply = paint_index(font, font_words, &call, text, text_bytes, panel, lit);
    else
        reply = draw(false, font, font_words, NULL, &call, text, text_bytes, NULL, panel, lit);
    return (pailradish_painted){reply, counts};
}

pailradish_reply words_gather(const uint16_t *font, size_t font_words, pailradish_call call, const uint8_t *text, size_t text_bytes,
                              uint16_t *keep, size_t keep_words, uint16_t *flip, size_t flip_words)
{
    (void)keep_words, (void)flip_words;
    if (font[0] & INDEX)
        return gather_index(font, font_words, &call, text, text_bytes, keep, flip);
    uint32_t lit = 0;
    return draw(false, font, font_words, NULL, &call, text, text_bytes, keep, flip, &lit);
}

/* The number by which a call is refused whose font is accepted, or 0. `lent` is the length of the shortest slice that holds a panel. Half a
   row is compared with the width, since twice a width may be more than its type holds. */
ALWAYS uint32_t label_number(const pailradish_call *call, size_t text_bytes, size_t lent)
{
    pailradish_shape shape = call->shape;
    pailradish_label label = call->label;
    if (shape.row_words > PAILRADISH_ROW_WORDS || shape.rows < 1 || shape.rows > PAILRADISH_ROWS || shape.width < 1
        || shape.width > shape.row_words / 2 || lent < (size_t)shape.row_words * shape.rows)
        return PAILRADISH_PANEL_SIZE;
    if (label.strip >= PAILRADISH_STRIPS)
        return PAILRADISH_STRIP_RANGE;
    if (label.x < PAILRADISH_LEAST_PLACE || label.x > PAILRADISH_MOST_PLACE || label.y < PAILRADISH_LEAST_PLACE
        || label.y > PAILRADISH_MOST_PLACE)
        return PAILRADISH_PLACE_RANGE;
    if (text_bytes > PAILRADISH_LABEL_BYTES)
        return PAILRADISH_LABEL_LONG;
    if (label.mode > PAILRADISH_INVERT)
        return PAILRADISH_MODE_RANGE;
    return PAILRADISH_DONE;
}

ALWAYS uint32_t call_number(const uint16_t *font, size_t font_words, const pailradish_call *call, size_t text_bytes, size_t lent)
{
    uint32_t number = strike_number(by_words, disorder_by_words, font, font_words);
    return number ? number : label_number(call, text_bytes, lent);
}

ALWAYS uint32_t index_call_number(const uint16_t *font, size_t font_words, const pailradish_call *call, size_t text_bytes, size_t lent,
                                  survey *v)
{
    uint32_t number = index_number(by_words, disorder_by_words, font, font_words, v);
    return number ? number : label_number(call, text_bytes, lent);
}

/* The words of a strip in the rows that the pictures of a label may reach. */
typedef struct {
    size_t first, row_words;
    int rows, words;
} band;

ALWAYS band band_of(const face *f, const pailradish_call *call)
{
    frame r = frame_of(f, call);
    int strip = (int)(call->label.strip * call->shape.width);
    int first = strip / 16, end = strip + (int)call->shape.width;
    return (band){r.target + (size_t)first, call->shape.row_words, r.rows, (end - 1) / 16 - first + 1};
}

/* At the most: 64 columns touch five words, in every row. */
enum { BAND_WORDS = 5 * PAILRADISH_ROWS };

ALWAYS void keep_band(band b, const uint16_t *panel, uint16_t *kept)
{
    for (int row = 0; row < b.rows; row++, b.first += b.row_words)
        for (int word = 0; word < b.words; word++)
            *kept++ = panel[b.first + (size_t)word];
}

ALWAYS void put_back(band b, uint16_t *panel, const uint16_t *kept)
{
    for (int row = 0; row < b.rows; row++, b.first += b.row_words)
        for (int word = 0; word < b.words; word++)
            panel[b.first + (size_t)word] = *kept++;
}

ALWAYS bool some_over(const pailradish_counts *counts, uint32_t most)
{
    for (int strip = 0; strip < PAILRADISH_STRIPS; strip++)
        if (counts->lit[strip] > most)
            return true;
    return false;
}

/* What the label does to the count is known when it is painted. So the words that it may alter are copied first, and are put back where the
   count is not what it may be; below 0 it is far over the most. */
APART pailradish_painted tested_paint_index(const uint16_t *font, size_t font_words, const pailradish_call *call, const uint8_t *text,
                                            size_t text_bytes, uint16_t *panel, size_t panel_words, const pailradish_counts *counts)
{
    survey v;
    uint32_t number = index_call_number(font, font_words, call, text_bytes, panel_words, &v);
    if (number)
        return (pailradish_painted){{number, 0, 0}, *counts};
    uint32_t most = call->shape.width * call->shape.rows;
    if (some_over(counts, most))
        return (pailradish_painted){{PAILRADISH_COUNT_RANGE, 0, 0}, *counts};
    uint16_t kept[BAND_WORDS];
    face tallest = {.ascent = v.above, .height = v.above + v.below};
    band b = band_of(&tallest, call);
    keep_band(b, panel, kept);
    pailradish_painted painted = {.counts = *counts};
    painted.reply = paint_mapped(font, font_words, v.starts, call, text, text_bytes, panel, &painted.counts.lit[call->label.strip]);
    if (painted.counts.lit[call->label.strip] <= most)
        return painted;
    put_back(b, panel, kept);
    return (pailradish_painted){{PAILRADISH_COUNT_RANGE, 0, 0}, *counts};
}

APART pailradish_reply tested_gather_index(const uint16_t *font, size_t font_words, const pailradish_call *call, const uint8_t *text,
                                           size_t text_bytes, uint16_t *keep, uint16_t *flip, size_t lent)
{
    survey v;
    uint32_t number = index_call_number(font, font_words, call, text_bytes, lent, &v);
    if (number)
        return (pailradish_reply){number, 0, 0};
    return gather_mapped(font, font_words, v.starts, call, text, text_bytes, keep, flip);
}

pailradish_painted tested_paint(const uint16_t *font, size_t font_words, pailradish_call call, const uint8_t *text, size_t text_bytes,
                                uint16_t *panel, size_t panel_words, pailradish_counts counts)
{
    if (has_index(by_words, font, font_words))
        return tested_paint_index(font, font_words, &call, text, text_bytes, panel, panel_words, &counts);
    uint32_t number = call_number(font, font_words, &call, text_bytes, panel_words);
    if (number)
        return (pailradish_painted){{number, 0, 0}, counts};
    uint32_t most = call.shape.width * call.shape.rows;
    if (some_over(&counts, most))
        return (pailradish_painted){{PAILRADISH_COUNT_RANGE, 0, 0}, counts};
    uint16_t kept[BAND_WORDS];
    face f = face_of(by_words, font);
    band b = band_of(&f, &call);
    keep_band(b, panel, kept);
    pailradish_painted painted = words_paint(font, font_words, call, text, text_bytes, panel, panel_words, counts);
    if (painted.counts.lit[call.label.strip] <= most)
        return painted;
    put_back(b, panel, kept);
    return (pailradish_painted){{PAILRADISH_COUNT_RANGE, 0, 0}, counts};
}

pailradish_reply tested_gather(const uint16_t *font, size_t font_words, pailradish_call call, const uint8_t *text, size_t text_bytes,
                               uint16_t *keep, size_t keep_words, uint16_t *flip, size_t flip_words)
{
    size_t lent = keep_words < flip_words ? keep_words : flip_words;
    if (has_index(by_words, font, font_words))
        return tested_gather_index(font, font_words, &call, text, text_bytes, keep, flip, lent);
    uint32_t number = call_number(font, font_words, &call, text_bytes, lent);
    if (number)
        return (pailradish_reply){number, 0, 0};
    return words_gather(font, font_words, call, text, text_bytes, keep, keep_words, flip, flip_words);
}
