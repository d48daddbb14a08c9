/* Answers a written list of calls (docs/REPLAY.md) by calling the exports of libdesk.a, and watches the memory that each call is lent.

       calls before|behind|heap < LIST > ANSWERS

   The argument says where the lent slices stand: see lent.h. `glyph`, `dots`, `row` and `program` are no exports, and are passed over.
   Status 1: a call has broken its promise, which standard error names. Status 2: no list. */
#include <inttypes.h>
#include <stdio.h>
#include <string.h>

#include "lent.h"
#include "pailradish.h"

static slice font = {.name = "font", .size = 2, .most = 70000};
static slice cu = {.name = "cu", .size = 2, .most = 530000};
static slice panel = {.name = "panel", .size = 2, .most = 40000};
static slice keep1 = {.name = "keep1", .size = 2, .most = 40000};
static slice flip1 = {.name = "flip1", .size = 2, .most = 40000};
static slice keep2 = {.name = "keep2", .size = 2, .most = 40000};
static slice flip2 = {.name = "flip2", .size = 2, .most = 40000};
static slice output = {.name = "out", .size = 2, .most = 70000};
static slice file = {.name = "file", .size = 1, .most = 140000};
static slice held = {.name = "counts", .size = 2, .most = 2 * PAILRADISH_STRIPS};
static slice *const registers[] = {&font, &cu, &panel, &keep1, &flip1, &keep2, &flip2, &output, &file, &held};

/* No registers: the words of the last conversion, the bytes of the font's words, and the text of a label. */
static slice last_written = {.name = "written", .size = 2, .most = 70000};
static slice font_bytes = {.name = "the font's bytes", .size = 1, .most = 140000};
static slice text = {.name = "text", .size = 1, .most = 1000};

#define COUNT(array) (sizeof(array) / sizeof(array)[0])

/* The answers. Beside a refusal every other number is 0. */

static void answer_number(const char *call, uint32_t number)
{
    take_back(number != 0);
    printf("%s %" PRIu32 "\n", call, number);
}

static void answer_reply(const char *call, pailradish_reply reply)
{
    take_back(reply.number != 0);
    if (reply.number != 0 && (reply.pen != 0 || reply.substitutes != 0))
        breach("a number beside a refusal", call);
    printf("%s %" PRIu32 " %" PRId32 " %" PRIu32 "\n", call, reply.number, reply.pen, reply.substitutes);
}

/* The words go to `output`. */
static void answer_conversion(const char *call, pailradish_conversion done)
{
    take_back(done.number != 0);
    if (done.number != 0 && done.words != 0)
        breach("a number beside a refusal", call);
    if (done.words > output.count)
        breach("more words written than there are", call);
    printf("%s %" PRIu32 " %zu\n", call, done.number, done.words);
}

/* The calls of the desk, which hands its font as bytes. Arguments are read into variables first: C does not say in which order it
   evaluates them. */

static void check_bytes(const char *call, const slice *bytes)
{
    answer_number(call, pailradish_check(lend(bytes), bytes->count));
}

static void measure_bytes(const char *call, const slice *bytes)
{
    int32_t x = next_signed_number();

    rest_of_line(&text);
    answer_reply(call, pailradish_measure(lend(bytes), bytes->count, x, lend(&text), text.count));
}

/* In bytes the high one of a word comes first. */
static const slice *bytes_of_font(void)
{
    const uint16_t *words = font.values;

    set_count(&font_bytes, 2 * font.count);
    for (size_t place = 0; place < font.count; place++) {
        ((uint8_t *)font_bytes.values)[2 * place] = (uint8_t)(words[place] >> 8);
        ((uint8_t *)font_bytes.values)[2 * place + 1] = (uint8_t)words[place];
    }
    return &font_bytes;
}

static void check(void)
{
    check_bytes("check", bytes_of_font());
}

static void measure(void)
{
    measure_bytes("measure", bytes_of_font());
}

static void desk_check(void)
{
    check_bytes("deskcheck", &file);
}

static void desk_measure(void)
{
    measure_bytes("deskmeasure", &file);
}

static void words(void)
{
    answer_conversion("words", pailradish_words(lend(&file), file.count, lend_to_write(&output), output.count));
}

/* The calls on a panel and on sheets. */

typedef struct {
    slice *keep, *flip;
} sheet;

static pailradish_shape next_shape(void)
{
    pailradish_shape read;

    read.row_words = next_number();
    read.rows = next_number();
    read.width = next_number();
    return read;
}

static sheet next_sheet(void)
{
    return next_number() == 1 ? (sheet){&keep1, &flip1} : (sheet){&keep2, &flip2};
}

/* The counts of a call. They are no slice: they are handed over, and handed back, by value. */

static uint16_t held_word(size_t place)
{
    return place < held.count ? ((const uint16_t *)held.values)[place] : 0;
}

/* The register has two words for each count, the high one first. Words that are not there are 0. */
static pailradish_counts held_counts(void)
{
    pailradish_counts counts;

    for (size_t strip = 0; strip < PAILRADISH_STRIPS; strip++)
        counts.lit[strip] = (uint32_t)held_word(2 * strip) << 16 | held_word(2 * strip + 1);
    return counts;
}

static void hold_counts(pailradish_counts counts)
{
    uint16_t *words;

    set_count(&held, 2 * PAILRADISH_STRIPS);
    words = held.values;
    for (size_t strip = 0; strip < PAILRADISH_STRIPS; strip++) {
        words[2 * strip] = (uint16_t)(counts.lit[strip] >> 16);
        words[2 * strip + 1] = (uint16_t)counts.lit[strip];
    }
}

/* The panel has this shape: what 8 does not refuse. */
static bool panel_is(pailradish_shape shape)
{
    return shape.row_words >= 1 && shape.row_words <= PAILRADISH_ROW_WORDS && shape.rows >= 1 && shape.rows <= PAILRADISH_ROWS
        && shape.width >= 1 && shape.width <= PAILRADISH_STRIP_COLUMNS && PAILRADISH_STRIPS * shape.width <= 16 * shape.row_words
        && panel.count >= (size_t)shape.row_words * shape.rows;
}

static uint32_t lit_in_row(size_t first_word, uint32_t from, uint32_t upto)
{
    const uint16_t *row = (const uint16_t *)panel.values + first_word;
    uint32_t sum = 0;

    for (uint32_t column = from; column < upto; column++)
        sum += row[column / 16] >> (15 - column % 16) & 1;
    return sum;
}

/* The true counts: those of the panel's dots, one by one; zeros where it has no such shape. */
static pailradish_counts lit_dots(pailradish_shape shape)
{
    pailradish_counts counts = {{0}};

    if (!panel_is(shape))
        return counts;
    for (uint32_t row = 0; row < shape.rows; row++) {
        for (uint32_t strip = 0; strip < PAILRADISH_STRIPS; strip++)
            counts.lit[strip] += lit_in_row((size_t)row * shape.row_words, strip * shape.width, (strip + 1) * shape.width);
    }
    return counts;
}

/* What a call with counts was handed, and what was lit before it. */
typedef struct {
    pailradish_shape shape;
    pailradish_counts given, lit;
} tally;

/* The call is handed true counts, or those of the register. */
static tally true_tally(pailradish_shape shape)
{
    pailradish_counts lit = lit_dots(shape);

    return (tally){shape, lit, lit};
}

static tally held_tally(pailradish_shape shape)
{
    return (tally){shape, held_counts(), lit_dots(shape)};
}

/* After the call, once the panel has been taken back: each count is the one given, and the dots that are lit now, without those that were.
   So a count that was true is true again. Of a refusal they are those given, since the panel is as it was. */
static void check_counts(const char *call, const tally *before, pailradish_counts counts)
{
    pailradish_counts lit = lit_dots(before->shape);

    for (size_t strip = 0; strip < PAILRADISH_STRIPS; strip++) {
        if (counts.lit[strip] != before->given.lit[strip] + lit.lit[strip] - before->lit.lit[strip])
            breach("a count is not the one given and the dots gained, without those lost", call);
    }
}

static void answer_painted(const char *call, const tally *before, pailradish_painted painted)
{
    answer_reply(call, painted.reply);
    check_counts(call, before, painted.counts);
}

static void answer_settled(const char *call, const tally *before, pailradish_settled settled)
{
    answer_number(call, settled.number);
    check_counts(call, before, settled.counts);
}

/* The text of the label goes into its slice. */
static pailradish_call next_call(void)
{
    pailradish_call read;

    read.shape = next_shape();
    read.label.strip = next_number();
    read.label.x = next_signed_number();
    read.label.y = next_signed_number();
    read.label.mode = next_number();
    rest_of_line(&text);
    return read;
}

static pailradish_painted painted_by(pailradish_call call, pailradish_counts counts)
{
    return pailradish_paint(lend(&font), font.count, call, lend(&text), text.count, lend_to_write(&panel), panel.count, counts);
}

/* Painting without counts is no export: it is answered by the one with counts, which never refuses true ones. */
static void paint(void)
{
    pailradish_call call = next_call();
    tally before = true_tally(call.shape);

    answer_painted("paint", &before, painted_by(call, before.given));
}

static void paint_lit(void)
{
    pailradish_call call = next_call();
    tally before = held_tally(call.shape);
    pailradish_painted painted = painted_by(call, before.given);

    answer_painted("paintlit", &before, painted);
    hold_counts(painted.counts);
}

static void fresh(void)
{
    sheet made = next_sheet();
    pailradish_shape shape = next_shape();

    answer_number("fresh", pailradish_fresh(shape, lend_to_write(made.keep), made.keep->count, lend_to_write(made.flip), made.flip->count));
}

static void gather(void)
{
    sheet onto = next_sheet();
    pailradish_call call = next_call();

    answer_reply("gather", pailradish_gather(lend(&font), font.count, call, lend(&text), text.count, lend_to_write(onto.keep),
                                             onto.keep->count, lend_to_write(onto.flip), onto.flip->count));
}

static void join(void)
{
    pailradish_shape shape = next_shape();

    answer_number("join", pailradish_join(shape, lend_to_write(&keep1), keep1.count, lend_to_write(&flip1), flip1.count, lend(&keep2),
                                          keep2.count, lend(&flip2), flip2.count));
}

static pailradish_settled applied_by(sheet applied, pailradish_shape shape, pailradish_counts counts)
{
    return pailradish_apply(shape, lend(applied.keep), applied.keep->count, lend(applied.flip), applied.flip->count,
                            lend_to_write(&panel), panel.count, counts);
}

/* As painting without counts. */
static void apply(void)
{
    sheet applied = next_sheet();
    pailradish_shape shape = next_shape();
    tally before = true_tally(shape);

    answer_settled("apply", &before, applied_by(applied, shape, before.given));
}

static void apply_lit(void)
{
    sheet applied = next_sheet();
    pailradish_shape shape = next_shape();
    tally before = held_tally(shape);
    pailradish_settled settled = applied_by(applied, shape, before.given);

    answer_settled("applylit", &before, settled);
    hold_counts(settled.counts);
}

static void clear(void)
{
    pailradish_shape shape = next_shape();
    tally before = held_tally(shape);
    pailradish_settled settled = pailradish_clear(shape, lend_to_write(&panel), panel.count, before.given);

    answer_settled("clear", &before, settled);
    hold_counts(settled.counts);
}

/* Conversion. */

static void copy_words(slice *to, const slice *from, size_t count)
{
    set_count(to, count);
    memcpy(to->values, from->values, count * sizeof(uint16_t));
}

static void convert(void)
{
    pailradish_conversion done = pailradish_convert(lend(&cu), cu.count, lend_to_write(&output), output.count);

    answer_conversion("convert", done);
    copy_words(&last_written, &output, done.words);
}

static void written(void)
{
    copy_words(&font, &last_written, last_written.count);
}

static slice *register_named(const char *name)
{
    for (size_t place = 0; place < COUNT(registers); place++) {
        if (strcmp(registers[place]->name, name) == 0)
            return registers[place];
    }
    return NULL;
}

static void show(void)
{
    const slice *shown = register_named(next_field());

    if (shown == NULL)
        no_list("no such register");
    print_slice(shown);
}

static void pass_over(void)
{
}

static const struct {
    const char *name;
    void (*perform)(void);
} commands[] = {
    {"check", check},        {"measure", measure}, {"deskcheck", desk_check}, {"deskmeasure", desk_measure}, {"words", words},
    {"paint", paint},        {"fresh", fresh},     {"gather", gather},        {"join", join},                {"apply", apply},
    {"paintlit", paint_lit}, {"clear", clear},     {"applylit", apply_lit},   {"convert", convert},          {"written", written},
    {"show", show},          {"glyph", pass_over}, {"dots", pass_over},       {"row", pass_over},            {"program", pass_over},
};

static void perform(const char *name)
{
    slice *set = register_named(name);

    if (set != NULL) {
        rest_of_line(set);
        return;
    }
    for (size_t place = 0; place < COUNT(commands); place++) {
        if (strcmp(commands[place].name, name) == 0) {
            commands[place].perform();
            return;
        }
    }
    no_list("no such command");
}

int main(int count, char **arguments)
{
    if (count != 2 || !place_slices(arguments[1]))
        no_list("usage: calls before|behind|heap < LIST > ANSWERS");
    for (size_t place = 0; place < COUNT(registers); place++)
        set_count(registers[place], 0);
    set_count(&last_written, 0);
    while (next_line())
        perform(next_field());
    return 0;
}
