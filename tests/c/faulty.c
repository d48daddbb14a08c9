/* The exports with one fault: linked in place of libdesk.a, to see that calls.c notices it. FAULT names the fault, and SLICE the slice of
   the call that it is in, counted from 0. */
#include <stdbool.h>
#include <stdlib.h>
#include <string.h>

#include "pailradish.h"

typedef struct {
    const void *at;
    size_t bytes;
} part;

static bool fault_is(const char *name)
{
    return strcmp(getenv("FAULT"), name) == 0;
}

/* A fault whose name ends so. */
static bool fault_ends(const char *end)
{
    const char *name = getenv("FAULT");

    return strlen(name) >= strlen(end) && strcmp(name + strlen(name) - strlen(end), end) == 0;
}

/* What is written over the first or the last byte of a slice: of its last two dots one goes out and the other is lit, in the values of the
   test, and both are of one strip. So a call that writes on a panel has counts that are true when they are those given. */
enum { TWO_DOTS = 3 };

/* Commits the fault, and gives the number that the call is to answer. */
static uint32_t commit(const part *parts)
{
    const part *chosen = &parts[atoi(getenv("SLICE"))];
    volatile uint8_t *first = (volatile uint8_t *)chosen->at;
    volatile uint8_t *end = first + chosen->bytes;

    if (fault_is("read-in-front"))
        (void)first[-1];
    if (fault_is("read-behind"))
        (void)end[0];
    if (fault_is("write-in-front"))
        first[-1] ^= 1;
    if (fault_is("write-behind"))
        end[0] ^= 1;
    if (fault_is("write-first") || fault_is("write-first-and-refuse"))
        first[0] ^= TWO_DOTS;
    if (fault_is("write-last") || fault_is("write-last-and-refuse"))
        end[-1] ^= TWO_DOTS;
    if (fault_is("first-dot"))
        first[0] ^= 1;
    if (fault_is("last-dot"))
        end[-1] ^= 1;
    return fault_ends("-and-refuse") || fault_is("pen") || fault_is("substitutes") ? 8 : 0;
}

/* The counts that the call is to hand back: those given, but for the fault. */
static pailradish_counts miscount(pailradish_counts counts)
{
    if (fault_is("first-count") || fault_is("first-count-and-refuse"))
        counts.lit[0]++;
    if (fault_is("last-count") || fault_is("last-count-and-refuse"))
        counts.lit[PAILRADISH_STRIPS - 1]--;
    return counts;
}

static pailradish_reply reply(const part *parts)
{
    return (pailradish_reply){commit(parts), fault_is("pen"), fault_is("substitutes")};
}

static pailradish_settled settled(const part *parts, pailradish_counts counts)
{
    return (pailradish_settled){commit(parts), miscount(counts)};
}

/* A conversion has a count of words where a reply has its pen. */
static pailradish_conversion conversion(const part *parts, size_t room)
{
    return (pailradish_conversion){commit(parts), fault_is("too-many-words") ? room + 1 : fault_is("pen")};
}

#define BYTES(slice) {slice, slice##_bytes}
#define WORDS(slice) {slice, 2 * slice##_words}

uint32_t pailradish_check(const uint8_t *font, size_t font_bytes)
{
    return commit((part[]){BYTES(font)});
}

pailradish_reply pailradish_measure(const uint8_t *font, size_t font_bytes, int32_t x, const uint8_t *text, size_t text_bytes)
{
    (void)x;
    return reply((part[]){BYTES(font), BYTES(text)});
}

pailradish_conversion pailradish_words(const uint8_t *file, size_t file_bytes, uint16_t *out, size_t out_words)
{
    return conversion((part[]){BYTES(file), WORDS(out)}, out_words);
}

pailradish_painted pailradish_paint(const uint16_t *font, size_t font_words, pailradish_call call, const uint8_t *text, size_t text_bytes,
                                    uint16_t *panel, size_t panel_words, pailradish_counts counts)
{
    (void)call;
    return (pailradish_painted){reply((part[]){WORDS(font), BYTES(text), WORDS(panel)}), miscount(counts)};
}

pailradish_settled pailradish_clear(pailradish_shape shape, uint16_t *panel, size_t panel_words, pailradish_counts counts)
{
    (void)shape;
    return settled((part[]){WORDS(panel)}, counts);
}

uint32_t pailradish_fresh(pailradish_shape shape, uint16_t *keep, size_t keep_words, uint16_t *flip, size_t flip_words)
{
    (void)shape;
    return commit((part[]){WORDS(keep), WORDS(flip)});
}

pailradish_reply pailradish_gather(const uint16_t *font, size_t font_words, pailradish_call call, const uint8_t *text, size_t text_bytes,
                                   uint16_t *keep, size_t keep_words, uint16_t *flip, size_t flip_words)
{
    (void)call;
    return reply((part[]){WORDS(font), BYTES(text), WORDS(keep), WORDS(flip)});
}

uint32_t pailradish_join(pailradish_shape shape, uint16_t *keep, size_t keep_words, uint16_t *flip, size_t flip_words,
                         const uint16_t *then_keep, size_t then_keep_words, const uint16_t *then_flip, size_t then_flip_words)
{
    (void)shape;
    return commit((part[]){WORDS(keep), WORDS(flip), WORDS(then_keep), WORDS(then_flip)});
}

pailradish_settled pailradish_apply(pailradish_shape shape, const uint16_t *keep, size_t keep_words, const uint16_t *flip,
                                    size_t flip_words, uint16_t *panel, size_t panel_words, pailradish_counts counts)
{
    (void)shape;
    return settled((part[]){WORDS(keep), WORDS(flip), WORDS(panel)}, counts);
}

pailradish_conversion pailradish_convert(const uint16_t *cu, size_t cu_words, uint16_t *out, size_t out_words)
{
    return conversion((part[]){WORDS(cu), WORDS(out)}, out_words);
}
