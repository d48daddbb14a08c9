/* Plain C that does what the exports do: plain_ and words_ for inputs that they accept, tested_ for all. The parameters are those of
   include/pailradish.h. */
#ifndef PLAIN_H
#define PLAIN_H

#include "pailradish.h"

uint32_t plain_check(const uint8_t *font, size_t font_bytes);

pailradish_reply plain_measure(const uint8_t *font, size_t font_bytes, int32_t x, const uint8_t *text, size_t text_bytes);

pailradish_conversion plain_words(const uint8_t *bytes, size_t byte_count, uint16_t *words, size_t word_count);

pailradish_painted plain_paint(const uint16_t *font, size_t font_words, pailradish_call call, const uint8_t *text, size_t text_bytes,
                               uint16_t *panel, size_t panel_words, pailradish_counts counts);

pailradish_settled plain_clear(pailradish_shape shape, uint16_t *panel, size_t panel_words, pailradish_counts counts);

uint32_t plain_fresh(pailradish_shape shape, uint16_t *keep, size_t keep_words, uint16_t *flip, size_t flip_words);

pailradish_reply plain_gather(const uint16_t *font, size_t font_words, pailradish_call call, const uint8_t *text, size_t text_bytes,
                              uint16_t *keep, size_t keep_words, uint16_t *flip, size_t flip_words);

uint32_t plain_join(pailradish_shape shape, uint16_t *keep, size_t keep_words, uint16_t *flip, size_t flip_words,
                    const uint16_t *then_keep, size_t then_keep_words, const uint16_t *then_flip, size_t then_flip_words);

pailradish_settled plain_apply(pailradish_shape shape, const uint16_t *keep, size_t keep_words, const uint16_t *flip, size_t flip_words,
                               uint16_t *panel, size_t panel_words, pailradish_counts counts);

pailradish_conversion plain_convert(const uint16_t *cu, size_t cu_words, uint16_t *out, size_t out_words);

pailradish_painted words_paint(const uint16_t *font, size_t font_words, pailradish_call call, const uint8_t *text, size_t text_bytes,
                               uint16_t *panel, size_t panel_words, pailradish_counts counts);

pailradish_reply words_gather(const uint16_t *font, size_t font_words, pailradish_call call, const uint8_t *text, size_t text_bytes,
                              uint16_t *keep, size_t keep_words, uint16_t *flip, size_t flip_words);

pailradish_painted tested_paint(const uint16_t *font, size_t font_words, pailradish_call call, const uint8_t *text, size_t text_bytes,
                                uint16_t *panel, size_t panel_words, pailradish_counts counts);

pailradish_reply tested_gather(const uint16_t *font, size_t font_words, pailradish_call call, const uint8_t *text, size_t text_bytes,
                               uint16_t *keep, size_t keep_words, uint16_t *flip, size_t flip_words);

#endif
