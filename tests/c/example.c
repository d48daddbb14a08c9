#include <pailradish.h>
#include <stdio.h>

static int refused(uint32_t number)
{
    printf("refused %u: %s\n", (unsigned)number, pailradish_message(number));
    return 1;
}

int main(void)
{
    static uint8_t bytes[65536];
    static uint16_t font[32768], panel[64 * 16];
    size_t count = fread(bytes, 1, sizeof bytes, stdin);
    uint32_t number = pailradish_check(bytes, count);
    if (number != PAILRADISH_DONE)
        return refused(number);
    size_t words = pailradish_words(bytes, count, font, 32768).words;
    pailradish_call call = {.shape = {.row_words = 64, .rows = 16, .width = 32},
                            .label = {.strip = 0, .x = 1, .y = 12, .mode = PAILRADISH_PAINT}};
    pailradish_counts counts = {{0}}; /* no dot of the panel is lit */
    pailradish_painted painted = pailradish_paint(font, words, call, (const uint8_t *)"Kick", 4, panel, 64 * 16, counts);
    if (painted.reply.number != PAILRADISH_DONE)
        return refused(painted.reply.number);
    counts = painted.counts; /* for the next call, and for the dimmer */
    printf("pen %d, substitutes %u, lit %u\n", (int)painted.reply.pen, (unsigned)painted.reply.substitutes, (unsigned)counts.lit[0]);
}
