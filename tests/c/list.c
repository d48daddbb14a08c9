#include "list.h"

#include <inttypes.h>
#include <stdio.h>
#include <stdlib.h>
#include <string.h>

static char *line;         /* as getline keeps it */
static char *rest;         /* what has not been read of it; null behind its end */
static unsigned long line_number;

_Noreturn void no_list(const char *reason)
{
    fprintf(stderr, "line %lu: %s\n", line_number, reason);
    exit(2);
}

bool next_line(void)
{
    static size_t room;
    ssize_t length;

    do {
        length = getline(&line, &room, stdin);
        if (length < 0)
            return false;
        line_number++;
        if (line[length - 1] != '\n')
            no_list("no newline ends the line");
        line[length - 1] = '\0';
    } while (line[0] == '\0' || line[0] == '#');
    rest = line;
    return true;
}

const char *next_field(void)
{
    char *field = rest;

    if (field == NULL)
        no_list("a field is missing");
    rest = strchr(field, ' ');
    if (rest != NULL)
        *rest++ = '\0';
    return field;
}

static int64_t number_between(const char *field, int64_t least, int64_t greatest)
{
    char *end;
    long long value = strtoll(field, &end, 10);

    if (end == field || *end != '\0' || value < least || value > greatest)
        no_list("a field is no number of its range");
    return value;
}

uint32_t next_number(void)
{
    return (uint32_t)number_between(next_field(), 0, UINT32_MAX);
}

int32_t next_signed_number(void)
{
    return (int32_t)number_between(next_field(), INT32_MIN, INT32_MAX);
}

void set_count(slice *into, size_t count)
{
    if (count > into->most)
        no_list("more values than the register holds");
    if (into->values == NULL)
        into->values = malloc(into->most * into->size);
    if (into->values == NULL)
        no_list("no memory");
    into->count = count;
}

static unsigned value_at(const slice *from, size_t place)
{
    return from->size == 1 ? ((const uint8_t *)from->values)[place] : ((const uint16_t *)from->values)[place];
}

static void append(slice *into, unsigned value, size_t times)
{
    size_t place = into->count;

    set_count(into, place + times);
    for (; place < into->count; place++) {
        if (into->size == 1)
            ((uint8_t *)into->values)[place] = (uint8_t)value;
        else
            ((uint16_t *)into->values)[place] = (uint16_t)value;
    }
}

void rest_of_line(slice *into)
{
    set_count(into, 0);
    while (rest != NULL) {
        const char *field = next_field();
        char *end;
        unsigned long value = strtoul(field, &end, 16);

        if ((size_t)(end - field) != 2 * into->size)
            no_list("a field is no value of its size");
        if (*end == '*')
            append(into, (unsigned)value, (size_t)number_between(end + 1, 1, (int64_t)into->most));
        else
            append(into, (unsigned)value, 1);
    }
}

/* Each run of equal values is one field. */
void print_slice(const slice *from)
{
    printf("%s", from->name);
    for (size_t place = 0, next; place < from->count; place = next) {
        unsigned value = value_at(from, place);

        for (next = place + 1; next < from->count && value_at(from, next) == value; next++)
            continue;
        printf(" %0*X", (int)(2 * from->size), value);
        if (next - place > 1)
            printf("*%zu", next - place);
    }
    printf("\n");
}
