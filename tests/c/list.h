/* Reading a written list of calls (docs/REPLAY.md), line by line and field by field. */
#ifndef LIST_H
#define LIST_H

#include <stdbool.h>
#include <stddef.h>
#include <stdint.h>

/* Bytes (size 1) or words (size 2), in the processor's own order: a register of the list, or a label. */
typedef struct {
    const char *name;
    size_t size;
    size_t most;
    size_t count;
    void *values;
} slice;

/* The next line that holds a command; false where the list ends. What is no list ends the program with status 2. */
bool next_line(void);

/* The fields of that line, each in its turn. */
const char *next_field(void);
uint32_t next_number(void);
int32_t next_signed_number(void);

/* All fields that are left become the slice's values. */
void rest_of_line(slice *into);

/* The slice holds so many values from now on. Its memory has room for the most from the first time on. */
void set_count(slice *into, size_t count);

/* Its name and its values, as an answer. */
void print_slice(const slice *from);

/* Ends the program with status 2. */
_Noreturn void no_list(const char *reason);

#endif
