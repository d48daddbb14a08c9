#include "lent.h"

#include <stdio.h>
#include <stdlib.h>
#include <string.h>
#include <sys/mman.h>
#include <unistd.h>

static enum { BEFORE, BEHIND, HEAP } placement;

/* One slice that is out: its own bytes are `bytes` from `at` on; all others of the `length` bytes from `pages` on are guards. */
typedef struct {
    const slice *from;
    slice *to; /* null where it is lent to be read alone */
    uint8_t *pages;
    size_t length;
    uint8_t *at;
    size_t bytes;
    uint8_t guard;
} loan;

enum { MOST_LOANS = 4 };
static loan loans[MOST_LOANS];
static size_t loan_count;

_Noreturn void breach(const char *what, const char *where)
{
    fflush(stdout);
    fprintf(stderr, "%s: %s\n", what, where);
    exit(1);
}

bool place_slices(const char *name)
{
    static const char *const names[] = {[BEFORE] = "before", [BEHIND] = "behind", [HEAP] = "heap"};

    for (unsigned place = BEFORE; place <= HEAP; place++) {
        if (strcmp(name, names[place]) == 0) {
            placement = place;
            return true;
        }
    }
    return false;
}

static size_t page(void)
{
    return (size_t)sysconf(_SC_PAGESIZE);
}

/* Whole pages for the slice, one at least, between two without access. */
static void map_pages(loan *made)
{
    size_t length = made->bytes == 0 ? page() : (made->bytes + page() - 1) / page() * page();
    uint8_t *all = mmap(NULL, length + 2 * page(), PROT_NONE, MAP_PRIVATE | MAP_ANONYMOUS, -1, 0);

    if (all == MAP_FAILED || mprotect(all + page(), length, PROT_READ | PROT_WRITE) != 0)
        breach("no memory", "mmap");
    made->pages = all + page();
    made->length = length;
    made->at = made->pages + (placement == BEFORE ? length - made->bytes : 0);
    memset(made->pages, made->guard, length);
}

static void take_from_heap(loan *made)
{
    made->at = malloc(made->bytes);
    if (made->at == NULL)
        breach("no memory", "malloc");
}

static void *lend_copy(const slice *from, slice *to)
{
    loan *made = &loans[loan_count];

    if (loan_count == MOST_LOANS)
        breach("too many slices for one call", from->name);
    made->from = from;
    made->to = to;
    made->bytes = from->count * from->size;
    /* Each slice of a call has a guard byte of its own, so that to copy one guard over another, or to join them, changes it. */
    made->guard = (uint8_t)(0xA1 + 0x17 * loan_count);
    if (placement == HEAP)
        take_from_heap(made);
    else
        map_pages(made);
    memcpy(made->at, from->values, made->bytes);
    loan_count++;
    return made->at;
}

const void *lend(const slice *from)
{
    return lend_copy(from, NULL);
}

void *lend_to_write(slice *from)
{
    return lend_copy(from, from);
}

static bool all_are(const uint8_t *from, const uint8_t *to, uint8_t byte)
{
    unsigned differences = 0;

    while (from < to)
        differences |= *from++ ^ byte;
    return differences == 0;
}

static void check_guards(const loan *made)
{
    if (!all_are(made->pages, made->at, made->guard))
        breach("written in front of the slice", made->from->name);
    if (!all_are(made->at + made->bytes, made->pages + made->length, made->guard))
        breach("written behind the slice", made->from->name);
}

/* The call had a copy, so the slice itself still holds what the call was lent. */
static void check_unchanged(const loan *made, const char *what)
{
    if (memcmp(made->from->values, made->at, made->bytes) != 0)
        breach(what, made->from->name);
}

static void release(const loan *made)
{
    if (placement == HEAP)
        free(made->at);
    else
        munmap(made->pages - page(), made->length + 2 * page());
}

void take_back(bool refused)
{
    for (const loan *made = loans; made < loans + loan_count; made++) {
        if (placement != HEAP)
            check_guards(made);
        if (made->to == NULL)
            check_unchanged(made, "changed, though lent to be read");
        else if (refused)
            check_unchanged(made, "changed by a call that was refused");
        else
            memcpy(made->to->values, made->at, made->bytes);
        release(made);
    }
    loan_count = 0;
}
