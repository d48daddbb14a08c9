/* The memory that one call is lent.

   Each slice is copied into pages of its own. On one side it touches a page without access, so that even a read past that side traps. What
   is left of its pages on the other side holds guard bytes, which must be there after the call, and behind those is a page without access
   too. */
#ifndef LENT_H
#define LENT_H

#include "list.h"

/* Where a slice stands; chosen once, by its name:
   before   its end is the beginning of a page without access;
   behind   its beginning is the end of such a page;
   heap     in memory of just its size from malloc, with no guards of ours: for a checker of memory that brings its own. */
bool place_slices(const char *name);

/* Lends a copy of the slice, to be read alone or to be written too. */
const void *lend(const slice *from);
void *lend_to_write(slice *from);

/* After the call: takes back all that it was lent. The guards must stand, what was lent to be read must be as it was, and, where the call
   was refused, what was lent to be written too; else the program ends with status 1. What was written becomes the slice's own. */
void take_back(bool refused);

/* Says what is broken, and ends the program with status 1. */
_Noreturn void breach(const char *what, const char *where);

#endif
