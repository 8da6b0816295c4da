/* Where a buffer of a call lies. heap.c and guarded.c each say what is next to
 * it: the limits of a heap block of the exact size, or a page that cannot be
 * touched. */
#ifndef PLACE_H
#define PLACE_H

#include <stddef.h>
#include <stdint.h>

enum role { SHEET, OUT };
/* Which end of the buffer lies at the limit. A heap block has both there. */
enum side { AT_END, AT_START, SIDES };

struct place {
    uint8_t *start;
    size_t length;
    enum role role;
};

/* A place of this length; a second one of the same role ends the first. */
struct place place_take(enum role role, enum side side, size_t length);
/* After this a write to the place is found. */
void place_seal(struct place place);
void place_return(struct place place);

#endif
