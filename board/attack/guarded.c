/* One stretch of pages for each role, with a page before it and one behind it
 * that cannot be touched. A sealed stretch can be read alone. The archive's own
 * loads and stores are not instrumented, so these pages are what stops them. */
#define _DEFAULT_SOURCE
#include "place.h"

#include <stdlib.h>
#include <string.h>
#include <sys/mman.h>

enum { PAGE = 4096, ROOM = 512 * PAGE };

static uint8_t *stretches[2];

/* The pages between the two guards. */
static uint8_t *stretch(enum role role)
{
    if (!stretches[role]) {
        uint8_t *base = mmap(NULL, ROOM + 2 * PAGE, PROT_NONE, MAP_PRIVATE | MAP_ANONYMOUS, -1, 0);
        if (base == MAP_FAILED)
            abort();
        stretches[role] = base + PAGE;
    }
    if (mprotect(stretches[role], ROOM, PROT_READ | PROT_WRITE) != 0)
        abort();
    return stretches[role];
}

struct place place_take(enum role role, enum side side, size_t length)
{
    uint8_t *pages = stretch(role);
    if (length > ROOM)
        abort();
    /* What follows a sheet in memory would change the answer if it were read. */
    if (role == SHEET && side == AT_START && length + 6 <= ROOM)
        memcpy(pages + length, "\nR\tno\n", 6);
    uint8_t *start = side == AT_END ? pages + ROOM - length : pages;
    return (struct place){.start = start, .length = length, .role = role};
}

void place_seal(struct place place)
{
    if (mprotect(stretches[place.role], ROOM, PROT_READ) != 0)
        abort();
}

void place_return(struct place place) { (void)place; }
