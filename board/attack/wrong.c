/* The two calls with one fault, to see that it is found; FAULT is its number, and
 * 0 is no fault. Linked with --wrap, so that the calls come here first. Faults 1
 * to 12 break what hold.c asks. 13 to 16 do not: every call on a sheet has them
 * alike, so only another's answer shows them. */
#include "../mallardtray.h"

#include <string.h>

struct mallardtray_answer __real_mallardtray_check(const uint8_t *sheet, size_t sheet_len);
struct mallardtray_answer __real_mallardtray_run(const uint8_t *sheet, size_t sheet_len, uint8_t *out,
                                                 size_t out_len, uint64_t limit);
struct mallardtray_answer __wrap_mallardtray_check(const uint8_t *sheet, size_t sheet_len);
struct mallardtray_answer __wrap_mallardtray_run(const uint8_t *sheet, size_t sheet_len, uint8_t *out,
                                                 size_t out_len, uint64_t limit);

/* A read that the compiler does not leave out. */
static void touch(const uint8_t *byte) { (void)*(const volatile uint8_t *)byte; }

/* Another dependency than the one that is not in the chain. */
static void misname(struct mallardtray_answer *got)
{
    if (got->number == 5)
        got->other = got->place;
}

static void misspell(uint8_t *out, size_t written)
{
    for (size_t place = 0; place + 9 <= written; place++)
        if (memcmp(out + place, "\tIsolated", 9) == 0)
            out[place + 1] = 'i';
}

/* The sheet with every effect done that failed. */
static const uint8_t *mistake(const uint8_t *sheet, size_t sheet_len)
{
    static uint8_t copy[1 << 16];
    if (sheet_len == 0 || sheet_len > sizeof copy)
        return sheet;
    memcpy(copy, sheet, sheet_len);
    for (size_t place = 0; place + 5 <= sheet_len; place++)
        if (memcmp(copy + place, "R\tno\n", 5) == 0)
            memcpy(copy + place, "R\tok\n", 5);
    return copy;
}

struct mallardtray_answer __wrap_mallardtray_check(const uint8_t *sheet, size_t sheet_len)
{
    struct mallardtray_answer got = __real_mallardtray_check(sheet, sheet_len);
    if (FAULT == 1)
        touch(sheet + sheet_len);
    if (FAULT == 2 && got.number == 5)
        got.number = 6;
    if (FAULT == 3)
        got.settled = 1;
    if (FAULT == 15)
        misname(&got);
    return got;
}

struct mallardtray_answer __wrap_mallardtray_run(const uint8_t *sheet, size_t sheet_len, uint8_t *out,
                                                 size_t out_len, uint64_t limit)
{
    static uint64_t calls;
    uint64_t later = FAULT == 4 && limit < UINT64_MAX ? limit + 1 : limit;
    const uint8_t *read = FAULT == 16 ? mistake(sheet, sheet_len) : sheet;
    struct mallardtray_answer got = __real_mallardtray_run(read, sheet_len, out, out_len, later);
    calls++;
    if (FAULT == 5)
        out[out_len] = 'X';
    if (FAULT == 6 && got.written < out_len)
        out[got.written] = 'X';
    if (FAULT == 7 && got.number == 8 && got.written < out_len)
        out[got.written++] = 'X';
    if (FAULT == 8)
        touch(sheet - 1);
    if (FAULT == 9 && sheet_len > 0)
        *(uint8_t *)(uintptr_t)sheet ^= 1;
    if (FAULT == 10 && got.number == 0 && calls % 64 == 63)
        got.settled++;
    if (FAULT == 11 && got.number == 9)
        got.place = 1;
    if (FAULT == 12)
        touch(out - 1);
    if (FAULT == 13 && got.number == 8 && got.settled > 0)
        got.settled--;
    if (FAULT == 14)
        misspell(out, got.written);
    if (FAULT == 15)
        misname(&got);
    return got;
}
