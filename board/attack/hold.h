/* What has to hold of every call on one sheet, whatever the sheet is. */
#ifndef HOLD_H
#define HOLD_H

#include "../mallardtray.h"

/* The widest run, which the others are held to. */
struct widest {
    struct mallardtray_answer answer;
    uint8_t *transcript; /* answer.written bytes, until the next call of hold */
};

/* The longest buffer. Every run of one sheet gets at most so much. */
enum { WIDEST = 65536 };

/* Makes the calls on a sheet and ends the program by abort where one of them
 * does not hold, or where the judge that is linked differs. With sweep not 0, a
 * transcript of at most so many bytes gets every length and every limit up to one
 * past what is needed. */
struct widest hold(const uint8_t *text, size_t length, size_t sweep);

/* The calls made so far. */
extern uint64_t hold_checks, hold_runs, hold_given[10];

#endif
