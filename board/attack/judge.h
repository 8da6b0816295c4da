/* A second opinion on each call, which hold.c asks for. board/judge has the
 * oracle's; unjudged.c has none. Where a call's answer is not the judge's, the
 * program ends by abort. */
#ifndef JUDGE_H
#define JUDGE_H

#include "../mallardtray.h"

/* The calls that follow are about this sheet. */
void judge_sheet(const uint8_t *text, size_t length);
/* All five numbers of a check. */
void judge_check(struct mallardtray_answer got);
/* All five numbers of a run with this buffer and limit, and the bytes written. */
void judge_run(const uint8_t *out, size_t length, uint64_t limit, struct mallardtray_answer got);
/* How many answers were compared so far. */
uint64_t judge_compared(void);

#endif
