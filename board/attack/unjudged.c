/* No second opinion: the calls are held to hold.c alone. */
#include "judge.h"

void judge_sheet(const uint8_t *text, size_t length)
{
    (void)text;
    (void)length;
}

void judge_check(struct mallardtray_answer got) { (void)got; }

void judge_run(const uint8_t *out, size_t length, uint64_t limit, struct mallardtray_answer got)
{
    (void)out;
    (void)length;
    (void)limit;
    (void)got;
}

uint64_t judge_compared(void) { return 0; }
