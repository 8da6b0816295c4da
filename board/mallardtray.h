/* The two calls that a board makes: mallardtray_check and mallardtray_run.
 *
 * They are in libsheet.a, for x86-64; of the C library it needs memcpy and
 * memset alone. Neither call uses the heap or keeps
 * anything between calls, so calls may come from several threads at once. A call
 * reads the sheet, writes to out alone, and always returns. It needs less than
 * 40 KiB of stack: 17,512 bytes were measured for mallardtray_run
 * (board/stack.c).
 *
 * A buffer is a pointer and a length in bytes. The two buffers of run must not
 * overlap. With the length 0 the pointer may be NULL.
 */
#ifndef MALLARDTRAY_H
#define MALLARDTRAY_H

#include <stddef.h>
#include <stdint.h>

/* number is 0, or the question below whose answer is no. 1 to 4 are put in this
 * order; then 5 and 6 are put together, entry by entry; then the sheet is run,
 * and 7 to 9 come where the run meets them. Places that are not named are 0.
 *
 *   1  Is every line as it should be, the last one ended by byte 10?
 *      place: the first bad line, from 1. An empty sheet has line 1 bad.
 *   2  Is there a component?
 *   3  Are there at most 255 components?
 *   4  Is each id new? place: the id at the first entry that repeats one.
 *   5  Is this entry's dependency in the chain? place: component, other:
 *      dependency.
 *   6  Does it stand earlier? place: component, other: dependency.
 *   7  Does an effect wait for this reply? place: the line of the reply, from 1.
 *   8  Does the next line of the transcript fit into out?
 *   9  Are fewer events settled than the limit allows, where one waits?
 *
 * With 1 to 6 nothing is written or settled. With 7 to 9 the whole lines before
 * that place are in out, and no line is ever written in part.
 */
struct mallardtray_answer {
    uint64_t number;
    uint64_t place;
    uint64_t other;
    uint64_t written; /* bytes of whole lines in out; 0 after check */
    uint64_t settled; /* events taken from the queue; 0 after check */
};

/* Puts questions 1 to 6 to a sheet. */
struct mallardtray_answer mallardtray_check(const uint8_t *sheet, size_t sheet_len);

/* Runs a sheet and writes its transcript to out. At most limit events are
 * settled over the whole sheet. The bytes of out from written on keep their
 * content. */
struct mallardtray_answer mallardtray_run(const uint8_t *sheet, size_t sheet_len,
                                          uint8_t *out, size_t out_len, uint64_t limit);

#endif
