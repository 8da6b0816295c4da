#include "hold.h"
#include "judge.h"
#include "place.h"

#include <inttypes.h>
#include <stdio.h>
#include <stdlib.h>
#include <string.h>

uint64_t hold_checks, hold_runs, hold_given[10];

/* What stands in a buffer before a run; no transcript has such bytes. */
static uint8_t filled[WIDEST];
static uint8_t transcript[WIDEST];

struct sheet {
    const uint8_t *text;
    size_t length;
    struct mallardtray_answer checked;
    struct mallardtray_answer widest;
};

static void fill(void)
{
    if (filled[0] != 0)
        return;
    for (size_t place = 0; place < sizeof filled; place++)
        filled[place] = (uint8_t)(0x80 | place);
}

static void must(int holds, const char *what, struct mallardtray_answer got)
{
    if (holds)
        return;
    fprintf(stderr, "does not hold: %s; got %" PRIu64 " %" PRIu64 " %" PRIu64, what, got.number,
            got.place, got.other);
    fprintf(stderr, " %" PRIu64 " %" PRIu64 "\n", got.written, got.settled);
    abort();
}

static int same(struct mallardtray_answer a, struct mallardtray_answer b)
{
    return memcmp(&a, &b, sizeof a) == 0;
}

static struct place sheet_at(const struct sheet *sheet, enum side side)
{
    struct place place = place_take(SHEET, side, sheet->length);
    if (sheet->length > 0)
        memcpy(place.start, sheet->text, sheet->length);
    place_seal(place);
    return place;
}

static void sheet_kept(const struct sheet *sheet, struct place place, struct mallardtray_answer got)
{
    int kept = place.length == 0 || memcmp(place.start, sheet->text, place.length) == 0;
    must(kept, "the sheet is kept", got);
    place_return(place);
}

static struct mallardtray_answer check(const struct sheet *sheet, enum side side)
{
    struct place place = sheet_at(sheet, side);
    struct mallardtray_answer got = mallardtray_check(place.start, place.length);
    hold_checks++;
    must(got.number <= 6, "check gives 0 to 6", got);
    must(got.written == 0 && got.settled == 0, "check writes and settles nothing", got);
    sheet_kept(sheet, place, got);
    judge_check(got);
    return got;
}

/* What holds of the answer and the buffer of any run. */
static void whole_lines(const struct sheet *sheet, struct place out, uint64_t limit,
                        struct mallardtray_answer got)
{
    must(got.number <= 9, "run gives 0 to 9", got);
    must(got.written <= out.length, "what is written fits", got);
    must(got.settled <= limit, "no event past the limit", got);
    must(got.written == 0 || out.start[got.written - 1] == '\n', "whole lines alone", got);
    must(got.written == out.length ||
             memcmp(out.start + got.written, filled + got.written, out.length - got.written) == 0,
         "the rest of out is kept", got);
    if (sheet->checked.number != 0 || got.number - 1 < 6)
        must(same(got, sheet->checked), "run refuses as check does", got);
    if (got.number == 0 || got.number >= 8)
        must(got.place == 0 && got.other == 0, "no place where none is named", got);
}

static struct mallardtray_answer run(const struct sheet *sheet, enum side side, size_t length,
                                     uint64_t limit, uint8_t *kept)
{
    struct place in = sheet_at(sheet, side), out = place_take(OUT, side, length);
    if (length > 0)
        memcpy(out.start, filled, length);
    struct mallardtray_answer got = mallardtray_run(in.start, in.length, out.start, length, limit);
    hold_runs++;
    whole_lines(sheet, out, limit, got);
    hold_given[got.number]++;
    if (got.written > 0 && kept)
        memcpy(kept, out.start, got.written);
    else if (got.written > 0)
        must(memcmp(out.start, transcript, got.written) == 0, "the transcript's beginning", got);
    sheet_kept(sheet, in, got);
    judge_run(out.start, length, limit, got);
    place_return(out);
    return got;
}

/* The bytes of the whole lines that fit. */
static size_t fitting(size_t written, size_t length)
{
    size_t bytes = length < written ? length : written;
    while (bytes > 0 && transcript[bytes - 1] != '\n')
        bytes--;
    return bytes;
}

/* A run with a shorter buffer or a lower limit is the widest one, stopped. */
static void narrower(const struct sheet *sheet, enum side side, size_t length, uint64_t limit)
{
    struct mallardtray_answer got = run(sheet, side, length, limit, NULL), widest = sheet->widest;
    int room = length >= widest.written, events = limit >= widest.settled;
    int full = got.number == 8 && got.written == fitting(widest.written, length);
    int reached = got.number == 9 && got.settled == limit;
    if (room && events)
        must(same(got, widest), "the same answer again", got);
    else
        must((full && !room) || (reached && !events), "8 with the lines that fit, or 9 at the limit", got);
}

/* A number that depends on the sheet alone, so that a failure can be repeated. */
static uint64_t drawn(const struct sheet *sheet, uint64_t draw, uint64_t bound)
{
    uint64_t hash = 14695981039346656037u + draw;
    for (size_t place = 0; place < sheet->length; place++)
        hash = (hash ^ sheet->text[place]) * 1099511628211u;
    return (hash >> 20) % bound;
}

static void some(const struct sheet *sheet, enum side side)
{
    size_t written = sheet->widest.written, one_more = written < WIDEST ? written + 1 : written;
    uint64_t settled = sheet->widest.settled;
    narrower(sheet, side, written, settled);
    narrower(sheet, side, one_more, UINT64_MAX);
    narrower(sheet, side, 0, UINT64_MAX);
    narrower(sheet, side, 0, 0);
    narrower(sheet, side, WIDEST, 0);
    if (written > 0)
        narrower(sheet, side, written - 1, settled);
    if (settled > 0)
        narrower(sheet, side, written, settled - 1);
    narrower(sheet, side, drawn(sheet, 1, one_more + 1), UINT64_MAX);
    narrower(sheet, side, WIDEST, drawn(sheet, 2, settled + 1));
    narrower(sheet, side, drawn(sheet, 3, one_more + 1), drawn(sheet, 4, settled + 2));
}

static void each(const struct sheet *sheet, enum side side)
{
    size_t written = sheet->widest.written;
    uint64_t settled = sheet->widest.settled;
    for (size_t length = 0; length <= written + 1; length++)
        narrower(sheet, side, length, settled);
    for (uint64_t limit = 0; limit <= settled + 1; limit++)
        narrower(sheet, side, written, limit);
}

struct widest hold(const uint8_t *text, size_t length, size_t sweep)
{
    struct sheet sheet = {.text = text, .length = length};
    fill();
    judge_sheet(text, length);
    sheet.checked = check(&sheet, AT_END);
    must(same(check(&sheet, AT_START), sheet.checked), "the same check twice", sheet.checked);
    sheet.widest = run(&sheet, AT_END, WIDEST, UINT64_MAX, transcript);
    must(sheet.widest.number != 9, "no limit, no 9", sheet.widest);
    if (sweep == 0)
        some(&sheet, (enum side)drawn(&sheet, 0, SIDES));
    for (enum side side = AT_END; sweep > 0 && side < SIDES; side++) {
        some(&sheet, side);
        if (sheet.widest.written > 0 && sheet.widest.written <= sweep)
            each(&sheet, side);
    }
    return (struct widest){.answer = sheet.widest, .transcript = transcript};
}
