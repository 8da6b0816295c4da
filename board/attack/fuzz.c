/* libFuzzer's side. An input is a sheet as it is, so every file of the corpus can
 * be given to the other programs too. What guides it: the blocks of traps.c, the
 * numbers of the answer, and which lines follow which in the transcript. */
#include "hold.h"
#include "judge.h"
#include "traps.h"

#include <inttypes.h>
#include <stdio.h>
#include <stdlib.h>
#include <string.h>

enum { FEATURES = 32768, ANSWERS = 2048 };

__attribute__((used, section("__libfuzzer_extra_counters"))) static uint8_t features[FEATURES];

int LLVMFuzzerInitialize(int *argc, char ***argv);
int LLVMFuzzerTestOneInput(const uint8_t *data, size_t size);

static void say(void)
{
    fprintf(stderr, "checks %" PRIu64 "\nruns %" PRIu64 "\nruns_that_gave", hold_checks, hold_runs);
    for (int number = 0; number < 10; number++)
        fprintf(stderr, " %" PRIu64, hold_given[number]);
    fprintf(stderr, "\nanswers_compared %" PRIu64 "\n", judge_compared());
}

int LLVMFuzzerInitialize(int *argc, char ***argv)
{
    (void)argc;
    (void)argv;
    traps_set(getenv("BLOCKS"));
    atexit(say);
    return 0;
}

static void note(uint32_t feature)
{
    uint8_t *counter = &features[feature % FEATURES];
    if (*counter < UINT8_MAX)
        ++*counter;
}

/* How many binary digits a number has: near numbers give the same feature. */
static uint32_t digits(uint64_t number)
{
    uint32_t count = 0;
    for (; number > 0; number >>= 1)
        count++;
    return count;
}

static void note_answer(struct mallardtray_answer answer)
{
    note((uint32_t)answer.number);
    note(16 + 64 * (uint32_t)answer.number + digits(answer.place));
    note(1024 + digits(answer.settled));
    note(1100 + digits(answer.written));
}

/* A line's letter and name, or all of a T line but its id. */
static uint32_t kind(const uint8_t *line, size_t length)
{
    uint32_t hash = 2166136261u;
    unsigned tabs = 0;
    for (size_t place = 0; place < length; place++) {
        tabs += line[place] == '\t';
        if (line[0] == 'T' ? tabs != 1 : tabs < 2)
            hash = (hash ^ line[place]) * 16777619u;
    }
    return hash;
}

static void note_lines(const uint8_t *text, size_t length)
{
    uint32_t before = 0;
    for (size_t start = 0; start < length;) {
        const uint8_t *end = memchr(text + start, '\n', length - start);
        size_t line = end ? (size_t)(end - text) - start : length - start;
        uint32_t now = kind(text + start, line);
        note(ANSWERS + (before * 31 + now) % (FEATURES - ANSWERS));
        before = now;
        start += line + 1;
    }
}

int LLVMFuzzerTestOneInput(const uint8_t *data, size_t size)
{
    struct widest widest = hold(data, size, 0);
    note_answer(widest.answer);
    note_lines(widest.transcript, widest.answer.written);
    return 0;
}
