/* calls SWEEP FILE...: makes the calls of hold.c on the sheet in each file, and
 * says how many they were. */
#define _POSIX_C_SOURCE 200809L
#include "hold.h"
#include "judge.h"

#include <inttypes.h>
#include <signal.h>
#include <stdio.h>
#include <stdlib.h>
#include <string.h>
#include <unistd.h>

static uint8_t sheet[1 << 21];
static const char *subject = "";

/* A call that is stopped: which sheet it was. */
static void at_stop(int number)
{
    if (write(STDERR_FILENO, subject, strlen(subject)) < 0 || write(STDERR_FILENO, "\n", 1) < 0)
        _exit(65);
    signal(number, SIG_DFL);
    raise(number);
}

static int read_sheet(const char *name, size_t *length)
{
    FILE *file = fopen(name, "rb");
    if (!file)
        return 0;
    *length = fread(sheet, 1, sizeof sheet, file);
    int whole = !ferror(file) && *length < sizeof sheet;
    fclose(file);
    return whole;
}

static void say(int sheets)
{
    printf("sheets %d\nchecks %" PRIu64 "\nruns %" PRIu64 "\nruns_that_gave", sheets, hold_checks, hold_runs);
    for (int number = 0; number < 10; number++)
        printf(" %" PRIu64, hold_given[number]);
    printf("\n");
    if (judge_compared() > 0)
        printf("answers_compared %" PRIu64 "\n", judge_compared());
}

int main(int argc, char **argv)
{
    size_t length = 0, sweep = argc > 2 ? strtoul(argv[1], NULL, 10) : 0;
    signal(SIGABRT, at_stop);
    signal(SIGSEGV, at_stop);
    for (int place = 2; place < argc; place++) {
        if (!read_sheet(argv[place], &length)) {
            fprintf(stderr, "calls: cannot read %s\n", argv[place]);
            return 64;
        }
        subject = argv[place];
        hold(sheet, length, sweep);
    }
    say(argc - 2);
    return argc > 2 ? 0 : 64;
}
