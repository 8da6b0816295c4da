/* Calls that a loader seldom makes: no buffer at all, and a buffer that ends
 * within a line. The expected numbers are document 01's. */
#include "mallardtray.h"

#include <stdio.h>
#include <string.h>

static int failures;

static void expect(const char *call, struct mallardtray_answer got, struct mallardtray_answer want)
{
    if (memcmp(&got, &want, sizeof got) != 0) {
        printf("%s: %d %d %d %d %d\n", call, (int)got.number, (int)got.place, (int)got.other,
               (int)got.written, (int)got.settled);
        failures++;
    }
}

int main(void)
{
    static const char text[] = "B\t2\nC\t7\tActive\tRequired\t0\t-\nE\tPowerGood\tProvisioned\n";
    static const char first[] = "X\tReadFirmware\t7\n";
    const uint8_t *sheet = (const uint8_t *)text;
    size_t length = sizeof text - 1, line = sizeof first - 1;
    uint8_t out[40];
    struct mallardtray_answer empty = {.number = 1, .place = 1}, accepted = {0};
    struct mallardtray_answer no_room = {.number = 8, .settled = 1}, no_event = {.number = 9};
    struct mallardtray_answer one_line = {.number = 8, .written = line, .settled = 1};

    expect("check of no sheet", mallardtray_check(NULL, 0), empty);
    expect("run of no sheet", mallardtray_run(NULL, 0, NULL, 0, 0), empty);
    expect("check", mallardtray_check(sheet, length), accepted);
    expect("run without a buffer", mallardtray_run(sheet, length, NULL, 0, 1), no_room);
    expect("run without an event", mallardtray_run(sheet, length, NULL, 0, 0), no_event);
    memset(out, 0xa5, sizeof out);
    expect("run into one line and a bit", mallardtray_run(sheet, length, out, line + 3, 1), one_line);
    if (memcmp(out, first, line) != 0) {
        printf("the line is not there\n");
        failures++;
    }
    for (size_t place = line; place < sizeof out; place++)
        if (out[place] != 0xa5) {
            printf("byte %zu was changed\n", place);
            failures++;
        }
    return failures != 0;
}
