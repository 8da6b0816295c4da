/* Runs the sheet in a file, as a board's loader does: check first, then run.
 * The transcript goes to standard output and a refusal in words to standard
 * error. The exit status is the number of the refusal, 0 if there is none, and
 * 64 where the file cannot be read or the transcript cannot be printed. */
#include "mallardtray.h"

#include <inttypes.h>
#include <stdio.h>

enum { SHEET_BYTES = 65536, TRANSCRIPT_BYTES = 65536, EVENTS = 65536, BROKEN = 64 };

static const char *const words[] = {
    "nothing is refused",
    "this line is not as it should be (0: the sheet is too long)",
    "there is no component",
    "there are more than 255 components",
    "this id stands in the chain twice",
    "this component depends on one that is not in the chain",
    "this component depends on one that does not stand earlier",
    "no effect waits for the reply on this line",
    "the transcript has no room for the next line",
    "the limit of events is reached",
};

/* One byte more than a sheet may have shows that it is too long. */
static uint8_t sheet[SHEET_BYTES + 1];
static uint8_t transcript[TRANSCRIPT_BYTES];

static struct mallardtray_answer load(size_t length)
{
    struct mallardtray_answer answer = {.number = 1};
    if (length <= SHEET_BYTES)
        answer = mallardtray_check(sheet, length);
    if (answer.number == 0)
        answer = mallardtray_run(sheet, length, transcript, sizeof transcript, EVENTS);
    return answer;
}

int main(int argc, char **argv)
{
    FILE *file = argc == 2 ? fopen(argv[1], "rb") : NULL;
    size_t length = file ? fread(sheet, 1, sizeof sheet, file) : 0;
    if (!file || ferror(file)) {
        fprintf(stderr, "usage: loader FILE, where FILE can be read\n");
        return BROKEN;
    }
    fclose(file);
    struct mallardtray_answer answer = load(length);
    if (fwrite(transcript, 1, answer.written, stdout) != answer.written || fflush(stdout) != 0)
        return BROKEN;
    if (answer.number != 0)
        fprintf(stderr, "refused %" PRIu64 " %" PRIu64 " %" PRIu64 ": %s\n", answer.number,
                answer.place, answer.other, words[answer.number]);
    return (int)answer.number;
}
