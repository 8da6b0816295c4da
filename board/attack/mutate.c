/* Changes to sheets by whole lines, since few changes of single bytes leave a
 * sheet that runs. One change in twelve is libFuzzer's own. */
#include <stdint.h>
#include <stdio.h>
#include <string.h>

size_t LLVMFuzzerMutate(uint8_t *data, size_t size, size_t most);
size_t LLVMFuzzerCustomMutator(uint8_t *data, size_t size, size_t most, unsigned seed);

static const char *const events[] = {
    "PowerGood\tProvisioned", "PowerGood\tUnprovisioned", "PowerGood\tSelfVerificationFailed",
    "VerificationPassed\t%u", "VerificationFailed\t%u", "ComponentReady\t%u", "Booted\t%u",
    "BootConfirmed\t%u", "BootFailed\t%u\t7\tTimedOut", "BootFailed\t%u\t65535\tDeviceFatal",
    "BootFailed\t%u\t0\tDeviceRetriable", "CorruptionDetected\t%u", "Restored\t%u",
    "RecoveryUnavailable\t%u", "Timeout\t%u", "RecoveryFailed", "UpdateRequest", "UpdateVerified",
    "UpdateRejected", "AttestationChallenge", "CommitTimeout", "EffectFailed",
};
static const char *const kinds[] = {"Active", "Passive"};
static const char *const policies[] = {"Required", "Isolable", "Cascading"};

static uint32_t state;

static uint32_t below(uint32_t bound)
{
    state = state * 1664525u + 1013904223u;
    return (uint32_t)(((uint64_t)state * bound) >> 32);
}

/* Mostly ids that short chains have. */
static unsigned id(void) { return below(8) ? below(8) : below(256); }

static void event(char *text, size_t room)
{
    const char *name = events[below(sizeof events / sizeof *events)];
    const char *rest = strstr(name, "%u");
    if (rest)
        snprintf(text, room, "%.*s%u%s", (int)(rest - name), name, id(), rest + 2);
    else
        snprintf(text, room, "%s", name);
}

static void component(char *text, size_t room)
{
    char dependency[12] = "-";
    if (below(2))
        snprintf(dependency, sizeof dependency, "%u", id());
    const char *kind = kinds[below(2)], *policy = policies[below(3)];
    snprintf(text, room, "C\t%u\t%s\t%s\t%u\t%s\n", id(), kind, policy, id(), dependency);
}

static size_t line(char *text, size_t room)
{
    char name[64];
    event(name, sizeof name);
    switch (below(8)) {
    case 0: snprintf(text, room, "R\tok\n"); break;
    case 1: snprintf(text, room, "R\tno\n"); break;
    case 2:
    case 3: snprintf(text, room, "R\tthen\t%s\n", name); break;
    case 4: component(text, room); break;
    default: snprintf(text, room, "E\t%s\n", name);
    }
    return strlen(text);
}

/* The start of a line that is drawn, or the end of the sheet. */
static size_t line_start(const uint8_t *data, size_t size)
{
    size_t place = below((uint32_t)size + 1);
    while (place > 0 && data[place - 1] != '\n')
        place--;
    return below(4) ? place : size;
}

/* A place that is drawn for a new line with this letter: mostly one where the
 * sheet can still be run, components before events and replies. */
static size_t line_place(const uint8_t *data, size_t size, char letter)
{
    size_t place = 0;
    for (int draw = 0; draw < 8; draw++) {
        place = line_start(data, size);
        int head = place < size && (data[place] == 'B' || data[place] == 'C');
        if (letter == 'C' ? head && data[place] == 'C' : !head)
            break;
    }
    return place;
}

static size_t line_end(const uint8_t *data, size_t size, size_t start)
{
    const uint8_t *end = start < size ? memchr(data + start, '\n', size - start) : NULL;
    return end ? (size_t)(end - data) + 1 : size;
}

/* Puts text in place of the bytes from start to end. */
static size_t put(uint8_t *data, size_t size, size_t most, size_t start, size_t end,
                  const void *text, size_t length)
{
    if (size - (end - start) + length > most)
        return size;
    memmove(data + start + length, data + end, size - end);
    memcpy(data + start, text, length);
    return size - (end - start) + length;
}

size_t LLVMFuzzerCustomMutator(uint8_t *data, size_t size, size_t most, unsigned seed)
{
    char text[4096];
    state = seed;
    if (below(12) == 0)
        return LLVMFuzzerMutate(data, size, most);
    size_t start = line_start(data, size), end = line_end(data, size, start), length = end - start;
    switch (below(12)) {
    case 0:
    case 1: return put(data, size, most, start, end, "", 0);
    case 2:
    case 3: return put(data, size, most, start, end, text, line(text, sizeof text));
    case 4:
    case 5:
        /* A line of the sheet once more, at another place. */
        if (length == 0 || length > sizeof text)
            return size;
        memcpy(text, data + start, length);
        start = line_place(data, size, text[0]);
        return put(data, size, most, start, start, text, length);
    case 6:
        /* A line that ends too soon. */
        start += below((uint32_t)length);
        return put(data, size, most, start, end > start ? end - 1 : end, "", 0);
    default:
        length = line(text, sizeof text);
        start = line_place(data, size, text[0]);
        return put(data, size, most, start, start, text, length);
    }
}
