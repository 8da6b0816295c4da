/* The archive has no coverage instrumentation, so each of its blocks gets a trap
 * (int3 in place of its first byte). The first run that comes to a block is
 * stopped there, the block is noted in a counter that libFuzzer reads, the byte
 * is put back and the run goes on. From then on the block costs nothing and is
 * not noted again: libFuzzer learns which sheet reached a block first. */
#define _GNU_SOURCE
#include "traps.h"

#include <inttypes.h>
#include <signal.h>
#include <stdio.h>
#include <stdlib.h>
#include <sys/mman.h>
#include <ucontext.h>

/* libFuzzer reads what is in this section, which the compiler cannot know: used. */
enum { MOST = 16384, TRAP = 0xcc, PAGE = 4096 };

__attribute__((used, section("__libfuzzer_extra_counters"))) static uint8_t reached[MOST];
static struct block { uint8_t *start; uint8_t byte; } blocks[MOST];
static size_t count, found;

static _Noreturn void fail(const char *what)
{
    fprintf(stderr, "traps: %s\n", what);
    exit(64);
}

/* The blocks are in order. */
static size_t block_at(const uint8_t *start)
{
    size_t low = 0, high = count;
    while (low < high) {
        size_t middle = low + (high - low) / 2;
        if (blocks[middle].start < start)
            low = middle + 1;
        else
            high = middle;
    }
    return low;
}

static void at_trap(int signal_number, siginfo_t *info, void *context)
{
    greg_t *registers = ((ucontext_t *)context)->uc_mcontext.gregs;
    uint8_t *start = (uint8_t *)(uintptr_t)registers[REG_RIP] - 1;
    size_t place = block_at(start);
    (void)signal_number;
    (void)info;
    if (place == count || blocks[place].start != start)
        abort();
    *start = blocks[place].byte;
    registers[REG_RIP]--;
    reached[place] = 1;
    found++;
}

/* Says how many were reached; those that were not go to a file if one is named. */
static void say(void)
{
    const char *name = getenv("UNREACHED");
    FILE *file = name ? fopen(name, "w") : NULL;
    for (size_t place = 0; file && place < count; place++)
        if (*blocks[place].start == TRAP)
            fprintf(file, "%td\n", blocks[place].start - (uint8_t *)(uintptr_t)&traps_set);
    if (file)
        fclose(file);
    fprintf(stderr, "blocks_reached %zu of %zu\n", found, count);
}

static void read_blocks(const char *name)
{
    FILE *file = name ? fopen(name, "r") : NULL;
    intptr_t distance;
    if (!file)
        fail("the list of blocks cannot be read");
    while (count < MOST && fscanf(file, "%" SCNdPTR "%*[^\n]", &distance) == 1)
        blocks[count++].start = (uint8_t *)((intptr_t)&traps_set + distance);
    fclose(file);
    if (count == 0 || count == MOST)
        fail("no block, or too many");
}

void traps_set(const char *name)
{
    struct sigaction action = {.sa_sigaction = at_trap, .sa_flags = SA_SIGINFO | SA_NODEFER};
    read_blocks(name);
    uintptr_t first = (uintptr_t)blocks[0].start & ~(uintptr_t)(PAGE - 1);
    uintptr_t end = ((uintptr_t)blocks[count - 1].start + PAGE) & ~(uintptr_t)(PAGE - 1);
    if (mprotect((void *)first, end - first, PROT_READ | PROT_WRITE | PROT_EXEC) != 0)
        fail("the code cannot be changed");
    if (sigaction(SIGTRAP, &action, NULL) != 0)
        fail("no signal");
    for (size_t place = 0; place < count; place++) {
        blocks[place].byte = *blocks[place].start;
        *blocks[place].start = TRAP;
    }
    atexit(say);
}
