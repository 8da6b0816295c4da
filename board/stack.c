/* How much stack the two calls need: stack BYTES FILE... runs the sheet in each
 * file in a thread whose stack was filled with a known byte, and looks how far
 * down it was changed. The exit status is 1 where a call needs more than BYTES.
 * It is a measurement: it shows what these sheets need. */
#define _POSIX_C_SOURCE 200809L
#include "mallardtray.h"

#include <pthread.h>
#include <stdio.h>
#include <stdlib.h>
#include <string.h>

enum { STACK_BYTES = 8 << 20, FILL = 0xa5, SHEET_BYTES = 65536, EVENTS = 65536 };

static _Alignas(4096) uint8_t stack[STACK_BYTES];
static uint8_t sheet[SHEET_BYTES], transcript[65536];
static size_t length;

static void *idle(void *nothing) { return nothing; }

static void *both(void *nothing)
{
    mallardtray_check(sheet, length);
    mallardtray_run(sheet, length, transcript, sizeof transcript, EVENTS);
    return nothing;
}

/* What a thread changes of its stack. */
static size_t changed(void *(*body)(void *))
{
    pthread_attr_t attributes;
    pthread_t thread;
    size_t kept = 0;
    memset(stack, FILL, sizeof stack);
    if (pthread_attr_init(&attributes) != 0 ||
        pthread_attr_setstack(&attributes, stack, sizeof stack) != 0 ||
        pthread_create(&thread, &attributes, body, NULL) != 0 || pthread_join(thread, NULL) != 0) {
        fprintf(stderr, "stack: no thread\n");
        exit(64);
    }
    while (kept < sizeof stack && stack[kept] == FILL)
        kept++;
    return sizeof stack - kept;
}

int main(int argc, char **argv)
{
    size_t allowed = argc > 2 ? strtoul(argv[1], NULL, 10) : 0, most = 0;
    for (int place = 2; place < argc; place++) {
        FILE *file = fopen(argv[place], "rb");
        if (!file) {
            fprintf(stderr, "stack: cannot read %s\n", argv[place]);
            return 64;
        }
        length = fread(sheet, 1, sizeof sheet, file);
        fclose(file);
        /* A thread that does nothing needs some too; that is not counted. */
        size_t bytes = changed(both) - changed(idle);
        most = bytes > most ? bytes : most;
    }
    printf("stack_bytes %zu\n", most);
    return most > allowed;
}
