/* The stack that the functions with large locals use: a thread is given painted memory as its stack, and what is no longer painted was
 * used.
 *
 *   stack run TABLE STEPS               prints the bytes from the caller's frame down to the lowest byte written, of a run
 *   stack allowed TABLE                 the same of the list of allowed steps
 *   stack roll_call TABLE QUESTIONS     the same of a roll call; the questions are numbers of 32 bits, little-endian
 */
#define _POSIX_C_SOURCE 200809L
#include "station_line.h"

#include <pthread.h>
#include <stdio.h>
#include <stdlib.h>
#include <string.h>

enum { STACK = 1 << 20, TABLE = 64 * 512, STEPS = 4096 * 12, PAINT = 0xA5 };

static uint8_t table[TABLE], steps[STEPS], room[TABLE];
static uint32_t stations[STATION_LINE_MOST_QUESTIONS];
static struct station_line_leave records[STATION_LINE_MOST_QUESTIONS];
static size_t table_len, second_len;
static uint32_t answer, count;
static uint8_t *top;

static size_t read_all(const char *path, void *to, size_t most)
{
    FILE *file = fopen(path, "rb");
    if (file == NULL) {
        perror(path);
        exit(2);
    }
    size_t got = fread(to, 1, most, file);
    fclose(file);
    return got;
}

static void keep(struct station_line_filled filled)
{
    answer = filled.answer;
    count = filled.filled;
}

static void *call_allowed(void *unused)
{
    uint8_t here = 0;
    top = &here;
    keep(station_line_allowed(table, table_len, room, sizeof room));
    return unused;
}

static void *call_roll_call(void *unused)
{
    uint8_t here = 0;
    top = &here;
    keep(station_line_roll_call(table, table_len, stations, second_len / sizeof stations[0], records, STATION_LINE_MOST_QUESTIONS));
    return unused;
}

static void *call_run(void *unused)
{
    uint8_t here = 0;
    top = &here;
    struct station_line_ran ran = station_line_run(table, table_len, steps, second_len, room, sizeof room);
    answer = ran.answer;
    count = ran.done;
    return unused;
}

/* The functions, with what the second file goes to and what they count. */
static const struct call {
    const char *name, *counts;
    void *(*does)(void *);
    void *second;
    size_t most;
} calls[] = {
    {"run", "steps", call_run, steps, sizeof steps},
    {"allowed", "steps", call_allowed, NULL, 0},
    {"roll_call", "records", call_roll_call, stations, sizeof stations},
};

/* Reads the files of the call that the arguments name; null where they name none. */
static const struct call *take_arguments(int argc, char **argv)
{
    for (size_t k = 0; argc > 2 && k < sizeof calls / sizeof calls[0]; k++) {
        if (strcmp(argv[1], calls[k].name) != 0 || argc != (calls[k].second != NULL ? 4 : 3)) {
            continue;
        }
        table_len = read_all(argv[2], table, sizeof table);
        second_len = argc == 4 ? read_all(argv[3], calls[k].second, calls[k].most) : 0;
        return &calls[k];
    }
    return NULL;
}

int main(int argc, char **argv)
{
    const struct call *call = take_arguments(argc, argv);
    if (call == NULL) {
        fprintf(stderr, "stack run TABLE STEPS, stack allowed TABLE, or stack roll_call TABLE QUESTIONS\n");
        return 2;
    }
    void *memory;
    pthread_attr_t attributes;
    pthread_t thread;
    if (posix_memalign(&memory, 4096, STACK) != 0 || pthread_attr_init(&attributes) != 0
        || pthread_attr_setstack(&attributes, memory, STACK) != 0) {
        return 2;
    }
    uint8_t *bottom = memory;
    /* The first call is for what the dynamic linker does once. */
    for (int turn = 0; turn < 2; turn++) {
        memset(bottom, PAINT, STACK);
        if (pthread_create(&thread, &attributes, call->does, NULL) != 0 || pthread_join(thread, NULL) != 0) {
            return 2;
        }
    }
    uint8_t *lowest = bottom;
    while (*lowest == PAINT) {
        lowest++;
    }
    printf("%td bytes (answer %u, %u %s)\n", top - lowest, (unsigned)answer, (unsigned)count, call->counts);
    free(memory);
    return 0;
}
