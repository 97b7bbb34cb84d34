#define _GNU_SOURCE
#include "areas.h"

#include <stdio.h>
#include <stdlib.h>
#include <string.h>
#include <sys/mman.h>
#include <unistd.h>

/* More pages than one, so that a whole table too far is seen as well as a byte. */
enum { PAGE = 4096, GUARD = 16 * PAGE };

static struct area area_for(size_t most, int rights) {
    struct area area = {NULL, NULL, (most + PAGE - 1) / PAGE * PAGE};
    int memory = memfd_create("area", 0);
    uint8_t *all = mmap(NULL, area.size + 2 * GUARD, PROT_NONE, MAP_PRIVATE | MAP_ANONYMOUS, -1, 0);
    if (memory < 0 || ftruncate(memory, (off_t)area.size) != 0 || all == MAP_FAILED) {
        perror("memory between guard pages");
        exit(2);
    }
    area.pages = mmap(all + GUARD, area.size, rights, MAP_SHARED | MAP_FIXED, memory, 0);
    area.own = mmap(NULL, area.size, PROT_READ | PROT_WRITE, MAP_SHARED, memory, 0);
    if (area.pages != all + GUARD || area.own == MAP_FAILED) {
        perror("memory between guard pages");
        exit(2);
    }
    close(memory);
    return area;
}

struct area area_of_bytes(size_t most) {
    return area_for(most, PROT_READ);
}

struct area area_of_room(size_t most) {
    return area_for(most, PROT_READ | PROT_WRITE);
}

size_t area_start(const struct area *area, size_t len, enum place place) {
    if (len > area->size) {
        fprintf(stderr, "an area of %zu bytes is too short for %zu\n", area->size, len);
        exit(2);
    }
    return place == BEFORE ? 0 : area->size - len;
}

const uint8_t *lend_bytes(const struct area *area, const uint8_t *bytes, size_t len, enum place place) {
    size_t at = area_start(area, len, place);
    if (len > 0)
        memcpy(area->own + at, bytes, len);
    return len == 0 && place == NOWHERE ? NULL : area->pages + at;
}

uint8_t *lend_room(const struct area *area, size_t len, enum place place) {
    size_t at = area_start(area, len, place);
    memset(area->own, PATTERN, area->size);
    return len == 0 && place == NOWHERE ? NULL : area->pages + at;
}

static int all_pattern(const uint8_t *at, const uint8_t *end) {
    return at == end || (*at == PATTERN && memcmp(at, at + 1, (size_t)(end - at) - 1) == 0);
}

int rest_untouched(const struct area *area, size_t len, enum place place, size_t written) {
    const uint8_t *room = area->own + area_start(area, len, place);
    return written <= len && all_pattern(area->own, room) && all_pattern(room + written, area->own + area->size);
}
