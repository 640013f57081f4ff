/*
 * For the tests of this folder: checks that are counted, and memory that ends where no byte may be
 * touched, as the library itself is not compiled with a sanitizer.
 */
#ifndef LOAFAWNING_EDGE_H
#define LOAFAWNING_EDGE_H

#include <stdint.h>
#include <stdio.h>
#include <stdlib.h>
#include <string.h>
#include <sys/mman.h>
#include <unistd.h>

#define FILL 0xa5

static unsigned checks;

/* Counts a check; one that does not hold ends the run. */
static void check(int holds, const char *what, const char *of, size_t number) {
    checks++;
    if (holds) return;
    printf("%s: %s, %lu\n", of, what, (unsigned long)number);
    exit(1);
}

/* So many bytes, and a page after them that nobody may touch. */
struct edge {
    uint8_t *front;
    size_t size;
};

static struct edge inputs, rooms;

/* An edge of that size. */
static struct edge edge(size_t most) {
    size_t page = (size_t)sysconf(_SC_PAGESIZE), size = (most + page - 1) / page * page;
    void *all = mmap(NULL, size + page, PROT_READ | PROT_WRITE, MAP_PRIVATE | MAP_ANONYMOUS, -1, 0);
    check(all != MAP_FAILED && mprotect((uint8_t *)all + size, page, PROT_NONE) == 0, "no memory", "edge", size);
    struct edge made = {(uint8_t *)all + size - most, most};
    return made;
}

/* The last bytes of an edge, so many. */
static uint8_t *last_of(struct edge of, size_t length) {
    check(length <= of.size, "too long", "edge", length);
    return of.front + of.size - length;
}

/* An input whose last byte is the last that may be touched. */
static const uint8_t *input_of(const void *bytes, size_t length) {
    uint8_t *input = last_of(inputs, length);
    memcpy(input, bytes, length);
    return input;
}

/* A room of that sort, filled as all before it is. */
static uint8_t *room_of(size_t length) {
    memset(rooms.front, FILL, rooms.size);
    return last_of(rooms, length);
}

/* That the room has these bytes at its front, and that nothing else of it or before it was altered. */
static void check_room(size_t room, const void *bytes, size_t count, const char *of) {
    size_t front = rooms.size - room, end = front + count, k = 0;
    check(memcmp(rooms.front + front, bytes, count) == 0, "the bytes made", of, room);
    while (k < rooms.size && ((front <= k && k < end) || rooms.front[k] == FILL)) k++;
    check(k == rooms.size, "a byte that was altered", of, k);
}

#endif
