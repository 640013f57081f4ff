/*
 * The stack that gate.h states is enough, with an eighth to spare: each call runs in a thread whose
 * stack is filled before and looked through after it, first with much room, then with exactly what
 * is stated. Below a stack lies a stretch that nobody may touch.
 */
#include "gate.h"

#include <pthread.h>
#include <stdio.h>
#include <stdlib.h>
#include <string.h>
#include <sys/mman.h>

#define FILL 0xa5
#define MUCH (16u << 20)
#define BELOW (4u << 20)

/* A call and what it has to give: an answer, or what is printed. */
struct call {
    const char *name;
    enum { TEXT, REPLAY, FRESH, LOAD, RECORD } what;
    const uint8_t *input;
    size_t length;
    const char *printed;
    gate_answer answer;
};

static uint8_t out[4096];

/* The box of a call, and what it holds before it. */
static gate_box box, start;

static void fail(const struct call *call, const char *why, size_t number) {
    printf("stack: %s: %s, %lu\n", call->name, why, (unsigned long)number);
    exit(1);
}

/* Makes a call that answers. */
static gate_answer answer_of(const struct call *call) {
    if (call->what == TEXT) return gate_text(call->input, call->length, out, 48);
    box = start;
    if (call->what == LOAD) return gate_load(&box, call->input, call->length);
    if (call->what == RECORD) return gate_serve(&box, call->input, call->length, out, sizeof out);
    gate_fresh(&box);
    return GATE_DONE;
}

/* Makes the call, and looks at what it gives. */
static void *make(void *given) {
    const struct call *call = (const struct call *)given;
    if (call->what != REPLAY) {
        gate_answer answer = answer_of(call);
        if (answer != call->answer) fail(call, "the answer", answer);
        return NULL;
    }
    size_t length = gate_replay(call->input, call->length, out, sizeof out);
    if (length != strlen(call->printed)) fail(call, "how much is printed", length);
    if (memcmp(out, call->printed, length) != 0) fail(call, "what is printed", length);
    return NULL;
}

/* How many bytes of a stack of so many a call touches. */
static size_t touched(struct call *call, size_t size) {
    void *all = mmap(NULL, BELOW + size, PROT_NONE, MAP_PRIVATE | MAP_ANONYMOUS, -1, 0);
    uint8_t *stack = (uint8_t *)all + BELOW;
    pthread_attr_t attr;
    pthread_t thread;
    size_t k = 0;
    if (all == MAP_FAILED || mprotect(stack, size, PROT_READ | PROT_WRITE) != 0) fail(call, "no memory", size);
    memset(stack, FILL, size);
    if (pthread_attr_init(&attr) != 0) fail(call, "no attributes", size);
    if (pthread_attr_setstack(&attr, stack, size) != 0) fail(call, "no such stack", size);
    if (pthread_create(&thread, &attr, make, call) != 0) fail(call, "no thread", size);
    if (pthread_join(thread, NULL) != 0) fail(call, "no end", size);
    pthread_attr_destroy(&attr);
    while (k < size && stack[k] == FILL) k++;
    munmap(all, BELOW + size);
    return size - k;
}

/* Measures a call, and makes it in a stack that has what is stated and no more. */
static size_t measure(struct call *call, size_t stated) {
    size_t need = touched(call, MUCH);
    if (stated - stated / 8 < need) fail(call, "more than seven eighths of what is stated", need);
    touched(call, stated);
    return need;
}

static void say(const char *name, size_t need, size_t stated) {
    printf("stack: %7lu of %lu bytes: %s\n", (unsigned long)need, (unsigned long)stated, name);
}

/* ---- Texts --------------------------------------------------------------------------------- */

/* So many bytes of `front`, over and over, and `last`: 512 at most. */
static void text(const char *name, const char *front, size_t length, const char *last, gate_answer answer) {
    static uint8_t bytes[512];
    struct call call = {name, TEXT, bytes, length + strlen(last), "", answer};
    for (size_t k = 0; k < length; k++) bytes[k] = (uint8_t)front[k % strlen(front)];
    memcpy(bytes + length, last, strlen(last));
    say(name, measure(&call, GATE_TEXT_STACK), GATE_TEXT_STACK);
}

static void texts(void) {
    text("512 opening parentheses", "(", 512, "", GATE_TEXT_WRONG + 256 * 512);
    text("511 and a securon", "(", 511, "1", GATE_TEXT_WRONG + 256 * 512);
    text("505 and a range", "(", 505, "1[0..2]", GATE_TEXT_WRONG + 256 * 512);
    text("parentheses with spaces", "( ", 512, "", GATE_TEXT_WRONG + 256 * 512);
    text("parentheses after &", "1&(", 510, "12", GATE_TEXT_WRONG + 256 * 512);
    text("parentheses after |", "1|(", 510, "12", GATE_TEXT_WRONG + 256 * 512);
    text("a long row of &", "1&", 510, "12", GATE_TEXT_LONG);
    text("a long row of |", "1|", 510, "12", GATE_TEXT_LONG);
    text("no text", "", 0, "", GATE_DONE);
}

/* ---- Replays ------------------------------------------------------------------------------- */

/* Two ranges and thirteen securons under 14 AND, 48 bytes; and sixteen securons under 15, the deepest. */
static const uint8_t wide[48] = {3, 3, 3, 3, 3, 3, 3, 3, 3, 3, 3, 3, 3, 3, 2, 63, 0, 63, 2, 0, 63, 63, 1, 0,
                                 1, 1, 1, 62, 1, 63, 1, 5, 1, 5, 1, 5, 1, 5, 1, 5, 1, 5, 1, 5, 1, 5, 1, 5};
static const uint8_t deep[47] = {3, 3, 3, 3, 3, 3, 3, 3, 3, 3, 3, 3, 3, 3, 3, 1, 5, 1, 5, 1, 5, 1, 5, 1,
                                 5, 1, 5, 1, 5, 1, 5, 1, 5, 1, 5, 1, 5, 1, 5, 1, 5, 1, 5, 1, 5, 1, 5};
static const uint8_t ands[48] = {3, 3, 3, 3, 3, 3, 3, 3, 3, 3, 3, 3, 3, 3, 3, 3, 3, 3, 3, 3, 3, 3, 3, 3,
                                 3, 3, 3, 3, 3, 3, 3, 3, 3, 3, 3, 3, 3, 3, 3, 3, 3, 3, 3, 3, 3, 3, 3, 3};
static const uint8_t five[2] = {1, 5};

/* Sixteen securons, and nine ranges and a securon, each on the right of the one before: the deepest that way. */
static const uint8_t right[47] = {3, 1, 5, 3, 1, 5, 3, 1, 5, 3, 1, 5, 3, 1, 5, 3, 1, 5, 3, 1, 5, 3, 1, 5,
                                  3, 1, 5, 3, 1, 5, 3, 1, 5, 3, 1, 5, 3, 1, 5, 3, 1, 5, 3, 1, 5, 1, 5};
static const uint8_t ranges[47] = {4, 2, 63, 10, 63, 4, 2, 63, 10, 63, 4, 2, 63, 10, 63, 4, 2, 63, 10, 63, 4, 2, 63, 10,
                                   63, 4, 2, 63, 10, 63, 4, 2, 63, 10, 63, 4, 2, 63, 10, 63, 4, 2, 63, 10, 63, 1, 63};

static uint8_t input[2 + GATE_LONGEST_IMAGE + 1024];
static size_t filled;

static void put(const uint8_t *bytes, size_t count) {
    memcpy(input + filled, bytes, count);
    filled += count;
}

static void put_byte(size_t byte) { input[filled++] = (uint8_t)byte; }

static void put_counted(const uint8_t *bytes, size_t count) {
    put_byte(count);
    put(bytes, count);
}

/* The image of 64 securons in one line, 32 roles and 32 files, each expression the same; V- empty if asked. */
static void put_image(const uint8_t *bytes, size_t count, int no_minus) {
    filled = 2;
    put((const uint8_t *)"SPT\1\0\100", 6);
    for (size_t parent = 0; parent < 63; parent++) put_byte(parent);
    put_byte(32);
    for (size_t k = 0; k < 32 * 13; k++) put_counted(bytes, no_minus && k % 13 < 10 && k % 13 % 2 ? 0 : count);
    put_byte(32);
    for (size_t k = 0; k < 32 * 20; k++) put_counted(bytes, count);
    input[0] = (uint8_t)((filled - 2) % 256);
    input[1] = (uint8_t)((filled - 2) / 256);
}

static void put_store(size_t code, const uint8_t *first, size_t count, const uint8_t *second, size_t other) {
    const uint8_t numbers[3] = {0, 31, 0};
    put_byte(code);
    put(numbers, 3);
    put_counted(first, count);
    put_counted(second, other);
}

/* A begin, an ask of each mode, changes and bypasses with these bytes, and an end. */
static void put_records(const uint8_t *bytes, size_t count) {
    put((const uint8_t *)"\1\0\37", 3);
    for (size_t mode = 0; mode < 5; mode++) {
        put((const uint8_t *)"\3\0\37", 3);
        put_byte(mode);
    }
    put_store(4, bytes, count, bytes, count);
    put_store(5, bytes, count, bytes, count);
    put_store(5, five, 2, five, 2);
    put_store(4, ands, 48, ands, 48);
    put((const uint8_t *)"\2\0", 2);
}

static void replay(const char *name, const char *printed) {
    struct call call = {name, REPLAY, input, filled, printed, 0};
    say(name, measure(&call, GATE_REPLAY_STACK), GATE_REPLAY_STACK);
}

#define GRANTED "0 0\n0 0\n0 0\n0 0\n0 0\n0 0\n0 0\n0 0\n0 0\n0 0\n6 48\n0 0\n"
#define BARRED "0 0\n0 0\n14 0\n14 0\n14 0\n14 0\n14 0\n14 0\n14 0\n14 0\n14 0\n0 0\n"

static void replays(void) {
    put_image(wide, 48, 0);
    if (filled != 2 + GATE_LONGEST_IMAGE) exit(1);
    put_records(wide, 48);
    replay("the longest image, and requests that are refused", BARRED);
    put_image(wide, 48, 1);
    put_records(wide, 48);
    replay("a long image, and requests that are granted", GRANTED);
    put_image(deep, 47, 1);
    put_records(deep, 47);
    replay("the deepest expressions", GRANTED);
    put_image(wide, 48, 0);
    memcpy(input + filled - 48, ands, 48);
    replay("the longest image, refused at its end", "6 51815\n");
    filled = 0;
    replay("no input", "cut\n");
}

/* ---- Calls on a box ------------------------------------------------------------------------ */

/* The most that a call of one name needs, which is said when the next name comes. */
static const char *group = "";
static size_t most;

static void say_group(const char *next) {
    if (most) say(group, most, GATE_BOX_STACK);
    group = next;
    most = 0;
}

/* A call on the box as it is; what it leaves is there for the next. The input is taken. */
static void on_box(struct call call) {
    size_t need = measure(&call, GATE_BOX_STACK);
    if (need > most) most = need;
    start = box;
    filled = 0;
}

static void loaded(const char *name, gate_answer answer) {
    struct call call = {name, LOAD, input + 2, filled - 2, "", answer};
    on_box(call);
}

static void served(const char *name, gate_answer answer) {
    struct call call = {name, RECORD, input, filled, "", answer};
    on_box(call);
}

/* A begin, asks, changes, bypasses and an end, with these bytes, on the box as it is. */
static void requests(const uint8_t *bytes, size_t count, gate_answer row) {
    put((const uint8_t *)"\1\0\37", 3);
    served("begin", GATE_DONE);
    for (size_t mode = 0; mode < GATE_MODES; mode++) {
        put((const uint8_t *)"\3\0\37", 3);
        put_byte(mode);
        served("ask", row);
    }
    put_store(4, bytes, count, bytes, count);
    served("change", row);
    put_store(5, bytes, count, bytes, count);
    served("bypass of the same sets", row);
    put_store(5, five, 2, five, 2);
    served("bypass", row);
    put_store(4, bytes, count, ands, 48);
    served("change, refused at its end", row ? row : GATE_EXPRESSION_WRONG + 256 * 304);
    put((const uint8_t *)"\2\0", 2);
    served("end", GATE_DONE);
}

/* A print of these bytes, on the box as it is. */
static void printed(const uint8_t *bytes, size_t count, gate_answer answer) {
    put_byte(GATE_PRINT);
    put_counted(bytes, count);
    served("print", answer);
}

/* Prints of the deepest expressions, of the longest text, and one that is refused at its end. */
static void prints(void) {
    printed(wide, sizeof wide, GATE_DONE + 256 * 47);
    printed(deep, sizeof deep, GATE_DONE + 256 * 31);
    printed(right, sizeof right, GATE_DONE + 256 * 59);
    printed(ranges, sizeof ranges, GATE_DONE + 256 * 117);
    printed(ands, sizeof ands, GATE_EXPRESSION_WRONG + 256 * 48);
}

static void calls_on_a_box(void) {
    struct call fresh = {"fresh", FRESH, input, 0, "", GATE_DONE};
    say_group("a box made fresh");
    on_box(fresh);
    say_group("loads and requests on a box, the longest image");
    put_image(wide, 48, 0);
    loaded("load the longest image", GATE_DONE);
    requests(wide, 48, GATE_ROW_NOT_PASSED);
    put_image(wide, 48, 0);
    memmove(input + 1, input, filled++);
    input[0] = GATE_LOAD;
    served("load the longest image by a record", GATE_DONE);
    say_group("loads and requests on a box, a long image and requests that are granted");
    put_image(wide, 48, 1);
    loaded("load a long image", GATE_DONE);
    requests(wide, 48, GATE_DONE);
    say_group("loads and requests on a box, the deepest expressions");
    put_image(deep, 47, 1);
    loaded("load the deepest expressions", GATE_DONE);
    requests(deep, 47, GATE_DONE);
    say_group("prints on a box, a long image");
    put_image(wide, 48, 1);
    loaded("load a long image", GATE_DONE);
    prints();
    say_group("refused calls on a box");
    put_image(wide, 48, 0);
    memcpy(input + filled - 48, ands, 48);
    loaded("load the longest image, refused at its end", GATE_EXPRESSION_WRONG + 256 * GATE_LONGEST_IMAGE);
    served("no record", GATE_NO_RECORD);
    memset(&start, 0, sizeof start);
    put((const uint8_t *)"\3\0\0\0", 4);
    served("ask, of zeroed memory", GATE_ILL_FORMED);
    say_group("");
}

int main(void) {
    texts();
    replays();
    calls_on_a_box();
    puts("stack: passed");
    return 0;
}
