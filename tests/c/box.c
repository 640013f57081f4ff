/*
 * A box that is kept, from C and from C++, on answers by hand from the scope paper: every record but
 * a print (print.c), by its bytes and by its typed call; every number that these answer with;
 * refusals that alter nothing; zeroed, random and damaged memory as a box; bytes that are no record;
 * rooms of every length. The box, the inputs and the rooms end where no byte may be touched.
 */
#include "gate.h"

#include "edge.h"

#define BEFORE 64

/* The bytes of an expression or an image, and how many. */
#define X(bytes) (const uint8_t *)(bytes), sizeof(bytes) - 1

static struct edge boxes;
static gate_box *box;
static unsigned reached[256];

/* ---- What every call keeps ----------------------------------------------------------------- */

/* The box of an edge, with bytes before it that no call may alter. */
static void place_box(void) {
    boxes = edge(BEFORE + sizeof *box);
    memset(boxes.front, FILL, BEFORE);
    box = (gate_box *)(void *)last_of(boxes, sizeof *box);
}

/* That nothing before the box was altered. */
static void check_before(const char *of) {
    size_t k = 0;
    while (k < BEFORE && boxes.front[k] == FILL) k++;
    check(k == BEFORE, "a byte before the box that was altered", of, k);
}

static int is_box(const gate_box *other) { return memcmp(box, other, sizeof *box) == 0; }

/* An answer: the number and the place that are expected. */
static void expect(gate_answer answer, uint32_t number, uint32_t place, const char *of) {
    check(gate_number(answer) == number, "the number", of, gate_number(answer));
    check(gate_place(answer) == place, "the place", of, gate_place(answer));
    check(gate_granted(answer) == (number == 0), "granted", of, number);
    reached[number]++;
}

/* Serves a record with so much room. The record and the room stay, and the box where it is refused. */
static gate_answer serve(const uint8_t *record, size_t length, size_t room, const char *of) {
    static gate_box old;
    const uint8_t *input = input_of(record, length);
    old = *box;
    gate_answer answer = gate_serve(box, input, length, room_of(room), room);
    check(memcmp(input, record, length) == 0, "the record", of, length);
    check_room(room, "", 0, of);
    check_before(of);
    check(gate_granted(answer) || is_box(&old), "a refusal that alters the box", of, gate_number(answer));
    return answer;
}

static gate_box before, after;

/* A record by its bytes. Then the box is as it was, for the same by a typed call. */
static void by_bytes(const uint8_t *record, size_t length, uint32_t number, uint32_t place, const char *of) {
    before = *box;
    expect(serve(record, length, 0, of), number, place, of);
    after = *box;
    *box = before;
}

/* What the typed call answered: the same, and it leaves the same box. */
static void by_call(gate_answer answer, uint32_t number, uint32_t place, const char *of) {
    expect(answer, number, place, of);
    check(is_box(&after), "the box after the typed call", of, number);
    check_before(of);
}

/* ---- The calls, each by its bytes and typed ------------------------------------------------ */

static void begin(uint8_t slot, uint8_t role, uint32_t number, const char *of) {
    const uint8_t record[3] = {1, slot, role};
    by_bytes(record, sizeof record, number, 0, of);
    by_call(gate_begin(box, slot, role), number, 0, of);
}

static void end(uint8_t slot, uint32_t number, const char *of) {
    const uint8_t record[2] = {2, slot};
    by_bytes(record, sizeof record, number, 0, of);
    by_call(gate_end(box, slot), number, 0, of);
}

static void ask(uint8_t slot, uint8_t file, uint8_t mode, uint32_t number, const char *of) {
    const uint8_t record[4] = {3, slot, file, mode};
    by_bytes(record, sizeof record, number, 0, of);
    by_call(gate_ask(box, slot, file, mode), number, 0, of);
    check(is_box(&before), "an ask that alters the box", of, number);
}

/* A record 04 or 05. */
static void store_bytes(uint8_t code, uint8_t slot, uint8_t file, uint8_t mode, const uint8_t *x, size_t x_length,
                        const uint8_t *y, size_t y_length, uint32_t number, uint32_t place, const char *of) {
    uint8_t record[4 + 2 * 256] = {code, slot, file, mode, (uint8_t)x_length};
    memcpy(record + 5, x, x_length);
    record[5 + x_length] = (uint8_t)y_length;
    memcpy(record + 6 + x_length, y, y_length);
    by_bytes(record, 6 + x_length + y_length, number, place, of);
}

static void change(uint8_t slot, uint8_t file, uint8_t mode, const uint8_t *t1, size_t t1_length, const uint8_t *t2,
                   size_t t2_length, uint32_t number, uint32_t place, const char *of) {
    store_bytes(4, slot, file, mode, t1, t1_length, t2, t2_length, number, place, of);
    by_call(gate_change(box, slot, file, mode, t1, t1_length, t2, t2_length), number, place, of);
}

static void bypass(uint8_t slot, uint8_t file, uint8_t mode, const uint8_t *e, size_t e_length, const uint8_t *g,
                   size_t g_length, uint32_t number, uint32_t place, const char *of) {
    store_bytes(5, slot, file, mode, e, e_length, g, g_length, number, place, of);
    by_call(gate_bypass(box, slot, file, mode, e, e_length, g, g_length), number, place, of);
}

/* A load, by a record 06 and by the door of its own. */
static void load(const uint8_t *image, size_t length, uint32_t number, uint32_t place, const char *of) {
    static uint8_t record[GATE_LONGEST_RECORD];
    record[0] = 6;
    record[1] = (uint8_t)(length % 256);
    record[2] = (uint8_t)(length / 256);
    memcpy(record + 3, image, length);
    by_bytes(record, 3 + length, number, place, of);
    by_call(gate_load(box, input_of(image, length), length), number, place, of);
    check(memcmp(last_of(inputs, length), image, length) == 0, "the image", of, length);
}

/* ---- A policy ------------------------------------------------------------------------------ */

/* The paper's tree of eight; the places of a role's and a file's expressions in an image. */
#define TREE "SPT\1\0\10\0\0\1\1\2\2\0"
#define V_PLUS(mode) (2 * (mode))
#define V_MINUS(mode) (2 * (mode) + 1)
#define T1(mode) (4 * (mode))
#define E(mode) (4 * (mode) + 1)
#define T2(mode) (4 * (mode) + 2)
#define G(mode) (4 * (mode) + 3)
enum { M1 = 10, M2 = 11, B = 12, ROLE_PARTS = 13, FILE_PARTS = 20, ROLES = 5, FILES = 5 };

/* An expression of a role or a file; one that is not named is empty. */
struct part {
    unsigned of, place;
    const uint8_t *bytes;
    size_t length;
};

static const struct part role_parts[] = {
    {0, V_PLUS(GATE_READ), X("\3\1\1\1\3")}, {0, M1, X("\1\1")}, {1, M1, X("\3\1\1\1\3")},
    {2, M2, X("\1\5")}, {2, B, X("\1\3")},
    {3, V_PLUS(GATE_READ), X("\1\4")}, {3, V_MINUS(GATE_READ), X("\1\5")},
    {3, V_MINUS(GATE_WRITE), X("\1\5")}, {3, V_MINUS(GATE_EXECUTE), X("\1\5")},
};

static const struct part file_parts[] = {
    {0, E(GATE_READ), X("\3\1\1\1\3")}, {1, E(GATE_READ), X("\1\1")}, {2, E(GATE_READ), X("\3\1\3\1\4")},
    {3, T1(GATE_READ), X("\2\1\1\2")}, {3, T2(GATE_READ), X("\3\1\5\1\6")}, {3, G(GATE_WRITE), X("\3\1\5\1\6")},
    {3, T1(GATE_EXECUTE), X("\2\7\2\2")}, {3, E(GATE_DETECT), X("\2\7\2\2")}, {3, E(GATE_CHANGE_PROTECTION), X("\1\2")},
    {4, G(GATE_READ), X("\1\5")},
};

static uint8_t image[4096];
static size_t image_length;

static void put(const uint8_t *bytes, size_t count) {
    memcpy(image + image_length, bytes, count);
    image_length += count;
}

/* A count, and the expressions of so many roles or files, each with so many. */
static void put_parts(unsigned count, unsigned each, const struct part *parts, size_t named) {
    image[image_length++] = (uint8_t)count;
    for (unsigned k = 0; k < count * each; k++) {
        size_t p = 0;
        while (p < named && (parts[p].of != k / each || parts[p].place != k % each)) p++;
        image[image_length++] = (uint8_t)(p < named ? parts[p].length : 0);
        if (p < named) put(parts[p].bytes, parts[p].length);
    }
}

static void make_image(void) {
    image_length = 0;
    put(X(TREE));
    put_parts(ROLES, ROLE_PARTS, role_parts, sizeof role_parts / sizeof *role_parts);
    put_parts(FILES, FILE_PARTS, file_parts, sizeof file_parts / sizeof *file_parts);
}

/* The policy loaded, and the roles 0 to 3 on the slots of their numbers, role 4 on slot 15. */
static void open_sessions(void) {
    load(image, image_length, 0, 0, "the policy");
    for (uint8_t role = 0; role < 4; role++) begin(role, role, 0, "a free slot");
    begin(15, 4, 0, "the last slot, the last role");
}

/* ---- begin, end, ask ----------------------------------------------------------------------- */

static void fresh_requests(void) {
    gate_fresh(box);
    begin(0, 0, 11, "no role in the fresh state");
    end(0, 9, "no session in the fresh state");
    ask(16, 0, 0, 8, "slot 16");
    ask(0, 0, 0, 9, "no session in the fresh state");
    change(0, 0, 0, X(""), X(""), 9, 0, "no session in the fresh state");
    bypass(0, 0, 0, X(""), X(""), 9, 0, "no session in the fresh state");
}

static void sessions(void) {
    open_sessions();
    begin(0, 1, 10, "a taken slot");
    begin(0, 255, 10, "taken goes before the role");
    begin(7, 5, 11, "a role at the count");
    begin(7, 255, 11, "role 255");
    begin(16, 255, 8, "the slot goes before the role");
    begin(255, 0, 8, "slot 255");
    end(7, 9, "a free slot");
    end(16, 8, "slot 16");
    ask(0, 1, GATE_READ, 0, "role 0 reads file 1");
    end(0, 0, "a taken slot");
    ask(0, 1, GATE_READ, 9, "the session is over");
    end(0, 9, "the session is over");
    begin(0, 4, 0, "a free slot again");
    ask(0, 1, GATE_READ, 14, "nothing of role 0 is left");
    load(image, image_length, 0, 0, "a load frees every slot");
    end(15, 9, "free since the load");
}

static void asks(void) {
    open_sessions();
    ask(0, 0, GATE_READ, 15, "E {1, 3} is held, and not within M1 {1}");
    ask(0, 1, GATE_READ, 0, "E {1} is held and within M1");
    ask(0, 2, GATE_READ, 14, "E {3, 4} is not held");
    ask(0, 4, GATE_READ, 15, "G {5} is not within an empty M2");
    ask(2, 4, GATE_READ, 0, "G {5} is within M2 {5}");
    ask(3, 4, GATE_READ, 14, "5 of G is held against it");
    ask(3, 3, GATE_READ, 0, "{4} meets 1[1..2], {5} does not meet 5 AND 6");
    ask(15, 3, GATE_READ, 14, "nothing does not meet 1[1..2]");
    ask(1, 0, GATE_WRITE, 0, "M1 {1, 3} is within the Read row's E {1, 3}");
    ask(1, 1, GATE_WRITE, 15, "M1 {1, 3} is not within {1}");
    ask(15, 1, GATE_WRITE, 0, "an empty M1 is within {1}");
    ask(2, 4, GATE_WRITE, 0, "M2 {5} is within the Read row's G {5}");
    ask(2, 0, GATE_WRITE, 15, "M2 {5} is not within an empty G");
    ask(3, 3, GATE_WRITE, 14, "5 of G = 5 AND 6 is held against it");
    ask(15, 3, GATE_WRITE, 0, "nothing is held against it");
    ask(3, 3, GATE_EXECUTE, 14, "nobody meets an empty range as T1");
    ask(0, 0, GATE_EXECUTE, 15, "an empty row, and the Read row's E {1, 3} is not within M1 {1}");
    ask(0, 1, GATE_EXECUTE, 0, "the Read row's E {1} is within M1 {1}");
    ask(1, 0, GATE_READ, 14, "E {1, 3} is not held");
    ask(1, 0, GATE_EXECUTE, 0, "and has not to be: it is within M1 {1, 3}");
    ask(15, 4, GATE_EXECUTE, 15, "the Read row's G {5} is not within an empty M2");
    ask(2, 4, GATE_EXECUTE, 0, "G {5} is within M2 {5}");
    ask(15, 4, GATE_DETECT, 0, "no mediating sets for Detect");
    ask(15, 0, GATE_CHANGE_PROTECTION, 0, "nor for Change Protection");
    ask(15, 3, GATE_DETECT, 0, "everybody has an empty range as E");
    ask(0, 3, GATE_CHANGE_PROTECTION, 14, "E {2} is not held");
    ask(0, 0, GATE_CHANGE_PROTECTION, 0, "an empty row");
    ask(0, 5, 9, 12, "a file at the count");
    ask(0, 255, 0, 12, "file 255");
    ask(0, 0, 5, 13, "mode 5");
    ask(0, 3, 255, 13, "the mode goes before the row");
    ask(7, 255, 255, 9, "the session goes before the file");
    ask(255, 255, 255, 8, "the slot goes first");
}

/* ---- change and bypass --------------------------------------------------------------------- */

static void changes(void) {
    open_sessions();
    change(0, 1, GATE_READ, X("\1\5"), X(""), 0, 0, "T1 5");
    ask(0, 1, GATE_READ, 14, "{1, 3} does not meet 5");
    change(0, 1, GATE_READ, X("\4\1\7\1\3"), X(""), 0, 0, "T1 7 OR 3");
    ask(0, 1, GATE_READ, 0, "{1, 3} meets it");
    ask(3, 0, GATE_EXECUTE, 15, "an empty row, and the Read row's E {1, 3} is not within an empty M1");
    change(1, 0, GATE_EXECUTE, X(""), X("\1\5"), 0, 0, "T2 5");
    ask(3, 0, GATE_EXECUTE, 14, "5 is held against it, and 14 goes first");
    ask(1, 0, GATE_EXECUTE, 0, "and not against this one");
    change(1, 0, GATE_EXECUTE, X(""), X("\3\1\5\1\6"), 0, 0, "T2 5 AND 6");
    ask(3, 0, GATE_EXECUTE, 15, "5 alone does not meet it, so M1 decides again");
    change(0, 2, GATE_CHANGE_PROTECTION, X("\1\7"), X(""), 0, 0, "judged as the row was");
    change(0, 2, GATE_CHANGE_PROTECTION, X(""), X(""), 14, 0, "and now it is barred");
    change(255, 5, 5, X("\5"), X("\5"), 8, 0, "the slot goes first");
    change(7, 5, 5, X("\5"), X("\5"), 9, 0, "then the session");
    change(0, 5, 5, X("\5"), X("\5"), 12, 0, "the file");
    change(0, 3, 5, X("\5"), X("\5"), 13, 0, "the mode");
    change(0, 3, 4, X("\5"), X("\5"), 14, 0, "the row");
    change(0, 0, 4, X("\5"), X("\5"), 6, 0, "the expressions");
}

static void bypasses(void) {
    gate_box old;
    open_sessions();
    ask(3, 2, GATE_READ, 14, "{4} is not all of {3, 4}");
    bypass(2, 2, GATE_READ, X("\1\3"), X(""), 16, 0, "4 leaves E, and is not in B {3}");
    bypass(2, 2, GATE_READ, X("\1\4"), X(""), 0, 0, "3 leaves E");
    ask(3, 2, GATE_READ, 15, "{4} is held, and not within an empty M1");
    bypass(2, 2, GATE_READ, X("\3\1\3\1\4"), X(""), 0, 0, "3 enters E");
    bypass(2, 2, GATE_READ, X("\3\1\3\1\4"), X("\1\3"), 0, 0, "3 enters G");
    bypass(2, 2, GATE_READ, X("\3\1\3\1\4"), X("\3\1\3\1\5"), 16, 0, "5 enters G");
    bypass(2, 2, GATE_READ, X("\3\1\3\1\4"), X(""), 0, 0, "3 leaves G");
    bypass(15, 2, GATE_READ, X("\1\4"), X(""), 16, 0, "B is empty");
    old = *box;
    bypass(15, 2, GATE_READ, X("\3\1\4\1\3"), X(""), 0, 0, "the same sets in other bytes");
    check(!is_box(&old), "other bytes are stored", "bypass", 0);
    old = *box;
    bypass(15, 2, GATE_READ, X("\3\1\4\1\3"), X(""), 0, 0, "the same bytes");
    check(is_box(&old), "the same bytes", "bypass", 0);
    bypass(255, 5, 5, X("\5"), X("\5"), 8, 0, "the slot goes first");
    bypass(7, 5, 5, X("\5"), X("\5"), 9, 0, "then the session");
    bypass(0, 5, 5, X("\5"), X("\5"), 12, 0, "the file");
    bypass(0, 3, 5, X("\5"), X("\5"), 13, 0, "the mode");
    bypass(0, 3, 4, X("\5"), X("\5"), 14, 0, "the row");
    bypass(0, 2, 0, X("\1\4"), X("\5"), 6, 256, "the expressions, and then B");
}

/* An expression that is wrong at a place, in both expressions of a change and of a bypass. */
static void wrong(const uint8_t *bytes, size_t length, uint32_t place, const char *of) {
    change(0, 0, GATE_READ, bytes, length, X("\5"), 6, place, of);
    change(0, 0, GATE_READ, X("\1\7"), bytes, length, 6, 256 + place, of);
    bypass(0, 0, GATE_READ, bytes, length, X("\5"), 6, place, of);
    bypass(0, 0, GATE_READ, X("\1\7"), bytes, length, 6, 256 + place, of);
}

#define WRONG(bytes, place, of) wrong(X(bytes), place, of)

/* Fourteen AND and two ranges and thirteen securons, 48 bytes. */
#define LONGEST "\3\3\3\3\3\3\3\3\3\3\3\3\3\3\2\1\1\2\2\3\0\2\1\1\1\1\1\1\1\1\1\1\1\1\1\1\1\1\1\1\1\1\1\1\1\1\1\1"

static void expressions(void) {
    uint8_t bytes[255];
    open_sessions();
    WRONG("\3\1\1", 3, "an operand is missing");
    WRONG("\1\1\1", 2, "a byte after the whole");
    WRONG("\2\1\2\1", 3, "j under i");
    WRONG("\2\1\0\3", 3, "j over depth");
    WRONG("\2\1\3\3", 2, "i over depth");
    WRONG("\1\10", 1, "no securon 8");
    WRONG("\5", 0, "no such code");
    WRONG("\0", 0, "no such code");
    WRONG("\1", 1, "not whole");
    WRONG(LONGEST "\1", 48, "49 bytes");
    memset(bytes, 3, sizeof bytes);
    for (size_t length = 48; length < 256; length += 23) wrong(bytes, length, 48, "nothing but AND");
    bypass(0, 0, GATE_READ, X("\4\1\1\1\3"), X(""), 6, 0, "OR in E");
    bypass(0, 0, GATE_READ, X(""), X("\3\1\1\4\1\3\1\5"), 6, 259, "OR in G");
    change(0, 0, GATE_READ, X("\4\1\1\1\3"), X("\4\1\1\1\3"), 0, 0, "OR in T1 and T2");
    change(0, 0, GATE_READ, X(LONGEST), X(LONGEST), 0, 0, "48 bytes");
    change(0, 0, GATE_READ, X("\2\7\2\2"), X(""), 0, 0, "an empty range");
}

/* ---- load ---------------------------------------------------------------------------------- */

#define LOAD(bytes, number, place, of) load(X(bytes), number, place, of)
#define SMALLEST "SPT\1\0\1\0\0"

/* Images that are refused, on whatever the box holds. */
static void refused_loads(void) {
    LOAD("", 3, 0, "no image");
    LOAD("X", 1, 0, "a wrong mark");
    LOAD("SPX", 1, 2, "a wrong mark");
    LOAD("SPT\2", 3, 4, "half a version");
    LOAD("SPT\2\0\1\0\0", 2, 3, "version 2");
    LOAD("SPT\1\1\1\0\0", 2, 3, "version 257");
    LOAD("SPT\1\0\0", 4, 5, "no securon");
    LOAD("SPT\1\0\101", 4, 5, "65 securons");
    LOAD("SPT\1\0\2\1\0\0", 5, 6, "securon 1 its own parent");
    LOAD("SPT\1\0\1\41", 4, 6, "33 roles");
    LOAD("SPT\1\0\1\0\41", 4, 7, "33 files");
    LOAD("SPT\1\0\1\1\61", 6, 7, "a length byte of 49");
    LOAD("SPT\1\0\1\1\2\1\1", 6, 9, "no securon 1");
    LOAD("SPT\1\0\1\1\2\1", 3, 9, "cut in an expression");
    LOAD("SPT\1\0\1\1\1\1", 6, 9, "not whole, at the image's end too");
    LOAD("SPT\1\0\1\1\5\4\1\0\1\0", 6, 8, "OR in a privilege");
    LOAD("SPT\1\0\1\0", 3, 7, "one byte less");
    LOAD(SMALLEST "\0", 7, 8, "one byte more");
}

static void loads(void) {
    static gate_box fresh, loaded;
    static const uint8_t zeros[65535] = {0};
    static uint8_t long_image[GATE_LONGEST_RECORD];
    gate_fresh(box);
    fresh = *box;
    refused_loads();
    LOAD(SMALLEST, 0, 0, "the smallest image");
    check(is_box(&fresh), "the smallest image leaves the fresh state", "load", 0);
    load(image, image_length, 0, 0, "the policy");
    loaded = *box;
    open_sessions();
    refused_loads();
    load(zeros, 65535, 1, 0, "the longest record");
    memcpy(long_image, X(SMALLEST));
    after = *box;
    by_call(gate_load(box, input_of(long_image, sizeof long_image), sizeof long_image), 7, 8, "no record is so long");
    load(image, image_length - 1, 3, (uint32_t)image_length - 1, "the policy, cut");
    load(image, image_length, 0, 0, "the policy, on sessions");
    check(is_box(&loaded), "a load replaces all", "load", 0);
    memset(box, 0, sizeof *box);
    load(image, image_length, 0, 0, "the policy, on zeroed memory");
    check(is_box(&loaded), "a load replaces all", "load", 1);
}

/* ---- Any memory as a box ------------------------------------------------------------------- */

/* Every request is refused with 17, before anything else of it is judged; a load is not. */
static void ill_formed(const char *of) {
    begin(0, 0, 17, of);
    begin(255, 255, 17, of);
    end(0, 17, of);
    end(255, 17, of);
    ask(0, 0, 0, 17, of);
    ask(255, 255, 255, 17, of);
    change(0, 0, 0, X(""), X(""), 17, 0, of);
    change(255, 255, 255, X("\5"), X("\5"), 17, 0, of);
    bypass(0, 0, 0, X(""), X(""), 17, 0, of);
    bypass(255, 255, 255, X("\5"), X("\5"), 17, 0, of);
    expect(serve(X("\7"), 0, of), 255, 0, of);
    LOAD(SMALLEST "\0", 7, 8, of);
}

static uint32_t drawn = 20260101;

/* The next number of a sequence that is the same in every run. */
static uint32_t draw(void) {
    drawn ^= drawn << 13;
    drawn ^= drawn >> 17;
    drawn ^= drawn << 5;
    return drawn;
}

static void fill_box(void) {
    for (size_t k = 0; k < sizeof *box; k++) ((uint8_t *)box)[k] = (uint8_t)(draw() >> 11);
}

static void other_memory(void) {
    static gate_box fresh;
    gate_fresh(box);
    check_before("fresh");
    fresh = *box;
    memset(box, 0, sizeof *box);
    ill_formed("zeroed memory");
    memset(box, 255, sizeof *box);
    ill_formed("memory of ones");
    for (int round = 0; round < 20; round++) {
        fill_box();
        ill_formed("random memory");
    }
    gate_fresh(box);
    check(is_box(&fresh), "fresh is fresh, whatever it held", "fresh", 0);
    check_before("fresh");
}

/* One of these answers, each a bit; a refusal leaves the box. Puts the box back. */
static void one_of(const uint8_t *record, size_t length, uint32_t numbers, const char *of) {
    static gate_box old;
    old = *box;
    uint32_t number = gate_number(serve(record, length, 0, of));
    check(number < 32 && (numbers >> number & 1), "the number", of, number);
    reached[number]++;
    *box = old;
}

/* Places all over a box, and every one near its ends. */
static size_t place_after(size_t k) { return k < 128 || sizeof *box - 128 <= k ? k + 1 : k + 89; }

/* A loaded box with one byte damaged: 17, or what the rules may answer. */
static void damaged(void) {
    static gate_box whole;
    unsigned counted = reached[17];
    open_sessions();
    whole = *box;
    for (size_t k = 0; k < sizeof *box; k = place_after(k)) {
        ((uint8_t *)box)[k] ^= (uint8_t)(1 + draw() % 255);
        one_of(X("\1\7\4"), 1u << 0 | 1u << 17 | 1u << 10 | 1u << 11, "a damaged box, begin");
        one_of(X("\2\0"), 1u << 0 | 1u << 17 | 1u << 9, "a damaged box, end");
        one_of(X("\3\0\1\0"), 1u << 0 | 1u << 17 | 1u << 9 | 1u << 12 | 1u << 14 | 1u << 15, "a damaged box, ask");
        one_of(X("\4\0\1\0\0\0"), 1u << 0 | 1u << 17 | 1u << 9 | 1u << 12 | 1u << 14, "a damaged box, change");
        one_of(X("\5\0\1\0\0\0"), 1u << 17 | 1u << 9 | 1u << 12 | 1u << 14 | 1u << 16, "a damaged box, bypass");
        *box = whole;
    }
    check(reached[17] > counted + 1000, "a damage that is found", "a damaged box", reached[17]);
}

/* ---- No record ----------------------------------------------------------------------------- */

/* Whole records, by their codes; those of the last line are refused, as no slot is over 15. */
static const struct part records[] = {
    {1, 0, X("\1\7\4")}, {2, 0, X("\2\0")}, {3, 0, X("\3\0\1\0")}, {4, 0, X("\4\0\1\0\0\0")},
    {4, 0, X("\4\0\1\0\2\1\5\4\2\1\0\0")}, {5, 0, X("\5\2\2\0\2\1\4\0")}, {6, 0, X("\6\10\0" SMALLEST)},
    {6, 0, X("\6\0\0")},
    {1, 0, X("\1\20\0")}, {2, 0, X("\2\20")}, {3, 0, X("\3\20\0\0")}, {5, 0, X("\5\20\0\0\1\1\2\1\1")},
};

/* That these bytes are no record. */
static void no_record(const uint8_t *bytes, size_t length, const char *of) {
    expect(serve(bytes, length, 0, of), 255, 0, of);
}

/* Each whole record with its end cut off, and with a byte more; codes that no record has. */
static void no_records(void) {
    uint8_t bytes[64] = {0};
    for (size_t k = 0; k < sizeof records / sizeof *records; k++) {
        size_t length = records[k].length;
        for (size_t cut = 0; cut < length; cut++) no_record(records[k].bytes, cut, "a cut record");
        memcpy(bytes, records[k].bytes, length);
        bytes[length] = (uint8_t)records[k].of;
        no_record(bytes, length + 1, "a byte more");
        memcpy(bytes + length, records[k].bytes, length);
        no_record(bytes, 2 * length, "a record after it");
    }
    memset(bytes, 0, sizeof bytes);
    for (unsigned code = 0; code < 256; code++) {
        if ((GATE_BEGIN <= code && code <= GATE_LOAD) || code == GATE_PRINT) continue;
        bytes[0] = (uint8_t)code;
        for (size_t length = 1; length < 8; length++) no_record(bytes, length, "an unknown code");
    }
    no_record(X("\4\0\1\0\377\0"), "a length byte of 255");
    no_record(X("\6\377\377SPT"), "a length of 65,535");
    no_record(X("\6\0\10" SMALLEST), "a length with its high byte first");
}

static void no_records_anywhere(void) {
    open_sessions();
    no_records();
    gate_fresh(box);
    no_records();
    memset(box, 0, sizeof *box);
    no_records();
}

/* ---- Rooms, arguments that no record holds, boxes side by side ------------------------------ */

/* Every whole record with every room: the answer and the box are those with none. */
static void all_rooms(void) {
    static gate_box start, left;
    open_sessions();
    start = *box;
    for (size_t k = 0; k < sizeof records / sizeof *records; k++) {
        gate_answer answer = serve(records[k].bytes, records[k].length, 0, "no room");
        left = *box;
        for (size_t room = 1; room < 140; room++) {
            *box = start;
            int same = serve(records[k].bytes, records[k].length, room, "a room") == answer;
            check(same, "another answer", "a room", room);
            check(is_box(&left), "another box", "a room", room);
        }
        *box = start;
    }
}

/* Numbers that no byte holds are refused as what they are, and not as what is left of them. */
static void wide_numbers(void) {
    static const size_t wide[] = {255, 256, 257, 512, 65536, 0x7fffffff, 0x80000000, 0xffffff00, 0x100000000, SIZE_MAX};
    open_sessions();
    after = *box;
    for (size_t k = 0; k < sizeof wide / sizeof *wide; k++) {
        by_call(gate_begin(box, wide[k], 0), 8, 0, "begin, a wide slot");
        by_call(gate_begin(box, 7, wide[k]), 11, 0, "begin, a wide role");
        by_call(gate_end(box, wide[k]), 8, 0, "end, a wide slot");
        by_call(gate_ask(box, wide[k], 1, GATE_READ), 8, 0, "ask, a wide slot");
        by_call(gate_ask(box, 0, wide[k], GATE_READ), 12, 0, "ask, a wide file");
        by_call(gate_ask(box, 0, 1, wide[k]), 13, 0, "ask, a wide mode");
        by_call(gate_change(box, wide[k], 1, 0, X(""), X("")), 8, 0, "change, a wide slot");
        by_call(gate_change(box, 0, wide[k], 0, X(""), X("")), 12, 0, "change, a wide file");
        by_call(gate_bypass(box, 0, 1, wide[k], X(""), X("")), 13, 0, "bypass, a wide mode");
    }
}

/* Expressions of any length over 48, of which the length alone decides; none, as a null pointer. */
static void long_expressions(void) {
    static const size_t lengths[] = {49, 50, 254, 255, 256, 257, 304, 512, 65536};
    static uint8_t bytes[65536];
    open_sessions();
    memcpy(bytes, X("\1\1"));
    after = *box;
    for (size_t k = 0; k < sizeof lengths / sizeof *lengths; k++) {
        const uint8_t *x = input_of(bytes, lengths[k]);
        by_call(gate_change(box, 0, 0, 0, x, lengths[k], X("\5")), 6, 48, "a long T1");
        by_call(gate_change(box, 0, 0, 0, X("\1\1"), x, lengths[k]), 6, 304, "a long T2");
        by_call(gate_change(box, 0, 0, 0, x, lengths[k], x, lengths[k]), 6, 48, "both");
        by_call(gate_change(box, 0, 0, 0, X("\5"), x, lengths[k]), 6, 0, "T1 goes first");
        by_call(gate_bypass(box, 0, 0, 0, x, lengths[k], NULL, 0), 6, 48, "a long E");
        by_call(gate_bypass(box, 0, 0, 0, NULL, 0, x, lengths[k]), 6, 304, "a long G");
        by_call(gate_change(box, 0, 3, 0, x, lengths[k], x, lengths[k]), 14, 0, "the row goes first");
    }
    by_call(gate_change(box, 0, 0, 0, NULL, 0, NULL, 0), 0, 0, "two null pointers");
    by_call(gate_bypass(box, 0, 2, 1, NULL, 0, NULL, 0), 0, 0, "two null pointers");
}

/* Nothing, as a null pointer, to the doors themselves; their names are macros, which take any argument a function does. */
static void null_pointers(void) {
    gate_answer (*door)(gate_box *, const uint8_t *, size_t) = gate_load;
    open_sessions();
    after = *box;
    by_call(gate_load(box, NULL, 0), 3, 0, "no image");
    by_call(gate_serve(box, NULL, 0, NULL, 0), 255, 0, "no record and no room");
    by_call(gate_serve(box, NULL, 0, room_of(9), 9), 255, 0, "no record");
    by_call(gate_serve(box, input_of("\2\20", 2), 2, NULL, 0), 8, 0, "no room");
    by_call(door(box, input_of("XYZ", 3), 3), 1, 0, "the library's own function");
#ifndef __cplusplus
    by_call(gate_load(box, (const uint8_t[]){'S', 'P', 'X'}, 3), 1, 2, "an array in the call");
#endif
}

/* A box that is copied goes on by itself, and no call on one is seen by another. */
static void side_by_side(void) {
    static gate_box other;
    open_sessions();
    other = *box;
    after = *box;
    expect(gate_end(&other, 0), 0, 0, "the copy");
    expect(gate_begin(&other, 0, 4), 0, 0, "the copy");
    expect(gate_ask(&other, 0, 1, GATE_READ), 14, 0, "the copy");
    by_call(gate_ask(box, 0, 1, GATE_READ), 0, 0, "the box");
    gate_fresh(&other);
    by_call(gate_begin(box, 0, 4), 10, 0, "the box");
}

/* ---- The header's words and numbers -------------------------------------------------------- */

static void words(void) {
    char version[32];
    for (uint32_t number = 0; number < 300; number++) {
        int named = number <= GATE_BUFFER_SHORT || number == GATE_NO_RECORD;
        check((strcmp(gate_words(number), "no number of the table") != 0) == named, "the words", "gate_words", number);
        for (uint32_t k = 0; named && k < number; k++)
            check(strcmp(gate_words(number), gate_words(k)) != 0, "the same words", "gate_words", number);
    }
    check(strcmp(gate_words(GATE_ROW_NOT_PASSED), "row not passed") == 0, "14", "gate_words", 14);
    check(strcmp(gate_words(255), "no record") == 0, "255", "gate_words", 255);
    check(gate_number(6 + 256 * 304) == 6 && gate_place(6 + 256 * 304) == 304, "6 at 304", "an answer", 6);
    check(gate_granted(256 * 8) && !gate_granted(17) && !gate_granted(6 + 256 * 48), "granted", "an answer", 0);
    sprintf(version, "%d.%d.%d", GATE_VERSION_MAJOR, GATE_VERSION_MINOR, GATE_VERSION_PATCH);
    check(strcmp(version, GATE_VERSION) == 0, "the version", GATE_VERSION, 0);
}

/* That a box was answered with every number that it can be, and with no other. */
static void all_reached(void) {
    for (uint32_t number = 0; number < 256; number++)
        check((reached[number] != 0) == (number <= 17 || number == 255), "is it reached?", "a number", number);
}

int main(void) {
    inputs = edge(65552);
    rooms = edge(256);
    place_box();
    make_image();
    words();
    fresh_requests();
    sessions();
    asks();
    changes();
    bypasses();
    expressions();
    loads();
    other_memory();
    damaged();
    no_records_anywhere();
    all_rooms();
    wide_numbers();
    long_expressions();
    null_pointers();
    side_by_side();
    all_reached();
    printf("box: %u checks passed\n", checks);
    return 0;
}
