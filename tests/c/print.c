/*
 * An expression printed back as text on a box, from C and from C++, on answers by hand from the
 * papers: by a record's bytes and by gate_print, read back by gate_text; every refusal and their
 * order; rooms of every length; null pointers. The box, the inputs and the rooms end where no byte
 * may be touched.
 */
#include "gate.h"

#include "edge.h"

/* The bytes of an expression or an image, and how many. */
#define X(bytes) (const uint8_t *)(bytes), sizeof(bytes) - 1

static gate_box *box;
static unsigned reached[256];

/* ---- Every print --------------------------------------------------------------------------- */

/* An answer, and what is in the room after it: the text that is expected, and nothing else. */
static void expect(gate_answer answer, size_t room, uint32_t number, uint32_t place, const char *text, const char *of) {
    check(gate_number(answer) == number, "the number", of, gate_number(answer));
    check(gate_place(answer) == place, "the place", of, gate_place(answer));
    check_room(room, text, strlen(text), of);
    reached[number]++;
}

/* Prints by the typed call, and by a record where one can say so much; the box stays as it is. */
static void print(const uint8_t *bytes, size_t length, size_t room, uint32_t number, uint32_t place, const char *text,
                  const char *of) {
    static gate_box old;
    uint8_t record[2 + 255] = {GATE_PRINT, (uint8_t)length};
    uint8_t *out = room_of(room);
    old = *box;
    expect(gate_print(box, input_of(bytes, length), length, out, room), room, number, place, text, of);
    if (length < 256) {
        memcpy(record + 2, bytes, length);
        const uint8_t *input = input_of(record, 2 + length);
        expect(gate_serve(box, input, 2 + length, room_of(room), room), room, number, place, text, of);
        check(memcmp(input, record, 2 + length) == 0, "the record", of, length);
    }
    check(memcmp(box, &old, sizeof old) == 0, "a print that alters the box", of, number);
}

/* A text that is printed of these bytes, and that they are read from. */
static void prints(const uint8_t *bytes, size_t length, const char *text) {
    uint8_t made[48];
    size_t count = strlen(text);
    print(bytes, length, 512, GATE_DONE, (uint32_t)count, text, text);
    uint32_t answer = gate_text((const uint8_t *)text, count, made, sizeof made);
    check(gate_granted(answer) && gate_place(answer) == length, "read back", text, answer);
    check(memcmp(made, bytes, length) == 0, "the bytes read back", text, length);
}

#define PRINTS(bytes, text) prints(X(bytes), text)
#define WRONG(bytes, place, of) print(X(bytes), 512, GATE_EXPRESSION_WRONG, place, "", of)

/* ---- Texts --------------------------------------------------------------------------------- */

/* The paper's tree: securons 0 to 7, levels 0 to 2. */
static void load_paper(void) {
    static const char image[] = "SPT\1\0\10\0\0\1\1\2\2\0\0\0";
    check(gate_granted(gate_load(box, X(image))), "a load", "the paper's tree", 0);
}

/* 64 securons in one line, so that levels go to 63. */
static void load_line(void) {
    uint8_t image[71] = {'S', 'P', 'T', 1, 0, 64};
    for (uint8_t parent = 0; parent < 63; parent++) image[6 + parent] = parent;
    check(gate_granted(gate_load(box, image, sizeof image)), "a load", "a line", 0);
}

static void texts(void) {
    load_paper();
    PRINTS("", "");
    PRINTS("\1\0", "0");
    PRINTS("\1\7", "7");
    PRINTS("\2\1\1\2", "1[1..2]");
    PRINTS("\2\7\0\0", "7[0..0]");
    PRINTS("\3\1\1\1\3", "1&3");
    PRINTS("\4\1\1\1\3", "1|3");
    PRINTS("\3\3\1\1\1\3\1\5", "1&3&5");
    PRINTS("\3\1\1\3\1\3\1\5", "1&(3&5)");
    PRINTS("\4\4\1\1\1\3\1\5", "1|3|5");
    PRINTS("\4\1\1\4\1\3\1\5", "1|(3|5)");
    PRINTS("\3\4\1\1\1\3\1\5", "(1|3)&5");
    PRINTS("\3\1\1\4\1\3\1\5", "1&(3|5)");
    PRINTS("\4\3\1\1\1\3\1\5", "1&3|5");
    PRINTS("\4\1\1\3\1\3\1\5", "1|3&5");
    PRINTS("\3\4\1\1\1\2\4\1\3\1\4", "(1|2)&(3|4)");
    PRINTS("\3\3\1\1\1\2\3\1\3\1\4", "1&2&(3&4)");
    PRINTS("\4\3\1\1\1\2\3\1\3\1\4", "1&2|3&4");
    PRINTS("\3\1\1\3\1\2\3\1\3\1\4", "1&(2&(3&4))");
    PRINTS("\3\1\1\3\3\1\2\1\3\1\4", "1&(2&3&4)");
    PRINTS("\3\1\1\4\3\1\2\1\3\1\4", "1&(2&3|4)");
    PRINTS("\4\1\1\3\4\1\2\1\3\1\4", "1|(2|3)&4");
    PRINTS("\4\3\4\1\1\1\2\1\3\1\4", "(1|2)&3|4");
    PRINTS("\4\1\5\4\2\1\1\2\2\7\0\0", "5|(1[1..2]|7[0..0])");
    load_line();
    PRINTS("\1\11", "9");
    PRINTS("\1\12", "10");
    PRINTS("\2\77\11\77", "63[9..63]");
}

/* Nine ranges and a securon, 47 bytes and each on the right of the one before: 117 bytes of text, the most. */
static void longest_text(void) {
    uint8_t bytes[47];
    char text[128] = "";
    load_line();
    for (size_t k = 0; k < 9; k++) memcpy(bytes + 5 * k, "\3\2\77\12\77", 5);
    memcpy(bytes + 45, "\1\77", 2);
    for (size_t k = 0; k < 8; k++) strcat(text, "63[10..63]&(");
    strcat(text, "63[10..63]&63))))))))");
    check(strlen(text) == 117, "the longest text", text, strlen(text));
    prints(bytes, sizeof bytes, text);
}

/* ---- Refusals ------------------------------------------------------------------------------ */

static void wrong_expressions(void) {
    static const size_t lengths[] = {48, 49, 50, 255, 256, 257, 512, 65536};
    static uint8_t bytes[65536];
    load_paper();
    WRONG("\3\1\1", 3, "an operand is missing");
    WRONG("\1\1\1", 2, "a byte after the whole");
    WRONG("\2\1\2\1", 3, "j under i");
    WRONG("\2\1\0\3", 3, "j over depth");
    WRONG("\2\1\3\3", 2, "i over depth");
    WRONG("\1\10", 1, "no securon 8");
    WRONG("\5", 0, "no such code");
    WRONG("\4\1\1\0\1\3", 3, "no such code");
    WRONG("\1", 1, "not whole");
    memset(bytes, 3, sizeof bytes);
    for (size_t k = 0; k < sizeof lengths / sizeof *lengths; k++)
        print(bytes, lengths[k], 512, GATE_EXPRESSION_WRONG, 48, "", "nothing but AND");
    gate_fresh(box);
    WRONG("\1\1", 1, "the fresh box has the root alone");
    PRINTS("\2\0\0\0", "0[0..0]");
}

/* Every room: under 512 it is too short, also for nothing at all; a wrong expression goes before, a state before that. */
static void rooms_and_order(void) {
    load_paper();
    for (size_t room = 0; room < 600; room++) {
        uint32_t number = room < 512 ? GATE_BUFFER_SHORT : GATE_DONE;
        print(X("\1\7"), room, number, number ? 0 : 1, number ? "" : "7", "a room");
        print(X(""), room, number, 0, "", "a room, for nothing");
        print(X("\1\10"), room, GATE_EXPRESSION_WRONG, 1, "", "6 goes before 20");
    }
    for (int fill = 0; fill < 256; fill += 255) {
        memset(box, fill, sizeof *box);
        for (size_t room = 0; room < 600; room += 73) {
            print(X("\1\7"), room, GATE_ILL_FORMED, 0, "", "17 goes first");
            print(X("\1\377"), room, GATE_ILL_FORMED, 0, "", "17 goes before 6");
            print(X(""), room, GATE_ILL_FORMED, 0, "", "17, for nothing");
        }
    }
}

/* Null pointers where there is nothing: no expression, no room. */
static void null_pointers(void) {
    load_paper();
    expect(gate_print(box, NULL, 0, room_of(512), 512), 512, GATE_DONE, 0, "", "no expression");
    expect(gate_print(box, NULL, 0, NULL, 0), 0, GATE_BUFFER_SHORT, 0, "", "no expression and no room");
    expect(gate_print(box, X("\1\7"), NULL, 0), 0, GATE_BUFFER_SHORT, 0, "", "no room");
    expect(gate_print(box, X("\1\10"), NULL, 0), 0, GATE_EXPRESSION_WRONG, 1, "", "no room");
}

/* A print's record that is cut, or has a byte more. */
static void no_records(void) {
    static const uint8_t record[] = {GATE_PRINT, 8, 3, 1, 1, 3, 1, 3, 1, 5, 0};
    load_paper();
    for (size_t length = 0; length <= sizeof record; length++) {
        if (length == sizeof record - 1) continue;
        gate_answer answer = gate_serve(box, input_of(record, length), length, room_of(512), 512);
        expect(answer, 512, GATE_NO_RECORD, 0, "", "no record");
    }
}

int main(void) {
    inputs = edge(65552);
    rooms = edge(640);
    box = (gate_box *)(void *)last_of(edge(sizeof *box), sizeof *box);
    texts();
    longest_text();
    wrong_expressions();
    rooms_and_order();
    null_pointers();
    no_records();
    for (uint32_t number = 0; number < 256; number++) {
        int can = number == 0 || number == 6 || number == 17 || number == 20 || number == 255;
        check((reached[number] != 0) == can, "is it reached?", "a number", number);
    }
    printf("print: %u checks passed\n", checks);
    return 0;
}
