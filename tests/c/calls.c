/*
 * Both calls on whole inputs and texts from C and from C++, on answers by hand from the scope
 * paper: refusals that alter nothing, cut records, and rooms of every length.
 */
#include "gate.h"

#include "edge.h"

/* ---- Texts --------------------------------------------------------------------------------- */

/* Turns a text with so much room: the answer, its bytes, and nothing else altered. */
static void turn(const char *text, size_t length, size_t room, uint32_t number, uint32_t place, const char *made) {
    uint32_t answer = gate_text(input_of(text, length), length, room_of(room), room);
    check(gate_number(answer) == number, "the number", text, gate_number(answer));
    check(gate_place(answer) == place, "the place", text, gate_place(answer));
    check_room(room, made, number == GATE_DONE ? place : 0, text);
}

/* The same of a text without a zero byte, with just enough room. */
static void turned(const char *text, uint32_t number, uint32_t place, const char *made) {
    turn(text, strlen(text), 48, number, place, made);
}

/* `part` so many times, and `last`. */
static const char *repeated(const char *part, size_t times, const char *last) {
    static char text[1024];
    text[0] = 0;
    for (size_t k = 0; k < times; k++) strcat(text, part);
    return strcat(text, last);
}

static void granted_texts(void) {
    turned("1|3&5", GATE_DONE, 8, "\4\1\1\3\1\3\1\5");
    turned("(1|3)&5", GATE_DONE, 8, "\3\4\1\1\1\3\1\5");
    turned(" 1 [ 0 .. 2 ] ", GATE_DONE, 4, "\2\1\0\2");
    turned("99[2..1]", GATE_DONE, 4, "\2\143\2\1");
    turned("", GATE_DONE, 0, "");
    turned("   ", GATE_DONE, 0, "");
    turned(repeated(" ", 512, ""), GATE_DONE, 0, "");
    turned(repeated("(", 255, "7"), GATE_TEXT_WRONG, 256, "");
    turn("7", 1, 60, GATE_DONE, 2, "\1\7");
    /* sixteen items make 2 * 16 bytes and 15 for the operators; a range in place of a securon, 2 more */
    turned(repeated("1&", 15, "1"), GATE_DONE, 47,
           "\3\3\3\3\3\3\3\3\3\3\3\3\3\3\3\1\1\1\1\1\1\1\1\1\1\1\1\1\1\1\1\1\1\1\1\1\1\1\1\1\1\1\1\1\1\1\1");
    turned(repeated("1&", 12, "1&2[0..3]&4[5..6]"), GATE_DONE, 48,
           "\3\3\3\3\3\3\3\3\3\3\3\3\3\3\1\1\1\1\1\1\1\1\1\1\1\1\1\1\1\1\1\1\1\1\1\1\1\1\1\1\2\2\0\3\2\4\5\6");
}

static void refused_texts(void) {
    turned("1&", GATE_TEXT_WRONG, 2, "");
    turned("012", GATE_TEXT_WRONG, 1, "");
    turned("123", GATE_TEXT_WRONG, 2, "");
    turned("&", GATE_TEXT_WRONG, 0, "");
    turned("1&&2", GATE_TEXT_WRONG, 2, "");
    turned("()", GATE_TEXT_WRONG, 1, "");
    turned("1)", GATE_TEXT_WRONG, 1, "");
    turned("1[0. .2]", GATE_TEXT_WRONG, 4, "");
    turned("(1)[", GATE_TEXT_WRONG, 3, "");
    turned("\377", GATE_TEXT_WRONG, 0, "");
    turn("1\0", 2, 48, GATE_TEXT_WRONG, 1, "");
    turned(repeated("(", 512, ""), GATE_TEXT_WRONG, 512, "");
    turned(repeated(" ", 513, ""), GATE_TEXT_WRONG, 512, "");
    turned(repeated("&", 600, ""), GATE_TEXT_WRONG, 512, "");
    turned(repeated("1&", 16, "1"), GATE_TEXT_LONG, 0, "");
    turned(repeated("1&", 13, "2[0..3]&4[5..6]&1"), GATE_TEXT_LONG, 0, "");
    turned(repeated("1&", 40, ""), GATE_TEXT_WRONG, 80, "");
    for (size_t room = 0; room < 48; room++) {
        turn("1", 1, room, GATE_BUFFER_SHORT, 0, "");
        turn("", 0, room, GATE_BUFFER_SHORT, 0, "");
        turn("&", 1, room, GATE_BUFFER_SHORT, 0, "");
    }
}

/* ---- Replays ------------------------------------------------------------------------------- */

/* Replays an input with every room from none to some more than is printed. */
static void replay(const char *bytes, size_t length, const char *printed) {
    size_t whole = strlen(printed);
    check(whole <= 4 + 3 * length, "the bound", printed, length);
    for (size_t room = 0; room <= whole + 5; room++) {
        size_t given = gate_replay(input_of(bytes, length), length, room_of(room), room);
        check(given == (room < whole ? room + 1 : whole), "the length", printed, given);
        check_room(room, printed, room < whole ? room : whole, printed);
        check(memcmp(last_of(inputs, length), bytes, length) == 0, "the input", printed, room);
    }
}

#define REPLAY(bytes, printed) replay(bytes, sizeof(bytes) - 1, printed)

/* The smallest image with its length, and one with a role. */
#define SMALLEST "\10\0SPT\1\0\1\0\0"
#define A_ROLE "\25\0SPT\1\0\1\1\0\0\0\0\0\0\0\0\0\0\0\0\0\0"

static void loads(void) {
    REPLAY("", "cut\n");
    REPLAY("\10", "cut\n");
    REPLAY("\0\0", "3 0\n");
    REPLAY("\1\0X", "1 0\n");
    REPLAY("\10\0SPT", "3 3\n");
    REPLAY("\10\0SPT\2\0\1\0\0", "2 3\n");
    REPLAY("\10\0SPT\1\0\0\0\0", "4 5\n");
    REPLAY("\11\0SPT\1\0\2\1\0\0", "5 6\n");
    REPLAY("\12\0SPT\1\0\1\1\2\1\1", "6 9\n");
    REPLAY("\7\0SPT\1\0\1\0", "3 7\n");
    REPLAY("\11\0SPT\1\0\1\0\0\0", "7 8\n");
    REPLAY(SMALLEST, "0 0\n");
    /* a refused load leaves the fresh state: no role, no session */
    REPLAY("\7\0SPT\1\0\1\0\1\0\0\2\0", "3 7\n11 0\n9 0\n");
}

static void records(void) {
    REPLAY(SMALLEST "\1\0\0\3\20\0\0\11", "0 0\n11 0\n8 0\ncut\n");
    REPLAY(SMALLEST "\2\0", "0 0\n9 0\n");
    REPLAY(A_ROLE "\1\17\0\1\17\0\3\17\0\0\2\17\2\17\1\20\0\1\0\1", "0 0\n0 0\n10 0\n12 0\n0 0\n9 0\n8 0\n11 0\n");
    REPLAY(SMALLEST "\4\0\0\0\0\0\5\0\0\0\1\1\2\1\1", "0 0\n9 0\n9 0\n");
}

static void cut_records(void) {
    REPLAY(SMALLEST "\1", "0 0\ncut\n");
    REPLAY(SMALLEST "\1\0", "0 0\ncut\n");
    REPLAY(SMALLEST "\2", "0 0\ncut\n");
    REPLAY(SMALLEST "\3\0\0", "0 0\ncut\n");
    REPLAY(SMALLEST "\4\0\0\0", "0 0\ncut\n");
    REPLAY(SMALLEST "\4\0\0\0\0", "0 0\ncut\n");
    REPLAY(SMALLEST "\4\0\0\0\1", "0 0\ncut\n");
    REPLAY(SMALLEST "\5\0\0\0\0\2\1", "0 0\ncut\n");
    REPLAY(SMALLEST "\5\20\0\0\377\0", "0 0\ncut\n");
    REPLAY(SMALLEST "\2\0\0", "0 0\n9 0\ncut\n");
    REPLAY(SMALLEST "\6\2\0", "0 0\ncut\n");
    REPLAY(SMALLEST "\377\2\0", "0 0\ncut\n");
}

/* Nothing, as a null pointer. */
static void null_pointers(void) {
    check(gate_text(NULL, 0, room_of(48), 48) == GATE_DONE, "the answer", "no text", 48);
    check_room(48, "", 0, "no text");
    check(gate_text(NULL, 0, NULL, 0) == GATE_BUFFER_SHORT, "the answer", "no text and no room", 0);
    check(gate_text(input_of("7", 1), 1, NULL, 0) == GATE_BUFFER_SHORT, "the answer", "no room", 0);
    check(gate_replay(NULL, 0, room_of(4), 4) == 4, "the length", "no input", 4);
    check_room(4, "cut\n", 4, "no input");
    check(gate_replay(NULL, 0, NULL, 0) == 1, "the length", "no input and no room", 0);
}

int main(void) {
    inputs = edge(4096);
    rooms = edge(4096);
    /* twice, as nothing is kept between calls */
    for (int round = 0; round < 2; round++) {
        granted_texts();
        refused_texts();
        loads();
        records();
        cut_records();
        null_pointers();
    }
    printf("calls: %u checks passed\n", checks);
    return 0;
}
