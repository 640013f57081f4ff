/*
 * The gate, for C and C++. Link with libloafawning.a (`./archive`); x86-64.
 *
 * Every function of the library is proved to return, whatever bytes it is given, with the one
 * answer that the rules leave. Those that are written out here (`static inline`) build records for
 * it and take answers apart; they are tested, and not proved.
 *
 * What the caller owes: a pointer is not null, unless the length beside it is 0; it has as many
 * bytes as that length says; and nothing that is lent to be written, a box or an `out`, overlaps
 * anything else that is lent.
 *
 * Threads: the library has no variable of its own and takes no lock. A box is one thread's at a
 * time: whoever shares one locks it, for an ask as well. Calls on different boxes need no lock.
 */
#ifndef LOAFAWNING_GATE_H
#define LOAFAWNING_GATE_H

#include <stddef.h>
#include <stdint.h>

#ifdef __cplusplus
extern "C" {
#endif

/* The version of this header and of the library, as a text and as numbers. */
#define GATE_VERSION "0.1.0"
#define GATE_VERSION_MAJOR 0
#define GATE_VERSION_MINOR 1
#define GATE_VERSION_PATCH 0

/* ---- Answers ------------------------------------------------------------------------------- */

/*
 * An answer is a number and a place, packed as number + 256 * place. The place is 0 where the
 * table names none, and never over GATE_LONGEST_IMAGE.
 */
typedef uint64_t gate_answer;

enum gate_numbers {
    GATE_DONE = 0,             /* done or granted; of a text: the place is the count of bytes; of
                                  a print: the place is the length of the text                   */
    GATE_MARK_WRONG = 1,       /* mark wrong; the first wrong byte                               */
    GATE_VERSION_WRONG = 2,    /* version not 1; 3                                               */
    GATE_ENDS_EARLY = 3,       /* image ends early; its length                                   */
    GATE_COUNT_WRONG = 4,      /* count out of range; the count byte                             */
    GATE_PARENT_WRONG = 5,     /* parent not smaller; the parent byte                            */
    GATE_EXPRESSION_WRONG = 6, /* expression wrong; the first byte that can't stand, or the
                                  stated end; over 48 bytes: the length byte of an image, 48 of
                                  a request; a request's second expression: 256 more             */
    GATE_LEFT_OVER = 7,        /* bytes left over; the first of them                             */
    GATE_NO_SLOT = 8,          /* slot number over 15                                            */
    GATE_SLOT_FREE = 9,        /* slot free                                                      */
    GATE_SLOT_TAKEN = 10,      /* slot taken                                                     */
    GATE_NO_ROLE = 11,         /* no such role                                                   */
    GATE_NO_FILE = 12,         /* no such file                                                   */
    GATE_NO_MODE = 13,         /* no such mode                                                   */
    GATE_ROW_NOT_PASSED = 14,  /* row not passed                                                 */
    GATE_MEDIATING_UNFIT = 15, /* mediating sets don't fit                                       */
    GATE_BYPASS_LACKS = 16,    /* bypass set lacks a securon                                     */
    GATE_ILL_FORMED = 17,      /* state not well formed                                          */
    GATE_TEXT_WRONG = 18,      /* text wrong; the first byte that no legal text goes on with, or
                                  the text's length; 512 where the text is longer than that      */
    GATE_TEXT_LONG = 19,       /* text makes over 48 bytes                                       */
    GATE_BUFFER_SHORT = 20,    /* output buffer too short: under 48 bytes; of a print, under 512 */
    GATE_NO_RECORD = 255       /* no record: of gate_serve alone, and not of the rules' table    */
};

/* The number of an answer, one of enum gate_numbers. */
static inline uint32_t gate_number(gate_answer answer) { return (uint32_t)(answer % 256); }

/* The place of an answer. */
static inline uint32_t gate_place(gate_answer answer) { return (uint32_t)(answer / 256); }

/* Whether the call was done or granted: 1 or 0. Only number 0 says so. */
static inline int gate_granted(gate_answer answer) { return gate_number(answer) == GATE_DONE; }

/* The rules' words for a number. */
static inline const char *gate_words(uint32_t number) {
    switch (number) {
    case GATE_DONE: return "done or granted";
    case GATE_MARK_WRONG: return "mark wrong";
    case GATE_VERSION_WRONG: return "version not 1";
    case GATE_ENDS_EARLY: return "image ends early";
    case GATE_COUNT_WRONG: return "count out of range";
    case GATE_PARENT_WRONG: return "parent not smaller";
    case GATE_EXPRESSION_WRONG: return "expression wrong";
    case GATE_LEFT_OVER: return "bytes left over";
    case GATE_NO_SLOT: return "slot number over 15";
    case GATE_SLOT_FREE: return "slot free";
    case GATE_SLOT_TAKEN: return "slot taken";
    case GATE_NO_ROLE: return "no such role";
    case GATE_NO_FILE: return "no such file";
    case GATE_NO_MODE: return "no such mode";
    case GATE_ROW_NOT_PASSED: return "row not passed";
    case GATE_MEDIATING_UNFIT: return "mediating sets don't fit";
    case GATE_BYPASS_LACKS: return "bypass set lacks a securon";
    case GATE_ILL_FORMED: return "state not well formed";
    case GATE_TEXT_WRONG: return "text wrong";
    case GATE_TEXT_LONG: return "text makes over 48 bytes";
    case GATE_BUFFER_SHORT: return "output buffer too short";
    case GATE_NO_RECORD: return "no record";
    default: return "no number of the table";
    }
}

/* ---- Rooms and limits ---------------------------------------------------------------------- */

/* The modes, and how many there are. Read and Execute take content out: running is reading. */
#define GATE_READ 0
#define GATE_WRITE 1
#define GATE_EXECUTE 2
#define GATE_DETECT 3
#define GATE_CHANGE_PROTECTION 4
#define GATE_MODES 5

/* How much there can be of each. */
#define GATE_SLOTS 16              /* numbered from 0, as roles, files and securons are          */
#define GATE_MOST_ROLES 32         /* of a policy                                                */
#define GATE_MOST_FILES 32         /* of a policy                                                */
#define GATE_MOST_SECURONS 64      /* of a policy's tree                                         */
#define GATE_LONGEST_EXPRESSION 48 /* in bytes, as all that follow                               */
#define GATE_LONGEST_TEXT 512      /* the text of an expression; a longer one is refused. It is
                                      the least room for a print too                             */
#define GATE_LONGEST_IMAGE 51815   /* a longer one is refused                                    */
#define GATE_LONGEST_RECORD 65538  /* a load of 65,535 bytes; a longer one is no record          */

/* ---- The stack ----------------------------------------------------------------------------- */

/*
 * No call uses a heap. A thread whose stack has this many bytes has enough for the call: measured
 * on the worst inputs that were found (a text of 512 opening parentheses needs 799 KB; the longest
 * image and its requests 356 KB in a replay, 421 KB on a box), with a margin, and tested in such a
 * thread (tests/c/stack.c). That is not proved.
 */
#define GATE_TEXT_STACK 983040   /* gate_text                                                    */
#define GATE_REPLAY_STACK 425984 /* gate_replay                                                  */
#define GATE_BOX_STACK 507904    /* every call on a box                                          */

/* ---- The box ------------------------------------------------------------------------------- */

/*
 * A box holds the state: the tree, roles, files and slots. It lies where the caller puts it, and
 * each call alters it there; a refused call leaves all of it as it was. It holds numbers alone and
 * no pointer, so that it may be copied and moved as any struct. What is in it is for the calls
 * below, and may be laid out otherwise in another version.
 *
 * Any memory of this size is a state, and every call on it ends with a defined answer. On a state
 * that is not well formed no request is granted: zeroed memory, such as a static box at the start,
 * answers every request with 17 until gate_fresh or a granted load.
 */
#define GATE_BOX_SIZE 51864
#define GATE_BOX_ALIGN 8

typedef struct gate_box {
    uint64_t kept[GATE_BOX_SIZE / 8];
} gate_box;

/*
 * The size and the alignment that the library takes a box to have, and lengths of 64 bits, held to
 * here: an array of -1 elements is an error in every C and C++.
 */
struct gate_box_after_a_byte {
    char byte;
    gate_box box;
};
typedef char gate_box_has_its_size[sizeof(gate_box) == GATE_BOX_SIZE ? 1 : -1];
typedef char gate_box_has_its_align[offsetof(struct gate_box_after_a_byte, box) == GATE_BOX_ALIGN ? 1 : -1];
typedef char gate_lengths_have_64_bits[sizeof(size_t) == 8 ? 1 : -1];

/*
 * The refusals of each call, in the order in which they are judged; the first that applies is the
 * answer, and 0 if none does.
 *
 *   load     1 2 3 4 5 6 7, as they are met from the front of the image; the box is not examined
 *   begin    17 8 10 11
 *   end      17 8 9
 *   ask      17 8 9 12 13 14 15
 *   change   17 8 9 12 13 14 6
 *   bypass   17 8 9 12 13 14 6 16
 *   print    17 6 20
 */

/*
 * The library's own functions ask for pointers that are not null, also where the length is 0. So
 * each that takes a length is called by a function here that lends a byte in place of nothing, and
 * its name is a macro for that. Its address, and its name in parentheses, are the library's.
 */
static inline const uint8_t *gate_lent(const uint8_t *bytes, size_t length) {
    static const uint8_t none = 0;
    return length ? bytes : &none;
}

/* Makes a box fresh, whatever it held: the root alone, no role, no file, all slots free. */
void gate_fresh(gate_box *box);

/* Loads a policy image, whatever the box held: replaces all of it, and frees every slot. */
gate_answer gate_load(gate_box *box, const uint8_t *image, size_t image_len);

static inline gate_answer gate_load_lent(gate_box *box, const uint8_t *image, size_t image_len) {
    return (gate_load)(box, gate_lent(image, image_len), image_len);
}
#define gate_load(...) gate_load_lent(__VA_ARGS__)

/*
 * Makes the call of one record, which is there whole and with nothing after it:
 *
 *   begin    01 slot role
 *   end      02 slot
 *   ask      03 slot file mode
 *   change   04 slot file mode, a length byte and T1, a length byte and T2
 *   bypass   05 slot file mode, a length byte and E, a length byte and G
 *   load     06, a length of 16 bits with its low byte first, an image
 *   print    10, a length byte and an expression; gives its text out
 *
 * Any other bytes are no record: 255 at place 0, and nothing is altered. What a call gives out goes
 * to the front of `out`, and the place is how many bytes that is; the rest of `out` is left as it
 * was. Only a print gives bytes out, and only it looks at how long `out` is. A refused call gives
 * out nothing.
 */
gate_answer gate_serve(gate_box *box, const uint8_t *record, size_t record_len, uint8_t *out, size_t out_len);

static inline gate_answer gate_serve_lent(gate_box *box, const uint8_t *record, size_t record_len, uint8_t *out,
                                          size_t out_len) {
    uint8_t none = 0;
    return (gate_serve)(box, gate_lent(record, record_len), record_len, out_len ? out : &none, out_len);
}
#define gate_serve(...) gate_serve_lent(__VA_ARGS__)

/* The codes of the records. */
#define GATE_BEGIN 1
#define GATE_END 2
#define GATE_ASK 3
#define GATE_CHANGE 4
#define GATE_BYPASS 5
#define GATE_LOAD 6
#define GATE_PRINT 16

/* ---- Requests as calls --------------------------------------------------------------------- */

/* The parts that the calls below are made of. */

/*
 * The number of a slot, role, file or mode as a byte of a record. There is none with the number
 * 255, so that 255 stands for every number over it, and is refused as that one is to be.
 */
static inline uint8_t gate_byte(size_t number) { return (uint8_t)(number < 255 ? number : 255); }

/* Makes the call of a record that gives nothing out. */
static inline gate_answer gate_call(gate_box *box, const uint8_t *record, size_t record_len) {
    return gate_serve(box, record, record_len, NULL, 0);
}

/*
 * Puts an expression after the first `used` bytes of a record, and returns how many it has then.
 * One of over 48 bytes is refused by its length alone, before any byte of it is looked at, and with
 * the same place whatever the length is. So its first 49 bytes stand for all of it, also where a
 * length byte could not say how many there are.
 */
static inline size_t gate_put(uint8_t *record, size_t used, const uint8_t *bytes, size_t length) {
    size_t count = length <= GATE_LONGEST_EXPRESSION ? length : GATE_LONGEST_EXPRESSION + 1;
    record[used] = (uint8_t)count;
    for (size_t k = 0; k < count; k++) record[used + 1 + k] = bytes[k];
    return used + 1 + count;
}

/* A change or a bypass, by its code. */
static inline gate_answer gate_store(gate_box *box, uint8_t code, size_t slot, size_t file, size_t mode,
                                     const uint8_t *first, size_t first_length, const uint8_t *second,
                                     size_t second_length) {
    uint8_t record[4 + 2 * (GATE_LONGEST_EXPRESSION + 2)] = {code, gate_byte(slot), gate_byte(file), gate_byte(mode)};
    size_t used = gate_put(record, 4, first, first_length);
    return gate_call(box, record, gate_put(record, used, second, second_length));
}

/* The calls. A number that is too large is refused as what it is, also where no byte holds it. */

/* Begins a session of a role on a free slot. */
static inline gate_answer gate_begin(gate_box *box, size_t slot, size_t role) {
    const uint8_t record[3] = {GATE_BEGIN, gate_byte(slot), gate_byte(role)};
    return gate_call(box, record, sizeof record);
}

/* Ends the session on a slot. */
static inline gate_answer gate_end(gate_box *box, size_t slot) {
    const uint8_t record[2] = {GATE_END, gate_byte(slot)};
    return gate_call(box, record, sizeof record);
}

/*
 * Whether the session on a slot may act so on a file: granted, or why not. Alters nothing. The role
 * has to pass the file's row of that mode (14). What takes content out, Read and Execute, needs E of
 * the file's Read row within its M1 and G within its M2; Write needs M1 within that E and M2 within
 * that G (15).
 */
static inline gate_answer gate_ask(gate_box *box, size_t slot, size_t file, size_t mode) {
    const uint8_t record[4] = {GATE_ASK, gate_byte(slot), gate_byte(file), gate_byte(mode)};
    return gate_call(box, record, sizeof record);
}

/*
 * Stores T1 and T2 in a file's row of that mode: the bytes of two expressions, such as gate_text
 * makes. Here and in gate_bypass an expression of any length over 48 is wrong at place 48, or at 304
 * if it is the second.
 */
static inline gate_answer gate_change(gate_box *box, size_t slot, size_t file, size_t mode, const uint8_t *t1,
                                      size_t t1_length, const uint8_t *t2, size_t t2_length) {
    return gate_store(box, GATE_CHANGE, slot, file, mode, t1, t1_length, t2, t2_length);
}

/* Stores E and G in a file's row of that mode. */
static inline gate_answer gate_bypass(gate_box *box, size_t slot, size_t file, size_t mode, const uint8_t *e,
                                      size_t e_length, const uint8_t *g, size_t g_length) {
    return gate_store(box, GATE_BYPASS, slot, file, mode, e, e_length, g, g_length);
}

/*
 * Prints an expression as text to the front of `out`, such as 4&10|7 of the bytes that gate_text
 * makes of it: no spaces, and parentheses only where the grouping needs them. The text is not ended
 * by a zero byte; the place is its length, which is 0 for an expression of length 0. Reading the
 * text by gate_text gives the same bytes again.
 *
 * The expression has to be in order for the box's tree; OR may stand in it. `out` has to have room
 * for 512 bytes (GATE_LONGEST_TEXT), however short the text is. Alters nothing of the box, and
 * nothing of `out` past the text. An expression of any length over 48 is wrong at place 48.
 */
static inline gate_answer gate_print(gate_box *box, const uint8_t *expression, size_t length, uint8_t *out,
                                     size_t room) {
    uint8_t record[1 + (GATE_LONGEST_EXPRESSION + 2)] = {GATE_PRINT};
    return gate_serve(box, record, gate_put(record, 1, expression, length), out, room);
}

/* ---- Whole inputs and texts ---------------------------------------------------------------- */

/*
 * Replays a whole input, a policy image and records of requests, from the fresh state: writes what
 * the program `replay` prints to the front of `out`, as far as it fits, and leaves the rest of
 * `out` as it was. Returns the length of the whole output, or `out_len` + 1 where the output does
 * not fit; then `out` has its first `out_len` bytes. An output never has more than
 * 4 + 3 * input_len bytes, which is proved too.
 *
 * A line of the output is a number, a space and a place, or `cut`. 17 is never printed: every state
 * of a replay is well formed.
 */
size_t gate_replay(const uint8_t *input, size_t input_len, uint8_t *out, size_t out_len);

static inline size_t gate_replay_lent(const uint8_t *input, size_t input_len, uint8_t *out, size_t out_len) {
    uint8_t none = 0;
    return (gate_replay)(gate_lent(input, input_len), input_len, out_len ? out : &none, out_len);
}
#define gate_replay(...) gate_replay_lent(__VA_ARGS__)

/*
 * Turns the text of an expression, such as "1|3&5", to the bytes that images and requests carry,
 * at the front of `out`, which must have room for 48. Returns a packed answer: 0 with the count of
 * bytes made as its place, 18, 19 or 20. On a refusal `out` is unaltered; on a grant the bytes
 * past those made are unaltered too.
 */
uint32_t gate_text(const uint8_t *text, size_t text_len, uint8_t *out, size_t out_len);

static inline uint32_t gate_text_lent(const uint8_t *text, size_t text_len, uint8_t *out, size_t out_len) {
    uint8_t none = 0;
    return (gate_text)(gate_lent(text, text_len), text_len, out_len ? out : &none, out_len);
}
#define gate_text(...) gate_text_lent(__VA_ARGS__)

#ifdef __cplusplus
}
#endif

#endif
