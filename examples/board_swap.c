/* A board is swapped on a slot of a box: the new one is refused what the old one was granted. */
#include "gate.h"
#include <stdio.h>

/* Of the park in samples/park.txt. */
enum { BOARD_11 = 1, BOARD_12 = 2, HISTORY_11 = 0, HISTORY_12 = 1, SLOT = 3 };

static gate_box box;

/* Prints a call and what it came to. */
static void tell(const char *call, gate_answer answer) {
    printf("%-24s %2u %u  %s\n", call, gate_number(answer), gate_place(answer), gate_words(gate_number(answer)));
}

int main(int argc, char **argv) {
    static uint8_t image[GATE_LONGEST_IMAGE + 1]; /* a longer one is refused by its first byte too many */
    FILE *file = argc > 1 ? fopen(argv[1], "rb") : NULL;
    if (!file) return 1;
    size_t length = fread(image, 1, sizeof image, file);
    fclose(file);
    gate_fresh(&box);
    tell("load the park", gate_load(&box, image, length));
    tell("begin as board 11", gate_begin(&box, SLOT, BOARD_11));
    tell("ask to write history 11", gate_ask(&box, SLOT, HISTORY_11, GATE_WRITE));
    tell("begin as board 12", gate_begin(&box, SLOT, BOARD_12));
    tell("end", gate_end(&box, SLOT));
    tell("begin as board 12", gate_begin(&box, SLOT, BOARD_12));
    tell("ask to write history 12", gate_ask(&box, SLOT, HISTORY_12, GATE_WRITE));
    tell("ask to write history 11", gate_ask(&box, SLOT, HISTORY_11, GATE_WRITE));
    return 0;
}
