/* A row of a policy as the office reads it on paper, its four parts as text: print_row IMAGE FILE MODE. */
#include "gate.h"
#include <stdio.h>
#include <stdlib.h>

static gate_box box;
static uint8_t image[GATE_LONGEST_IMAGE + 1]; /* a longer one is refused by its first byte too many */

/* The place after so many expressions of the image, each a length byte and its bytes. */
static size_t after(size_t at, size_t count) {
    while (count-- > 0) at += 1 + (size_t)image[at];
    return at;
}

/* Prints a part of a row, the expression at a place of the image: 1 if it was printed. */
static int print_part(const char *name, size_t at) {
    static uint8_t text[GATE_LONGEST_TEXT];
    gate_answer answer = gate_print(&box, image + at + 1, image[at], text, sizeof text);
    if (!gate_granted(answer)) return 0;
    printf("%s%s%.*s\n", name, gate_place(answer) ? " " : "", (int)gate_place(answer), (const char *)text);
    return 1;
}

int main(int argc, char **argv) {
    FILE *file = argc == 4 ? fopen(argv[1], "rb") : NULL;
    if (!file) return 1;
    size_t length = fread(image, 1, sizeof image, file);
    fclose(file);
    gate_fresh(&box);
    if (!gate_granted(gate_load(&box, image, length))) return 1;
    /* a granted load says that all is there: the tree, the roles of 13 expressions, the files of 20 */
    size_t roles = 5 + (size_t)image[5], files = after(roles + 1, 13 * (size_t)image[roles]);
    size_t number = strtoul(argv[2], NULL, 10), mode = strtoul(argv[3], NULL, 10);
    if (number >= image[files] || mode >= GATE_MODES) return 1;
    size_t row = after(files + 1, 20 * number + 4 * mode);
    int printed = print_part("T1", row) && print_part("E", after(row, 1));
    return printed && print_part("T2", after(row, 2)) && print_part("G", after(row, 3)) ? 0 : 1;
}
