/* The calls on one build. Linked with its archive alone, after which only `side` is seen outside. */
#include "side.h"

static int begun(gate_box *box, const uint8_t *image, size_t image_len, size_t last) {
    gate_fresh(box);
    return gate_granted(gate_load(box, image, image_len)) && gate_granted(gate_begin(box, 0, 0)) &&
           gate_granted(gate_begin(box, 1, last));
}

static gate_answer ask(gate_box *box, size_t slot, size_t file, size_t mode) { return gate_ask(box, slot, file, mode); }

const struct side side = {begun, ask};
