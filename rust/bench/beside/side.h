/* One build of the library, as the program that times two of them calls it. */
#include "gate.h"

struct side {
    /* A box with this policy; slot 0 is begun for role 0, slot 1 for the last role. 1 if it is. */
    int (*begun)(gate_box *box, const uint8_t *image, size_t image_len, size_t last);
    gate_answer (*ask)(gate_box *box, size_t slot, size_t file, size_t mode);
};
