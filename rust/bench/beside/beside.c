/*
 * Two builds of the library in one program, timed in turn: asks on a box that is kept, of each image
 * named. Prints a table in Markdown; fails if an answer differs.
 *
 *     beside SAMPLES NAME IMAGE LAST-ROLE ..
 */
#include "side.h"
#include <stdio.h>
#include <stdlib.h>
#include <time.h>

extern const struct side before, after;

/* What is timed: the slot and the mode of an ask for file 0. */
static const struct {
    size_t slot, mode;
    const char *name;
} ASKS[] = {
    {0, 0, "ask to read"},   {0, 1, "ask to write"},      {0, 2, "ask to run"},
    {0, 3, "ask to detect"}, {0, 4, "ask to re-protect"}, {1, 0, "ask to read, last role"},
};
enum { MOST_ASKS = sizeof ASKS / sizeof *ASKS, MOST_SAMPLES = 10000, SAMPLE_NS = 300000 };

static double now(void) {
    struct timespec t;
    clock_gettime(CLOCK_MONOTONIC, &t);
    return (double)t.tv_sec * 1e9 + (double)t.tv_nsec;
}

/* The time of one ask, of so many in a row. */
static double sample(const struct side *side, gate_box *box, size_t which, int repeats) {
    double start = now();
    for (int k = 0; k < repeats; k++) {
        volatile gate_answer answer = side->ask(box, ASKS[which].slot, 0, ASKS[which].mode);
        (void)answer;
    }
    return (now() - start) / repeats;
}

static int smaller(const void *a, const void *b) {
    double x = *(const double *)a, y = *(const double *)b;
    return (x > y) - (x < y);
}

/* Times every ask on one policy by both builds in turn, and prints a line for each. */
static int policy(int samples, const char *name, const uint8_t *image, size_t length, size_t last) {
    static gate_box boxes[2];
    static double taken[MOST_ASKS][2][MOST_SAMPLES];
    const struct side *sides[2] = {&before, &after};
    for (int s = 0; s < 2; s++)
        if (!sides[s]->begun(&boxes[s], image, length, last)) return 0;
    for (int k = 0; k < samples; k++)
        for (size_t a = 0; a < MOST_ASKS; a++) {
            int repeats = 1 + (int)(SAMPLE_NS / (k ? taken[a][0][0] : SAMPLE_NS));
            for (int s = 0; s < 2; s++) taken[a][s][k] = sample(sides[s], &boxes[s], a, repeats);
        }
    for (size_t a = 0; a < MOST_ASKS; a++) {
        gate_answer answers[2];
        for (int s = 0; s < 2; s++) {
            answers[s] = sides[s]->ask(&boxes[s], ASKS[a].slot, 0, ASKS[a].mode);
            qsort(taken[a][s], (size_t)samples, sizeof(double), smaller);
        }
        if (answers[0] != answers[1]) return 0;
        double *b = taken[a][0], *f = taken[a][1];
        int half = samples / 2;
        printf("| %s | %s (%u) | %.0f (%.0f) | %.0f (%.0f) | %.2f (%.2f) |\n", name, ASKS[a].name,
               gate_number(answers[0]), b[0], b[half], f[0], f[half], f[0] / b[0], f[half] / b[half]);
    }
    return 1;
}

int main(int count, char **words) {
    int samples = count > 1 ? atoi(words[1]) : 0;
    if (samples < 1 || samples > MOST_SAMPLES) {
        fprintf(stderr, "samples: 1 to %d\n", MOST_SAMPLES);
        return 2;
    }
    puts("| policy | call on a box that is kept (its number) | before, ns | after, ns | ratio |\n|---|---|---|---|---|");
    for (int w = 2; w + 2 < count; w += 3) {
        static uint8_t image[GATE_LONGEST_IMAGE];
        FILE *file = fopen(words[w + 1], "rb");
        size_t length = file ? fread(image, 1, sizeof image, file) : 0;
        if (file) fclose(file);
        if (!policy(samples, words[w], image, length, (size_t)atoi(words[w + 2]))) {
            printf("%s: not loaded, or an answer differs\n", words[w]);
            return 1;
        }
    }
    return 0;
}
