/*
 * Document 01's example, cm0*cm1 + const0', through the exported functions: the fused first list and the temporary counter as the program
 * `steps` prints them, its value modulo 97, and the refusal of a primed request.
 *
 *   cc -Iinclude include/example.c target/staticlib/libhost.a -o example
 */
#include <stdio.h>

#include "enonkasse.h"

/* Room for the steps of this example. */
#define STEPS 4

static const uint8_t pool[] = {
    0, 6,  0x01, ENONKASSE_KIND_CM,    0, 0, 0, 0,
    0, 6,  0x01, ENONKASSE_KIND_CM,    0, 0, 1, 0,
    0, 10, 0x01, ENONKASSE_KIND_MUL,   0, 0, 0, 2, 0, 0, 0, 1,
    0, 6,  0x01, ENONKASSE_KIND_CONST, 1, 0, 0, 0,
    0, 10, 0x01, ENONKASSE_KIND_ADD,   0, 0, 0, 2, 0, 2, 0, 3,
    0, 4,  0x02, 0, 4, 0,
    /* A request, the last five bytes: expression 0 at this row, fused. */
    0, 5,  0x03, 0, 0, 0, 1,
};
#define REQUEST_SIZE 7
#define PRIME_AT (sizeof pool - 2)

static uint8_t context[ENONKASSE_CONTEXT_SIZE];
static uint8_t list[STEPS * ENONKASSE_STEP_SIZE];

static unsigned number_at(const uint8_t *bytes) { return bytes[0] << 8 | bytes[1]; }

static void print_reference(const uint8_t *reference) {
    printf("%02x%04x%02x", reference[0], number_at(reference + 2), reference[1]);
}

/* In document 01's output encoding; this example has no numbers, which would have their literals behind. */
static void print_step(const uint8_t *step) {
    printf("%02x", step[0]);
    print_reference(step + 4);
    printf("%02x", step[1]);
    for (int k = 1; k <= step[1]; k++) print_reference(step + 4 + k * ENONKASSE_REFERENCE_SIZE);
    printf("\n");
}

static int refused(const char *what, uint8_t answer) {
    if (answer != 0) printf("%s is refused with %u\n", what, answer);
    return answer != 0;
}

/* cm0 is 5, cm1 is 7, and const0 is 80 in the next row. */
static uint8_t evaluate(size_t steps) {
    static const uint64_t values[] = {4, 2, 0, 0, 0, 0, 0, 5, 0, 7, 0, 0, 80};
    uint8_t out[STEPS * ENONKASSE_CELL_SIZE];
    size_t cells[1];
    uint8_t answer = enonkasse_evaluate(pool, sizeof pool, list, steps * ENONKASSE_STEP_SIZE, 97, values,
                                        sizeof values / sizeof *values, out, sizeof out, cells);
    for (size_t k = 0; answer == 0 && k < cells[0]; k++) {
        const uint8_t *cell = out + k * ENONKASSE_CELL_SIZE;
        printf("kind %02x, id %u: %u\n", cell[0], number_at(cell + 2), cell[11]);
    }
    return answer;
}

int main(void) {
    if (refused("a fresh context", enonkasse_fresh(context, sizeof context))) return 1;
    if (refused("the request", enonkasse_serve(pool, sizeof pool, 0, 0, context, sizeof context, list, sizeof list))) return 1;
    size_t steps = number_at(context + ENONKASSE_STEP_COUNT_AT);
    for (size_t k = 0; k < steps; k++) print_step(list + k * ENONKASSE_STEP_SIZE);
    printf("fe%04x\n", number_at(context + ENONKASSE_TEMPORARY_COUNT_AT));
    if (refused("the evaluation", evaluate(steps))) return 1;

    uint8_t first[sizeof list], i[sizeof list], last[sizeof list];
    size_t sizes[3];
    if (refused("the build", enonkasse_build(pool, sizeof pool - REQUEST_SIZE, context, sizeof context, list, sizeof list, first,
                                             sizeof first, i, sizeof i, last, sizeof last, sizes)))
        return 1;
    printf("built %zu, %zu and %zu steps\n", sizes[0], sizes[1], sizes[2]);

    uint8_t primed[sizeof pool];
    for (size_t k = 0; k < sizeof pool; k++) primed[k] = k == PRIME_AT ? 1 : pool[k];
    enonkasse_fresh(context, sizeof context);
    refused("the primed request", enonkasse_serve(primed, sizeof primed, 0, 0, context, sizeof context, list, sizeof list));
    return 0;
}
