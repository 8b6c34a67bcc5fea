/* Plans network B of document 01 from memory, prints the reply, and has the judge mark the plan that came back. */
#include <stdio.h>
#include <string.h>

#include "tamchuwe.h"

/* Records of two-byte numbers, low byte first: length, kind, fields. */
static const uint16_t network_b[] = {
    8, 1, 5, 5,           /* head: 5 elements, 5 links */
    10, 2, 0, 5, 1,       /* element 0: load, capacity, flags (1 source, 2 faulty) */
    10, 2, 2, 9, 0,
    10, 2, 1, 9, 2,
    10, 2, 3, 9, 0,
    10, 2, 0, 3, 1,
    12, 3, 0, 1, 2, 1,    /* link 0: two elements, form (0 fixed, 1 open, 2 closed), cost */
    12, 3, 1, 2, 1, 1,
    12, 3, 2, 3, 1, 1,
    12, 3, 3, 4, 1, 4,
    12, 3, 1, 3, 1, 2,
    4, 4,                 /* end */
};

int main(void) {
    uint8_t input[sizeof network_b + TAMCHUWE_PLAN_FILE_LENGTH];
    uint8_t text[TAMCHUWE_PLAN_TEXT_LENGTH];
    uint64_t values[TAMCHUWE_PLAN_VALUES], mark[TAMCHUWE_MARK_VALUES];
    size_t n = 0, count;
    for (size_t i = 0; i < sizeof network_b / sizeof network_b[0]; i++) {
        input[n++] = network_b[i] & 255;
        input[n++] = network_b[i] >> 8;
    }

    fwrite(text, 1, tamchuwe_plan_text(input, n, text, sizeof text), stdout);

    /* the plan file goes directly behind the network file, where the judge wants it */
    if (tamchuwe_plan(input, n, input + n, sizeof input - n, values, TAMCHUWE_PLAN_VALUES, &count) != TAMCHUWE_PLAN)
        return 1;
    if (count < TAMCHUWE_PLAN_VALUES) /* the library is older than the header */
        return 1;
    if (tamchuwe_mark(input, n + 10 + 8 * values[0], mark, TAMCHUWE_MARK_VALUES, &count) != TAMCHUWE_VALID)
        return 1;
    if (count < TAMCHUWE_MARK_VALUES)
        return 1;
    printf("%llu steps, cost %llu; the judge: cost %llu, excess %llu\n", (unsigned long long)values[0],
           (unsigned long long)values[1], (unsigned long long)mark[0], (unsigned long long)mark[1]);
    return 0;
}
