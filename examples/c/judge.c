/* Asks whether the term of a sheet checks against one of the sheet's propositions, from hypotheses: each is the number of a name and
   the number of a proposition. */
#include <stdio.h>
#include <stdlib.h>

#include "skriduhol.h"

/* One byte more than the longest sheet, so that a longer file is refused and not cut. */
static uint8_t sheet[SKRIDUHOL_LONGEST_SHEET + 1];

int main(int argc, char **argv) {
    if (argc < 3) {
        fprintf(stderr, "usage: judge FILE PROPOSITION [NAME PROPOSITION]...\n");
        return 2;
    }
    FILE *file = fopen(argv[1], "rb");
    if (file == NULL) {
        perror(argv[1]);
        return 2;
    }
    size_t length = fread(sheet, 1, sizeof sheet, file);
    fclose(file);
    /* One number at least: the library takes no null pointer, even of no hypotheses. */
    size_t count = (size_t)argc - 3;
    uint16_t *hypotheses = calloc(count + 1, sizeof *hypotheses);
    if (hypotheses == NULL) {
        perror("judge");
        return 2;
    }
    for (size_t i = 0; i < count; i++) {
        hypotheses[i] = (uint16_t)strtoul(argv[3 + i], NULL, 10);
    }
    size_t value, column, node;
    uint8_t number =
        skriduhol_judge(sheet, length, hypotheses, count, strtoull(argv[2], NULL, 10), &value, &column, &node);
    free(hypotheses);
    if (number != 0) {
        printf("refused %u at %zu\n", (unsigned)number, value);
        return 1;
    }
    if (value == 1) {
        printf("yes\n");
        return 0;
    }
    printf("no: the rules stop at node %zu\n", node);
    return 1;
}
