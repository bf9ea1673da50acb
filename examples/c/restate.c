/* Renames bound objects: reads a sheet from standard input, and writes it with one more step, AlphaEquivalent over its root, that
   concludes the proposition of the given number, in the given column. */
#include <stdio.h>
#include <stdlib.h>

#include "skriduhol.h"

int main(int argc, char **argv) {
    if (argc != 3) {
        fprintf(stderr, "usage: restate PROPOSITION COLUMN < OLD.sheet > NEW.sheet\n");
        return 2;
    }
    static uint8_t sheet[SKRIDUHOL_LONGEST_SHEET + 1], new_sheet[SKRIDUHOL_LONGEST_SHEET];
    static uint16_t slots[SKRIDUHOL_SLOT_COUNT]; /* the index of the names, for a program that goes on to search them */
    size_t length = fread(sheet, 1, sizeof sheet, stdin);
    uint16_t given[5] = {0, (uint16_t)strtoul(argv[1], NULL, 10), 0, 0, (uint16_t)strtoul(argv[2], NULL, 10)};
    size_t value, column;
    uint8_t number = skriduhol_restate(sheet, length, given, slots, new_sheet, sizeof new_sheet, &value, &column);
    if (number != 0) {
        fprintf(stderr, "refused %u at %zu\n", (unsigned)number, value);
        return 1;
    }
    return fwrite(new_sheet, 1, value, stdout) == value ? 0 : 1;
}
