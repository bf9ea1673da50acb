/* Says of each name given which number it has in a sheet, by an index that is built once. */
#include <stdio.h>
#include <string.h>

#include "skriduhol.h"

/* One byte more than the longest sheet, so that a longer file is refused and not cut. */
static uint8_t sheet[SKRIDUHOL_LONGEST_SHEET + 1];
static uint16_t slots[SKRIDUHOL_SLOT_COUNT];

int main(int argc, char **argv) {
    if (argc < 2) {
        fprintf(stderr, "usage: find_name FILE [NAME]...\n");
        return 2;
    }
    FILE *file = fopen(argv[1], "rb");
    if (file == NULL) {
        perror(argv[1]);
        return 2;
    }
    size_t length = fread(sheet, 1, sizeof sheet, file);
    fclose(file);
    size_t value, column;
    uint8_t number = skriduhol_name_index(sheet, length, slots, &value, &column);
    if (number != 0) {
        printf("refused %u at %zu\n", (unsigned)number, value);
        return 1;
    }
    for (int i = 2; i < argc; i++) {
        /* The sheet was accepted, so a search in its own index is not refused. */
        skriduhol_find_name(sheet, length, slots, (const uint8_t *)argv[i], strlen(argv[i]), &value, &column);
        if (value == SKRIDUHOL_FREE) {
            printf("%s: no name of the sheet\n", argv[i]);
        } else {
            printf("%s: name %zu\n", argv[i], value);
        }
    }
    return 0;
}
