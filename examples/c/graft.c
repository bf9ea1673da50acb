/* Grafts one sheet into another: reads two files, and writes the host with the donor's steps in the place of the host's step of the
   given number, a Sorry without premisses that concludes what the donor's root does. */
#include <stdio.h>
#include <stdlib.h>

#include "skriduhol.h"

/* One byte more than the longest sheet, so that a longer file is refused and not cut. */
static uint8_t host[SKRIDUHOL_LONGEST_SHEET + 1], donor[SKRIDUHOL_LONGEST_SHEET + 1], merged[SKRIDUHOL_LONGEST_SHEET];
static uint16_t slots[SKRIDUHOL_SLOT_COUNT]; /* the index of the merged names, for a program that goes on to search them */

static size_t read_file(const char *path, uint8_t *bytes, size_t room) {
    FILE *file = fopen(path, "rb");
    if (file == NULL) {
        perror(path);
        exit(2);
    }
    size_t length = fread(bytes, 1, room, file);
    fclose(file);
    return length;
}

int main(int argc, char **argv) {
    if (argc != 4) {
        fprintf(stderr, "usage: graft HOST.sheet STEP DONOR.sheet > MERGED.sheet\n");
        return 2;
    }
    size_t host_length = read_file(argv[1], host, sizeof host), donor_length = read_file(argv[3], donor, sizeof donor);
    size_t step = strtoull(argv[2], NULL, 10), value, column, whose;
    uint8_t number = skriduhol_graft(host, host_length, step, donor, donor_length, slots, merged, sizeof merged, &value, &column,
                                     &whose);
    if (number != 0) {
        static const char *const of[] = {"", " of the host", " of the donor"};
        fprintf(stderr, "refused %u at %zu%s\n", (unsigned)number, value, of[whose]);
        return 1;
    }
    return fwrite(merged, 1, value, stdout) == value ? 0 : 1;
}
