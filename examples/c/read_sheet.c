/* Reads a sheet from a file and prints the handout of a version, 1 if none is given, with the label count and the lists, or the
   refusal. How long the text and each list are is asked for first. */
#include <stdio.h>
#include <stdlib.h>

#include "skriduhol.h"

/* One byte more than the longest sheet: what is longer is no sheet. */
static uint8_t sheet[SKRIDUHOL_LONGEST_SHEET + 1];

/* Prints a refusal, and says that there was one. */
static int refused(uint8_t number, size_t place, size_t column) {
    printf("refused %u at %zu", (unsigned)number, place);
    if (9 <= number && number <= 15) {
        printf(" column %zu", column);
    }
    putchar('\n');
    return 1;
}

/* Memory for so many elements, and one more, since none may have no address; cleared, as the library asks. */
static void *memory(size_t count, size_t size) {
    void *lent = calloc(count + 1, size);
    if (lent == NULL) {
        perror("read_sheet");
        exit(2);
    }
    return lent;
}

static int print_text(size_t length, size_t version) {
    size_t value, column;
    uint8_t number = skriduhol_handout_plain_length(sheet, length, version, &value, &column);
    if (number != 0) {
        return refused(number, value, column);
    }
    size_t room = value;
    uint8_t *text = memory(room, sizeof *text);
    /* Over the same bytes, in the room that the length asks for, it is not refused. */
    skriduhol_handout_plain(sheet, length, version, text, room, &value, &column);
    fwrite(text, 1, room, stdout);
    putchar('\n');
    free(text);
    return 0;
}

static int print_label_count(size_t length) {
    size_t value, column;
    uint8_t number = skriduhol_label_count(sheet, length, &value, &column);
    if (number != 0) {
        return refused(number, value, column);
    }
    printf("labels: %zu\n", value);
    return 0;
}

/* The numbers of a list on one line. */
static void print_list(const char *word, const uint16_t *list, size_t count) {
    printf("%s:", word);
    for (size_t i = 0; i < count; i++) {
        printf(" %u", (unsigned)list[i]);
    }
    putchar('\n');
}

static int print_atoms(size_t length) {
    size_t value, column;
    uint8_t number = skriduhol_atom_list_length(sheet, length, &value, &column);
    if (number != 0) {
        return refused(number, value, column);
    }
    size_t room = value;
    uint16_t *list = memory(room, sizeof *list);
    skriduhol_atom_list(sheet, length, list, room, &value, &column);
    print_list("atoms", list, room);
    free(list);
    return 0;
}

static int print_datatypes(size_t length, size_t version) {
    size_t value, column;
    uint8_t number = skriduhol_handout_datatypes_length(sheet, length, version, &value, &column);
    if (number != 0) {
        return refused(number, value, column);
    }
    size_t room = value;
    uint16_t *list = memory(room, sizeof *list);
    skriduhol_handout_datatypes(sheet, length, version, list, room, &value, &column);
    print_list("datatypes", list, room);
    free(list);
    return 0;
}

int main(int argc, char **argv) {
    char *end = "";
    size_t version = argc == 3 ? strtoul(argv[2], &end, 10) : 1;
    if (argc < 2 || argc > 3 || *end != '\0') {
        fprintf(stderr, "usage: read_sheet FILE [VERSION]\n");
        return 2;
    }
    FILE *file = fopen(argv[1], "rb");
    if (file == NULL) {
        perror(argv[1]);
        return 2;
    }
    size_t length = fread(sheet, 1, sizeof sheet, file);
    /* A folder can be opened, and fails here. */
    if (ferror(file)) {
        perror(argv[1]);
        return 2;
    }
    fclose(file);
    return print_text(length, version) || print_label_count(length) || print_atoms(length) || print_datatypes(length, version);
}
