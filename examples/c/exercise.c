/* Prints the exercise at an ordinal: a proposition with at most N connectives over up to three names, each part in brackets. */
#include <stdio.h>
#include <stdlib.h>
#include <string.h>

#include "skriduhol.h"

/* The names as the library takes them, divided by newlines, and as they are printed. */
static char names[1 << 16];
static char **words;

static const char *const SYMBOLS[] = {"⊤", "⊥", " ∧ ", " ∨ ", " ⊃ "};

/* Prints the proposition that begins here, and says where it ends. */
static const uint8_t *print_proposition(const uint8_t *code) {
    uint8_t head = *code++;
    if (head == 5) { /* an atom: the number of its name, low byte first, and no parameters */
        fputs(words[code[0] + 256 * code[1]], stdout);
        return code + 3;
    }
    if (head < 2) {
        fputs(SYMBOLS[head], stdout);
        return code;
    }
    putchar('(');
    code = print_proposition(code);
    fputs(SYMBOLS[head], stdout);
    code = print_proposition(code);
    putchar(')');
    return code;
}

int main(int argc, char **argv) {
    if (argc < 3) {
        fprintf(stderr, "usage: exercise N ORDINAL [NAME]...\n");
        return 2;
    }
    words = argv + 3;
    size_t length = 0;
    for (int i = 3; i < argc; i++) {
        size_t more = strlen(argv[i]);
        if (sizeof names - length <= more + 1) {
            fprintf(stderr, "the names are too long\n");
            return 2;
        }
        if (i > 3) {
            names[length++] = '\n';
        }
        memcpy(names + length, argv[i], more);
        length += more;
    }
    uint8_t code[SKRIDUHOL_LONGEST_EXERCISE] = {0};
    size_t value, column;
    uint8_t number = skriduhol_exercise((const uint8_t *)names, length, strtoul(argv[1], NULL, 10), strtoul(argv[2], NULL, 10),
                                        code, sizeof code, &value, &column);
    if (number != 0) {
        printf("refused %u at %zu\n", (unsigned)number, value);
        return 1;
    }
    print_proposition(code);
    putchar('\n');
    return 0;
}
