/* Reads a term from its strict text and prints its nodes, numbered from 0, a node before its parts, with the propositions of its
   labels in brackets. Names after the text are datatypes. */
#include <stdio.h>
#include <string.h>

#include "skriduhol.h"

static const uint8_t *text;
static uint16_t records[SKRIDUHOL_RECORD_ROOM];
static uint8_t names[SKRIDUHOL_NAME_ROOM], code[SKRIDUHOL_CODE_ROOM];

/* The datatypes as the library takes them, divided by newlines. */
static char datatypes[1 << 16];

static const char *const KINDS[] = {"",    "pair", "fst",  "snd",   "fn", "application", "let",
                                    "inl", "inr",  "case", "abort", "",   "()",          "sorry"};
static const char *const SYMBOLS[] = {"⊤", "⊥", " ∧ ", " ∨ ", " ⊃ ", "", "∀", "∃"};

/* Two bytes of names or code, the low one first. */
static unsigned number_at(const uint8_t *bytes) { return bytes[0] + 256u * bytes[1]; }

static void print_name(unsigned number) {
    const uint8_t *pair = names + 4 * number;
    fwrite(text + number_at(pair), 1, number_at(pair + 2), stdout);
}

/* An atom: its name, how many parameters it has, and each as 0 and a name, or as 1, a name and the id 0. */
static const uint8_t *print_atom(const uint8_t *at) {
    print_name(number_at(at));
    unsigned count = at[2];
    at += 3;
    for (unsigned i = 0; i < count; i++) {
        fputs(i == 0 ? "(" : ", ", stdout);
        print_name(number_at(at + 1));
        at += *at == 0 ? 3 : 5;
    }
    fputs(count == 0 ? "" : ")", stdout);
    return at;
}

/* Prints the proposition that begins here, and says where it ends. */
static const uint8_t *print_proposition(const uint8_t *at) {
    uint8_t head = *at++;
    if (head == 5) {
        return print_atom(at);
    }
    if (head < 2) {
        fputs(SYMBOLS[head], stdout);
        return at;
    }
    putchar('(');
    if (head > 5) { /* a quantifier: its object, its datatype and its body */
        fputs(SYMBOLS[head], stdout);
        print_name(number_at(at));
        putchar(':');
        print_name(number_at(at + 2));
        fputs(". ", stdout);
        at += 4;
    } else {
        at = print_proposition(at);
        fputs(SYMBOLS[head], stdout);
    }
    at = print_proposition(at);
    putchar(')');
    return at;
}

/* A label: nothing, a proposition by half the offset of its code, or a datatype by its name. */
static void print_label(unsigned kind, unsigned number) {
    if (kind != 0) {
        fputs(": ", stdout);
    }
    if (kind == 1) {
        print_proposition(code + 2 * number);
    } else if (kind == 2) {
        print_name(number);
    }
}

static void print_two_names(unsigned first, unsigned second) {
    putchar(' ');
    print_name(first);
    putchar(' ');
    print_name(second);
}

/* Prints a node and its parts, and says how many nodes have been numbered. */
static unsigned print_node(unsigned record, unsigned node, int depth) {
    const uint16_t *at = records + SKRIDUHOL_RECORD_NUMBERS * record;
    static const int parts[] = {0, 2, 1, 1, 1, 2, 2, 1, 1, 3, 1, 1, 0, 0};
    printf("%u%*s%s", node, 2 * depth + 1, "", KINDS[at[0]]);
    switch (at[0]) {
    case 0:
        print_name(at[1]);
        break;
    case 4:
        putchar(' ');
        print_name(at[2]);
        print_label(at[3], at[4]);
        break;
    case 6:
        print_two_names(at[3], at[4]);
        break;
    case 9:
        print_two_names(at[4], at[5]);
        break;
    case 11:
        print_label(at[3], at[4]);
        break;
    }
    putchar('\n');
    node++;
    for (int i = 1; i <= parts[at[0]]; i++) {
        node = print_node(at[i], node, depth + 1);
    }
    return node;
}

int main(int argc, char **argv) {
    if (argc < 2) {
        fprintf(stderr, "usage: read_term TEXT [DATATYPE]...\n");
        return 2;
    }
    size_t length = 0;
    for (int i = 2; i < argc; i++) {
        size_t more = strlen(argv[i]);
        if (sizeof datatypes - length <= more + 1) {
            fprintf(stderr, "the datatypes are too long\n");
            return 2;
        }
        if (i > 2) {
            datatypes[length++] = '\n';
        }
        memcpy(datatypes + length, argv[i], more);
        length += more;
    }
    text = (const uint8_t *)argv[1];
    size_t nodes, column, name_count, code_length;
    uint8_t number = skriduhol_read_term(text, strlen(argv[1]), (const uint8_t *)datatypes, length, records, SKRIDUHOL_RECORD_ROOM,
                                         names, SKRIDUHOL_NAME_ROOM, code, SKRIDUHOL_CODE_ROOM, &nodes, &column, &name_count,
                                         &code_length);
    if (number != 0) {
        printf("refused %u at %zu\n", (unsigned)number, nodes);
        return 1;
    }
    print_node((unsigned)nodes - 1, 0, 0);
    return 0;
}
