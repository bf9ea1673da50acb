/*
 * Skriduhol: from the sheet of a proof board to its printed term, and exercises for its classes.
 *
 * A sheet is any sequence of bytes: every function answers for every sequence and every length. The functions are proved in
 * Rattle, in crates/skriduhol_c; `tools/build skriduhol_c` writes target/staticlib/libskriduhol_c.a for x86-64 Linux.
 *
 * What a caller owes
 *   - Each pointer is aligned for its type and not null, also where its length is 0: a function takes it for a reference,
 *     and nothing is promised of a null one. An empty std::vector may have a null pointer: lend the address of any element then.
 *   - `sheet` can be read for `sheet_length` bytes, and so can the `names` of an exercise, of which all that is said of the sheet
 *     holds; so can the `host` and the `donor` of a graft, which may be the same memory; `out` can be written for `room`
 *     elements, and all of them have a value (clear the memory once); `value` and `column`, and `whose` of a graft, can be
 *     written.
 *   - `out`, `value`, `column` and `whose` overlap neither each other nor a sheet, and no other thread touches them or a sheet
 *     during the call.
 *
 * What a caller gets
 *   - Each call returns. Nothing is allocated, no file is touched, no pointer is kept, and there is no state between calls, so
 *     threads may call at the same time, each on its own memory.
 *   - Each function but skriduhol_board_output returns 0 for an accepted answer, and then *value is what the function's comment
 *     says; or it returns the number of a refusal (enum skriduhol_refusal), and then *value is its place. *column is for
 *     refusals 9 to 15 the grid column of the step that they name, its two bytes as they stand, and 0 in every other case.
 *     *value and *column are always set, and so is *whose of a graft.
 *   - An accepted answer fills the first elements of `out` and nothing after them. A refusal leaves all of `out` as it was;
 *     skriduhol_board_output alone writes a line for it, and nothing after that line.
 *   - A call takes at most 256 KiB of stack: measured on the deepest sheets, not proved (docs/PERFORMANCE.md).
 */
#ifndef SKRIDUHOL_H
#define SKRIDUHOL_H

#include <stddef.h>
#include <stdint.h>

#ifdef __cplusplus
extern "C" {
#endif

/* The version of this header: it grows with each change that a caller has to follow. In version 2 a step has 20 bytes, the last
   two its column, and each function that takes `value` takes `column` after it. */
#define SKRIDUHOL_VERSION 2

/* Refusals: before each its place, which is 0 or the number of a name, a proposition or a step, and its reason. Those whose place is
   a step, 9 to 15, hand back its column too. Each question tries these, in this order:

     texts and lists       1 to 16, those of the handout 21 before them
     the label count       1 to 15
     a comparison          1 to 11, 17, 19
     a judgement           1 to 15, 31, 22
     a restatement         1 to 11, 23, 24, 19 or 25, 16
     a graft               the host's 1 to 11, the donor's, 26, 27, 28, 16
     a text that is read   20, 16
     an exercise           29, 30, 16
     an index of names     1 to 11
     a search in one       1 to 3

   No function gives a number that stands in none of these lines.
   16 does not say how much room is missing: most answers fit 65,536 elements, but a text can pass 88 million bytes and a list 3
   million numbers. The length of an answer is asked for by a function of its own, skriduhol_plain_text_length and its like, which
   tries the answer's other refusals and never 16. */
enum skriduhol_refusal {
    /* 0: fewer than 12 bytes came */
    SKRIDUHOL_REFUSED_NO_HEADER = 1,
    /* 0: a header number lies outside its range */
    SKRIDUHOL_REFUSED_HEADER_RANGE = 2,
    /* 0: the byte count is not the one that the header gives */
    SKRIDUHOL_REFUSED_BYTE_COUNT = 3,
    /* name: a name's pair starts before the last one's end, ends past the text, or has a length outside 1 to 32 */
    SKRIDUHOL_REFUSED_NAME_PAIR = 4,
    /* name: a name holds a byte that its position does not allow */
    SKRIDUHOL_REFUSED_NAME_BYTE = 5,
    /* proposition: a proposition's pair starts before the last one's end, ends past the code, or has length 0 */
    SKRIDUHOL_REFUSED_PROPOSITION_PAIR = 6,
    /* proposition: its code is not exactly one proposition over its whole length with names of the sheet */
    SKRIDUHOL_REFUSED_PROPOSITION_CODE = 7,
    /* proposition: it nests deeper than 64 */
    SKRIDUHOL_REFUSED_PROPOSITION_NESTING = 8,
    /* step: a rule, kind, name, proposition number or column is out of range, or an unused field is not 0 */
    SKRIDUHOL_REFUSED_STEP_FIELD = 9,
    /* step: a step finds too few trees before it, or the last step leaves more than one */
    SKRIDUHOL_REFUSED_TREE_COUNT = 10,
    /* step: its tree nests deeper than 256 */
    SKRIDUHOL_REFUSED_TREE_NESTING = 11,
    /* step: a visited step has the wrong premiss count */
    SKRIDUHOL_REFUSED_PREMISS_COUNT = 12,
    /* step: an ascription is needed where the conclusion is a type judgement */
    SKRIDUHOL_REFUSED_ASCRIBED_JUDGEMENT = 13,
    /* step: a function of ImplIntro needs a label and its conclusion is no implication */
    SKRIDUHOL_REFUSED_NO_IMPLICATION = 14,
    /* step: a function of ForAllIntro needs a label and its conclusion is no ∀ */
    SKRIDUHOL_REFUSED_NO_UNIVERSAL = 15,
    /* 0: the lent output is shorter than the answer */
    SKRIDUHOL_REFUSED_ROOM = 16,
    /* 0: a comparison names a step that the sheet has not */
    SKRIDUHOL_REFUSED_COMPARED_STEP = 17,
    /* 0: does not occur: two atoms of one name with different parameter counts are a no */
    SKRIDUHOL_REFUSED_PARAMETER_COUNT = 18,
    /* 0: two uninstantiated parameters meet with neither bound on its side */
    SKRIDUHOL_REFUSED_UNBOUND_PARAMETER = 19,
    /* 0: no term within the limits, or more than one, has the text as its strict text, or a listed datatype is no admitted name */
    SKRIDUHOL_REFUSED_NO_TERM = 20,
    /* 0: the version of the handout is outside 1 to 3 */
    SKRIDUHOL_REFUSED_VERSION = 21,
    /* 0: the term, a hypothesis or the proposition holds a quantifier, an uninstantiated parameter, a let or a datatype label */
    SKRIDUHOL_REFUSED_UNCHECKABLE = 22,
    /* 0: the given conclusion or column breaks the rules of a step */
    SKRIDUHOL_REFUSED_GIVEN = 23,
    /* 0: there are already 1,024 steps or 256 levels */
    SKRIDUHOL_REFUSED_NO_STEP_LEFT = 24,
    /* 0: the root's conclusion and the given one are not alpha equal */
    SKRIDUHOL_REFUSED_NOT_ALPHA_EQUAL = 25,
    /* 0: the host step is no Sorry without premisses */
    SKRIDUHOL_REFUSED_NO_OPEN_STEP = 26,
    /* 0: the conclusions of the host step and of the donor's root differ, names taken by bytes */
    SKRIDUHOL_REFUSED_CONCLUSIONS_DIFFER = 27,
    /* 0: the merged sheet passes a limit of the sheet */
    SKRIDUHOL_REFUSED_MERGED_LIMIT = 28,
    /* 0: the names of an exercise are too many, repeated or malformed, or its number of connectives passes 3 */
    SKRIDUHOL_REFUSED_EXERCISE = 29,
    /* 0: the ordinal of an exercise is past the end */
    SKRIDUHOL_REFUSED_ORDINAL = 30,
    /* 0: a number of the hypotheses or of the proposition is not the sheet's, or a last name has no proposition */
    SKRIDUHOL_REFUSED_JUDGED_NUMBER = 31
};

/* Whose a refusal of a graft is. */
enum skriduhol_whose {
    SKRIDUHOL_NEITHER = 0,
    SKRIDUHOL_HOST = 1,
    SKRIDUHOL_DONOR = 2
};

/* The bytes that skriduhol_board_output writes into. */
#define SKRIDUHOL_BOARD_ROOM 65536

/* The longest sheet, in bytes. A reader lends one byte more, to see that an input is longer. */
#define SKRIDUHOL_LONGEST_SHEET 40972

/* The longest code of an exercise, in bytes: three connectives and four names. */
#define SKRIDUHOL_LONGEST_EXERCISE 19

/* The longest text of a term that is read, in bytes. */
#define SKRIDUHOL_LONGEST_TERM 65536

/* The numbers in the record of a node, and how many numbers of records, bytes of names and bytes of code are enough for every term that
   is read: it has at most 2,048 nodes and 512 names of 4 bytes each, and fewer bytes of code than this. */
#define SKRIDUHOL_RECORD_NUMBERS 7
#define SKRIDUHOL_RECORD_ROOM 14336
#define SKRIDUHOL_NAME_ROOM 2048
#define SKRIDUHOL_CODE_ROOM 131072

/* The slots of an index of names, and what a free one holds; of a name that is not there, the value too. */
#define SKRIDUHOL_SLOT_COUNT 1024
#define SKRIDUHOL_FREE 65535

/* The plain text: declarations and then the term, in UTF-8, with no 0 at its end. *value: its length in bytes. */
uint8_t skriduhol_plain_text(const uint8_t *sheet, size_t sheet_length, uint8_t *out, size_t room, size_t *value,
                             size_t *column);

/* The strict text: the plain text with brackets also around a case or let on either side of an application, and around an
   ascription within a function, a case or a let. *value: its length in bytes. */
uint8_t skriduhol_strict_text(const uint8_t *sheet, size_t sheet_length, uint8_t *out, size_t room, size_t *value,
                              size_t *column);

/* The atoms of the term's labels, left to right with repeats: for each the number of its name, and then its parameter count.
   *value: how many numbers these are, two for each atom. */
uint8_t skriduhol_atom_list(const uint8_t *sheet, size_t sheet_length, uint16_t *out, size_t room, size_t *value,
                            size_t *column);

/* The datatypes that are labels of the term, left to right with repeats: the number of the name of each. *value: how many. */
uint8_t skriduhol_datatype_list(const uint8_t *sheet, size_t sheet_length, uint16_t *out, size_t room, size_t *value,
                                size_t *column);

/* The plain text, the strict text and the datatype list of a version of the handout. Version 1 is what the functions above give.
   Version 2 has the datatype declarations before the atoms, and its datatype list holds every datatype of every label, those
   within a proposition too. Version 3 is version 2 with its declarations sorted, by name bytes, a name before its own extensions,
   then by parameter count; its list is version 2's. The atom list has no version. *value: as above. */
uint8_t skriduhol_handout_plain(const uint8_t *sheet, size_t sheet_length, size_t version, uint8_t *out, size_t room,
                                size_t *value, size_t *column);
uint8_t skriduhol_handout_strict(const uint8_t *sheet, size_t sheet_length, size_t version, uint8_t *out, size_t room,
                                 size_t *value, size_t *column);
uint8_t skriduhol_handout_datatypes(const uint8_t *sheet, size_t sheet_length, size_t version, uint16_t *out, size_t room,
                                    size_t *value, size_t *column);

/* How long each of these answers is, found out without writing it. *value: what the function without `_length` hands over in enough
   room, in bytes of a text and in numbers of a list; a refusal is that function's own, and never 16. So an answer of any length
   takes two calls:

       size_t value, column;
       uint8_t number = skriduhol_plain_text_length(sheet, sheet_length, &value, &column);
       if (number != 0) return refused(number, value, column);
       size_t room = value;
       uint8_t *text = calloc(room, 1);
       if (text == NULL) return out_of_memory();
       skriduhol_plain_text(sheet, sheet_length, text, room, &value, &column);

   Over the same bytes the second call is not refused, and fills all of the room. A text has some bytes; a list may have none, and
   an allocation of no bytes may be null: allocate one element more for it. */
uint8_t skriduhol_plain_text_length(const uint8_t *sheet, size_t sheet_length, size_t *value, size_t *column);
uint8_t skriduhol_strict_text_length(const uint8_t *sheet, size_t sheet_length, size_t *value, size_t *column);
uint8_t skriduhol_atom_list_length(const uint8_t *sheet, size_t sheet_length, size_t *value, size_t *column);
uint8_t skriduhol_datatype_list_length(const uint8_t *sheet, size_t sheet_length, size_t *value, size_t *column);
uint8_t skriduhol_handout_plain_length(const uint8_t *sheet, size_t sheet_length, size_t version, size_t *value, size_t *column);
uint8_t skriduhol_handout_strict_length(const uint8_t *sheet, size_t sheet_length, size_t version, size_t *value, size_t *column);
uint8_t skriduhol_handout_datatypes_length(const uint8_t *sheet, size_t sheet_length, size_t version, size_t *value,
                                           size_t *column);

/* The label count. *value: how many ascriptions and labelled functions the term has. */
uint8_t skriduhol_label_count(const uint8_t *sheet, size_t sheet_length, size_t *value, size_t *column);

/* Whether the conclusions of steps i and j are equal up to the names of their bound objects. *value: 1 for yes, 0 for no. */
uint8_t skriduhol_compare(const uint8_t *sheet, size_t sheet_length, size_t i, size_t j, size_t *value, size_t *column);

/* Whether the sheet's term checks against one of the sheet's propositions from the hypotheses given: yes precisely when the checking
   rules derive that. `hypotheses` can be read for `hypothesis_numbers` numbers: for each hypothesis a name and a proposition of the
   sheet, one after another; a later one hides earlier ones whose names have its name's bytes. Of a sound sheet without quantifiers,
   against the root's proposition from no hypotheses, the answer is yes. *value: 1 for yes, 0 for no. *node, which is always set and
   overlaps nothing else: for a no the node at which the rules stop, and in every other case 0. Nodes are counted from 0, a node
   before its parts, these from left to right; a label is no node. */
uint8_t skriduhol_judge(const uint8_t *sheet, size_t sheet_length, const uint16_t *hypotheses, size_t hypothesis_numbers,
                        size_t proposition, size_t *value, size_t *column, size_t *node);

/* The sheet with one more step, AlphaEquivalent over its root, whose conclusion is equal to the root's up to the names of bound
   objects. `given` are the numbers of a step record's end: the kind, three numbers and the column. Names, propositions and goal are
   kept byte for byte, and every answer to the new sheet is the old one's, in text, lists, labels and refusals. `slots` has
   SKRIDUHOL_SLOT_COUNT numbers, which become the index of the new sheet's names (skriduhol_name_index) and stay as they were
   where the answer is a refusal; they overlap nothing else.
   *value: the length of the new sheet in bytes, 20 more than the old one's. */
uint8_t skriduhol_restate(const uint8_t *sheet, size_t sheet_length, const uint16_t given[5],
                          uint16_t slots[SKRIDUHOL_SLOT_COUNT], uint8_t *out, size_t room, size_t *value, size_t *column);

/* How long the new sheet is, with no memory lent for it; never 16. *value: as above. */
uint8_t skriduhol_restate_length(const uint8_t *sheet, size_t sheet_length, const uint16_t given[5], size_t *value,
                                 size_t *column);

/* The host with the donor's steps in place of `step`, a Sorry step without premisses whose conclusion is the donor root's: the same
   shape, name bytes and ids. The host's names, propositions, text, code and goal are kept byte for byte; the donor's names that are
   missing by bytes, each once, and all its propositions follow in their order without gaps, names renumbered to the lowest of equal
   bytes; ids and columns are kept. Where the walk reaches that step and both host and merged sheet have a text, the merged term
   without labels is the host's with the donor's in the sorry's position, and its labels are the host's, less that sorry's own, plus
   the donor's as that place needs them. `slots` has SKRIDUHOL_SLOT_COUNT numbers, which become the index of the merged sheet's names
   (skriduhol_name_index) and stay as they were where the answer is a refusal; they overlap nothing else.
   *value: the length of the merged sheet in bytes, at most SKRIDUHOL_LONGEST_SHEET. *whose, which is always set: for the host's
   refusals 1 to 11 SKRIDUHOL_HOST, for the donor's, which are tried after them, SKRIDUHOL_DONOR, and in every other case
   SKRIDUHOL_NEITHER; *value and *column are the place and the column of the step in that sheet. */
uint8_t skriduhol_graft(const uint8_t *host, size_t host_length, size_t step, const uint8_t *donor, size_t donor_length,
                        uint16_t slots[SKRIDUHOL_SLOT_COUNT], uint8_t *out, size_t room, size_t *value, size_t *column,
                        size_t *whose);

/* How long the merged sheet is, or whose the refusal is; never 16. *value, *column and *whose: as above. */
uint8_t skriduhol_graft_length(const uint8_t *host, size_t host_length, size_t step, const uint8_t *donor, size_t donor_length,
                               size_t *value, size_t *column, size_t *whose);

/* The code of the proposition at an ordinal, from 0, among all of at most n binary connectives over ⊤, ⊥ and up to 3 names, n up
   to 3. Fewer connectives come first; then by root, ∧ before ∨ before ⊃; then by the left part's size, the left part, the right
   part; leaves are ⊤, ⊥, then the names as given, by which they are numbered in the code. Three names and n of 3 give 86,705.
   `names` is no sheet but names divided by newlines: no bytes are no names, and a newline at the end makes an empty name, which
   is malformed. A name has 1 to 32 bytes, an ASCII letter and then letters, digits or `_`, and no two have the same bytes.
   *value: the code's length in bytes, at most SKRIDUHOL_LONGEST_EXERCISE. */
uint8_t skriduhol_exercise(const uint8_t *names, size_t names_length, size_t n, size_t ordinal, uint8_t *out, size_t room,
                           size_t *value, size_t *column);

/* How long the code is; never 16. *value: as above. */
uint8_t skriduhol_exercise_length(const uint8_t *names, size_t names_length, size_t n, size_t ordinal, size_t *value,
                                  size_t *column);

/* The term of which these bytes are the strict text: what skriduhol_strict_text prints behind the declarations, with just those
   brackets. A label that is a lone name is a datatype if it is listed and otherwise an atom; a parameter that a quantifier of its
   proposition binds is uninstantiated, any other instantiated with id 0. Names are those of a sheet but for fn, case, of, inl, inr,
   let, in, fst, snd, abort and sorry. A term has at most 2,048 nodes nested at most 512 deep, and 512 different names; the proposition
   of a label is nested at most 64 deep in at most 8,192 bytes of code. Reading the strict text of a sheet's term restores it with its
   ids set to 0, provided that the text is not too long, its names obey that rule, its datatype labels are listed, no listed name is
   also an atom without parameters, and just those of its parameters are uninstantiated that a quantifier over them binds.
   `datatypes` are names divided by newlines: no bytes are no names, and a newline at the end makes an empty name, which is refused.
   `text` and `datatypes` can be read for their lengths. Of `records`, `names` and `code` all that is said of `out` holds, each with its
   own room, and all are as they were where the answer is a refusal:
     records   seven numbers for each node: its kind, five numbers, and how many labels stand in it and in its parts. Parts come before
               the whole, from left to right, so that the last record is the term's own; a part is the number of its record, counted
               from 0, and a name its number. Those of the five that a kind does not use are 0:
                 0 name: the name                                7 inl, 8 inr: the part
                 1 pair: both parts                              9 case: head, two branches, the names that these bind
                 2 fst, 3 snd: the part                         10 abort: the part
                 4 function: body, the name it binds, label     11 ascription: the part, 0, label
                 5 application: function, argument              12 ()
                 6 let: head, body, the two names it binds      13 sorry
               A label is two numbers: 0 and 0 for none; 1 and half the offset of its proposition's code; 2 and a datatype's name.
     names     4 bytes for each different name, in the order in which the text meets them: the offset of a place in the text where it
               stands, and its length, each low byte first, as in a sheet. That the bytes there are the name's is proved; that the place
               is the first one is tested
     code      the propositions of the labels in the order of the text, in the form of a sheet's, each from an even offset on; what lies
               between two of them, and one byte behind the last of an odd length, stays as it was
   *value: how many nodes there are. *name_count and *code_length, which are always set: how many names, and how many bytes of code, up
   to an even offset; for a refusal 0. These four overlap nothing else. */
uint8_t skriduhol_read_term(const uint8_t *text, size_t text_length, const uint8_t *datatypes, size_t datatypes_length,
                            uint16_t *records, size_t records_room, uint8_t *names, size_t names_room, uint8_t *code,
                            size_t code_room, size_t *value, size_t *column, size_t *name_count, size_t *code_length);

/* How large that term is; never 16. *value, *name_count and *code_length: as above, so that 7 numbers for each node, 4 bytes for each
   name and the bytes of code are the least room. */
uint8_t skriduhol_read_term_length(const uint8_t *text, size_t text_length, const uint8_t *datatypes, size_t datatypes_length,
                                   size_t *value, size_t *column, size_t *name_count, size_t *code_length);

/* The index of the sheet's names, by which skriduhol_find_name finds one without comparing all. `slots` has SKRIDUHOL_SLOT_COUNT
   numbers, of which all that is said of `out` holds: a name's number or SKRIDUHOL_FREE. Names enter from number 0 up, repeats of
   earlier bytes not at all, each at its start slot or, where that is taken, at the next free one, round the end. The start slot is
   the remainder by 1,024 of a number, begun at 0, that for each byte becomes 31 times itself plus the byte. *value: 1,024. */
uint8_t skriduhol_name_index(const uint8_t *sheet, size_t sheet_length, uint16_t *slots, size_t *value, size_t *column);

/* The number of a name by slots beside the sheet. *value: by the sheet's own index the lowest number of these bytes, or
   SKRIDUHOL_FREE where there is none. Of the sheet no more is tried than refusals 1 to 3, so a search does not look through it. Any
   slots and any bytes as a name will do: slots that are not the sheet's index answer what they hold, the first number from the
   start slot on whose bytes are the name's, none at a free slot. `slots` can be read for SKRIDUHOL_SLOT_COUNT numbers, and `name`
   for `name_length` bytes. */
uint8_t skriduhol_find_name(const uint8_t *sheet, size_t sheet_length, const uint16_t *slots, const uint8_t *name,
                            size_t name_length, size_t *value, size_t *column);

/* What the board prints: the plain text of version 1 if 65,536 bytes have room for it, or `refused R at P` and a newline, R the
   number and P the place; for 9 to 15 ` column K` stands before the newline, K the column. `out` has SKRIDUHOL_BOARD_ROOM
   bytes. The result is how many of them were written, from the first on; the rest is left as it was. */
size_t skriduhol_board_output(const uint8_t *sheet, size_t sheet_length, uint8_t *out);

#ifdef __cplusplus
}
#endif

#endif
