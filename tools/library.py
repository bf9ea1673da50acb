"""The answers of the proved library, asked through bindings/python, in the words of the tool's model.

Each function has the name and the arguments of the model's. An answer and a refusal are the library's, and the sentences on a refusal
or a no are the model's: where that says something else, one of the two is wrong, which is trouble.
"""

import functools
import pathlib
import sys

import exercises
import grafting
import indexing
import judging
import model
import reading
import restating
import terms

BINDINGS = pathlib.Path(__file__).resolve().parent.parent / "bindings" / "python"

# By the kinds of a record that is read: the form of the node, and how many parts and names it has, in this order.
KINDS = (("name", 0, 1), ("pair", 2, 0), ("fst", 1, 0), ("snd", 1, 0), ("fn", 1, 1), ("application", 2, 0), ("let", 2, 2),
         ("inl", 1, 0), ("inr", 1, 0), ("case", 3, 2), ("abort", 1, 0), ("ascription", 1, 0), ("()", 0, 0), ("sorry", 0, 0))
PROPOSITION, DATATYPE = 1, 2  # the kinds of a label

@functools.cache
def opened():
    """The module over the shared library, or in a line what is missing and how to get it."""
    sys.path.insert(0, str(BINDINGS))
    try:
        import skriduhol
    except ImportError as missing:
        raise model.Trouble(f"--library: {missing}; without --library the tool's own model answers") from None
    except AttributeError as missing:
        raise model.Trouble(f"--library: another version of the shared library is there ({missing}): `tools/install target/install` "
                            "writes this one") from None
    return skriduhol

def asked(question, own):
    """What the library answers to a question, or its refusal, explained by what the model says."""
    library = opened()
    try:
        return question(library)
    except ValueError as trouble:  # a number that the library cannot be handed
        raise model.Trouble(str(trouble)) from None
    except library.Refused as refused:
        raise explained(refused, own) from None

def explained(refused, own):
    """The model's refusal, if it is the library's."""
    try:
        own()
    except model.Refused as same:
        whose = (None, grafting.HOST, grafting.DONOR)[refused.whose.value]
        if (same.number, same.place, same.whose) == (refused.number, refused.place, whose):
            return same
    return otherwise(refused)

def otherwise(said):
    return model.Trouble(f"the library says {said}; the tool's own model says otherwise: one of the two is wrong")

def restated(data, given):
    new, _ = asked(lambda library: library.restate(data, library.Given(*given)), lambda: restating.restated(data, given))
    return new

def grafted(host, step, donor):
    new, _ = asked(lambda library: library.graft(host, step, donor), lambda: grafting.grafted(host, step, donor))
    return new

def indexed(data):
    slots = asked(lambda library: library.name_index(data), lambda: indexing.indexed(data))
    return {slot: number for slot, number in enumerate(slots) if number != opened().FREE}

def exercise(n, ordinal, names):
    code = asked(lambda library: library.exercise(names, n, ordinal), lambda: exercises.exercise(n, ordinal, names))
    sheet = model.sheet_of_names(names)
    return sheet, model.decode(sheet, code)

def judged(data, hypotheses, number, read=None):
    if read:
        raise model.Trouble("--library: the library judges a sheet's own term alone, and not one that is read beside it")
    pairs = [hypotheses[at:at + 2] for at in range(0, len(hypotheses), 2)]
    answer = asked(lambda library: library.judge(data, pairs, number), lambda: judging.judged(data, hypotheses, number))
    said = "yes" if answer.node is None else f"no, at node {answer.node}"
    try:
        own = judging.judged(data, hypotheses, number)
    except model.Refused:
        raise otherwise(said) from None
    if answer.node != (own[0] and own[0].args[0]):
        raise otherwise(said)
    return own

def read_alone(types, data):
    answer = asked(lambda library: library.read_term(data, types), lambda: reading.read_alone(types, data))
    return model.sheet_of_names(answer.names), term_of(answer, len(answer.nodes) - 1)

def term_of(read, number):
    """The term of a record among those that the library hands back."""
    kind, *fields, _ = read.nodes[number]
    form, parts, names = KINDS[kind]
    label = label_of(read, *fields[2:4]) if form in ("fn", "ascription") else None
    return terms.Term(form, [read.names[name] for name in fields[parts:parts + names]], label,
                      [term_of(read, part) for part in fields[:parts]])

def label_of(read, kind, value):
    """The proposition from an even offset of the code on, or a datatype's name."""
    if kind == PROPOSITION:
        return model.Code(read.code[2 * value:], len(read.names)).proposition()
    return read.names[value] if kind == DATATYPE else None
