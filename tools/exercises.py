"""What `tools/sheet exercise` prints by document 02, ticket 13: the proposition at an ordinal."""

import functools

from model import AND, ATOM, EXERCISE, ORDINAL, Prop, Refused, WORD, counted, refuse_for, sheet_of_names

MOST_NAMES, MOST_CONNECTIVES = 3, 3

@functools.cache
def exercises_of(leaves, size):
    """How many propositions have exactly so many connectives."""
    parts = sum(exercises_of(leaves, left) * exercises_of(leaves, size - 1 - left) for left in range(size))
    return 3 * parts if size else leaves

def exercise_of(leaves, size, index):
    """The proposition at an index among those of its size: by root, by the left part's size, by its parts."""
    if size == 0:
        return Prop(index, [], [], []) if index < 2 else Prop(ATOM, [index - 2], [], [])
    root, index = divmod(index, exercises_of(leaves, size) // 3)
    for left in range(size):
        rights = exercises_of(leaves, size - 1 - left)
        if index < exercises_of(leaves, left) * rights:
            break
        index -= exercises_of(leaves, left) * rights
    parts = zip((left, size - 1 - left), divmod(index, rights))
    return Prop(AND + root, [], [], [exercise_of(leaves, *part) for part in parts])

def explain_exercise(n, names):
    """What 29 says of the names and the number of connectives, a sentence each."""
    sentences = [f"{n} connectives are more than {MOST_CONNECTIVES}."] if n > MOST_CONNECTIVES else []
    if len(names) > MOST_NAMES:
        sentences.append(f"{len(names)} names are more than {MOST_NAMES}.")
    for number, name in enumerate(names):
        if not (len(name) <= 32 and WORD.fullmatch(name)):
            sentences.append(f"Name {number} is {name!r}, expected a letter, then letters, digits or _, 1 to 32 in all.")
        elif name in names[:number]:
            sentences.append(f"Name {number} is {name} again.")
    return sentences

def exercise(n, ordinal, names):
    """The proposition at an ordinal, with its names in a sheet that has nothing else; or 29 or 30."""
    refuse_for(explain_exercise(n, names), EXERCISE, 0)
    leaves, index = 2 + len(names), ordinal
    for size in range(n + 1):
        if index < exercises_of(leaves, size):
            return sheet_of_names(names), exercise_of(leaves, size, index)
        index -= exercises_of(leaves, size)
    last = sum(exercises_of(leaves, size) for size in range(n + 1)) - 1
    raise Refused(ORDINAL, 0, [f"Those of at most {counted(n, 'connective')} have the ordinals 0 to {last}."])
