"""What `tools/sheet index` prints by document 02, ticket 14: the index of a sheet's names."""

import functools

from model import admitted, sheet_of

SLOTS = 1024

def start_slot(name):
    """The remainder by 1,024 of a running number: for each byte 31 times itself plus the byte, wrapping at 2 to the 32nd."""
    return functools.reduce(lambda running, byte: (31 * running + byte) % 2**32, name, 0) % SLOTS

def slots_of(names):
    """The number in each taken slot: names enter from number 0 up, repeats not at all, round the end."""
    slots = {}
    for number, name in enumerate(names):
        if name not in names[:number]:
            at = start_slot(name)
            while at in slots:
                at = (at + 1) % SLOTS
            slots[at] = number
    return slots

def indexed(data):
    """The number in each taken slot of a sheet's index; or 1 to 11."""
    return slots_of(admitted(data).names.entries)

def listing(data, slots):
    """A line for each taken slot."""
    names = sheet_of(data).names.entries
    return "".join(f"{slot} {number} {names[number].decode()}\n" for slot, number in sorted(slots.items()))
