"""What `tools/sheet explain` says: which refusal a sheet meets, what that means and what is wrong there."""

import re

from model import (DIFFER, EXERCISE, FULL, GIVEN, LIMIT, NEVER, NO_OPEN_STEP, NUMBERS, ORDINAL, REFUSALS, ROOM, Refused, Trouble,
                   UNCHECKABLE, UNEQUAL, UNREAD, VERSION, admitted, column_text, compared, explained, walk)

def checked(data, steps):
    """What is true of a sheet that is not refused, or of two of its steps that are compared."""
    sheet = admitted(data)
    if steps:
        answer = "equal" if compared(sheet, *steps) else "not equal"
        return f"none of 1 to 11, 17 and 19 is met, and the two conclusions are {answer}"
    walk(sheet, len(sheet.steps) - 1)
    return "none of 1 to 15 is met"

LINE = re.compile(r"\s*(?:refused\s)?\s*(\d{1,9})\s+(?:at\s+)?(\d{1,9})(?:\s+column\s+(\d{1,9}))?"
                  r"(?:\s+(\d{1,20})\s+(\d{1,20}))?\s*", re.ASCII)

def explain_own(data):
    """The refusal of 1 to 15 that the sheet meets, with what is wrong there, or that it meets none."""
    try:
        checked(data, ())
    except Refused as refused:
        return explained(refused, data)
    return "None of 1 to 15 is met.\n"

def explain(data, line):
    """What the sheet's own refusal means and what is wrong there, a sentence to a line; trouble for any other one."""
    match = LINE.fullmatch(line)
    if not match or int(match.group(1)) not in REFUSALS:
        raise Trouble(f"expected a line such as: refused 12 at 0 column 7, with a refusal from 1 to {max(REFUSALS)}")
    number, place, column, *steps = [group and int(group) for group in match.groups()]
    steps = [] if None in steps else steps
    if number == NEVER:
        raise Trouble(f"refusal {number} {REFUSALS[number].reason}")
    if number in (EXERCISE, ORDINAL):
        raise Trouble(f"{number} is of an exercise and not of a sheet: tools/sheet exercise N ORDINAL [NAME].. explains it")
    if number == UNREAD:
        raise Trouble(f"{number} is of a text and not of a sheet: tools/sheet term TEXT [DATATYPE].. explains it")
    if number in (UNCHECKABLE, NUMBERS):
        raise Trouble(f"{number} is of a judgement: tools/sheet judge FILE.sheet K [NAME K].. explains it")
    if number in (GIVEN, FULL, UNEQUAL):
        raise Trouble(f"{number} is of a restatement: tools/sheet restate FILE.sheet KIND A B C COLUMN explains it")
    if number in (NO_OPEN_STEP, DIFFER, LIMIT):
        raise Trouble(f"{number} is of a graft: tools/sheet graft HOST STEP DONOR explains it")
    if (number, place, column, steps) == (VERSION, 0, None, []):
        sentence = "The sheet was not looked at: the version that is asked for has to be 1, 2 or 3."
        return explained(Refused(VERSION, 0, [sentence]), data)
    if number in (17, 19) and not steps:
        raise Trouble(f"{number} is of a comparison: its two steps are needed, as in: refused {number} at 0 0 1")
    try:
        otherwise = checked(data, steps)
        if (number, place, steps) == (ROOM, 0, []):
            raise Refused(ROOM, 0, ["The sheet is right: the output has to be longer. The board lends 65536 bytes."])
    except Refused as refused:
        if (number, place) == (refused.number, refused.place) and column in (None, refused.column(data)):
            return explained(refused, data)
        otherwise = f"it is {refused.said(data)}"
    raise Trouble(f"the sheet is not refused {number} at {place}{column_text(column)}: {otherwise}")
