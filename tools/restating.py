"""What `tools/sheet restate` makes by document 02, ticket 9: the sheet with one more step over its root."""

from model import (FULL, GIVEN, RULES, Refused, Sheet, Step, UNEQUAL, admitted, compared, counted, explain_fields, refuse_for,
                   step_text)

def restated(data, given):
    """The sheet with one more step, AlphaEquivalent over its root; or 1 to 11, 23, 24, 19 or 25."""
    sheet = admitted(data)
    root = len(sheet.steps) - 1
    alpha_equivalent = len(RULES) - 1
    new = Sheet(sheet.names, sheet.propositions, sheet.goal, sheet.steps + [Step(alpha_equivalent, 1, 0, 0, 0, 0, *given)])
    refuse_for(explain_fields(new, root + 1), GIVEN, 0)
    if len(sheet.steps) >= 1024 or sheet.depths[root] >= 256:
        raise Refused(FULL, 0, [f"The sheet has {counted(root + 1, 'step')}, and its root nests {sheet.depths[root]} deep."])
    if not compared(new, root, root + 1):
        raise Refused(UNEQUAL, 0, [f"Compared are {step_text(new, root)} and {step_text(new, root + 1)}."])
    return new.to_bytes()
