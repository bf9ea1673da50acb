"""What `tools/sheet graft` makes by document 02, ticket 11: the host with a donor's steps in the place of a Sorry step that has
no premisses.
"""

import struct

import model

HOST, DONOR = "the host", "the donor"

def bytewise(sheet, prop):
    """A proposition with the bytes of its names: two are the same just where shape, name bytes and ids are."""
    names = sheet.names.entries
    return model.Prop(prop.head, [names[name] for name in prop.names], [(names[name], identity) for name, identity in prop.parameters],
                      [bytewise(sheet, part) for part in prop.parts])

def conclusion(sheet, step):
    """A step's conclusion by bytes."""
    names = sheet.names.entries
    if step.kind == 1:
        return names[step.first], step.second, names[step.third]
    return bytewise(sheet, model.decode(sheet, model.concluded(sheet, step)))

def code_of(prop, numbers):
    """The code of a proposition with a number for each of its names."""
    names = b"".join(struct.pack("<H", numbers[name]) for name in prop.names)
    parameters = [struct.pack("<BH", 0, numbers[name]) if identity is None else struct.pack("<BHH", 1, numbers[name], identity)
                  for name, identity in prop.parameters]
    count = bytes([len(parameters)]) if prop.head == model.ATOM else b""
    return bytes([prop.head]) + names + count + b"".join(parameters) + b"".join(code_of(part, numbers) for part in prop.parts)

def moved(step, numbers, propositions):
    """A donor's step in the merged sheet: its names by their numbers, its proposition after the host's, all else as it stands."""
    used = model.row(step.rule).identifiers
    new = step._replace(**{field: numbers[getattr(step, field)] for field in ("name1", "name2")[:used]})
    if step.kind == 1:
        return new._replace(first=numbers[step.first], third=numbers[step.third])
    return new._replace(first=propositions + step.first)

def merged(host, step, donor):
    """The merged sheet, whether or not it passes a limit."""
    names = model.Part(host.names.pairs, host.names.content)
    propositions = model.Part(host.propositions.pairs, host.propositions.content)
    numbers = [names.number(name) for name in donor.names.entries]
    for code in donor.propositions.entries:
        propositions.add(code_of(model.decode(donor, code), numbers))
    steps = [moved(own, numbers, len(host.propositions.entries)) for own in donor.steps]
    return model.Sheet(names, propositions, host.goal, host.steps[:step] + steps + host.steps[step + 1:])

def explain_step(host, step):
    """What 26 says: the step has to be a Sorry of the host without premisses."""
    if step >= len(host.steps):
        return [f"The host has the steps 0 to {len(host.steps) - 1}."]
    own = host.steps[step]
    return [] if own.count == 0 and model.row(own.rule).name == "Sorry" else [model.about_step(host, step)]

def explain_conclusions(host, step, donor):
    """What 27 says."""
    root = len(donor.steps) - 1
    if conclusion(host, host.steps[step]) == conclusion(donor, donor.steps[root]):
        return []
    return [f"Compared are {model.step_text(host, step)} of the host and {model.step_text(donor, root)} of the donor."]

def explain_limits(new):
    """What 28 says: the header's ranges, and the levels of the root."""
    depth = new.depths[-1]
    deep = [f"The merged tree nests {depth} deep, expected at most 256."] if depth > 256 else []
    return model.explain_header(new.to_bytes(), 0) + deep

def admitted(data, whose):
    """The sheet, or its refusal of 1 to 11 that says whose it is."""
    try:
        return model.admitted(data)
    except model.Refused as refused:
        refused.whose = whose
        raise

def grafted(host, step, donor):
    """The bytes of the merged sheet; or the host's 1 to 11, the donor's, 26, 27 or 28."""
    one, other = admitted(host, HOST), admitted(donor, DONOR)
    model.refuse_for(explain_step(one, step), model.NO_OPEN_STEP, 0)
    model.refuse_for(explain_conclusions(one, step, other), model.DIFFER, 0)
    new = merged(one, step, other)
    model.refuse_for(explain_limits(new), model.LIMIT, 0)
    return new.to_bytes()
