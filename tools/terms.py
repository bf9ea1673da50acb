"""Terms: a sheet's own by document 01, the strict text of a term, and its nodes in lines.

The propositions of a term are those of a sheet, by their lowest names.
"""

from collections import namedtuple

import model

# A term: its form, the names that it binds or is, its label, its parts. A label is a proposition, or a datatype's name as a text.
Term = namedtuple("Term", "form names label parts")

WORDS = ("fn", "case", "of", "inl", "inr", "let", "in", "fst", "snd", "abort", "sorry")
CALLS = ("fst", "snd", "inl", "inr", "abort")
CLOSED = ("name", "sorry", "()", "pair")
OPEN = ("fn", "case", "let", "ascription")
FORMS = {"AndIntro": "pair", "AndElimFst": "fst", "AndElimSnd": "snd", "TrueIntro": "()", "ImplIntro": "fn", "ImplElim": "application",
         "Ident": "name", "OrIntroFst": "inl", "OrIntroSnd": "inr", "OrElim": "case", "FalsumElim": "abort", "ForAllIntro": "fn",
         "ForAllElim": "application", "ExistsIntro": "pair", "ExistsElim": "let", "Sorry": "sorry"}

def nodes(term):
    """A term and its parts, a node before its parts: counted from 0, each is where the checker stops by that number."""
    yield term
    for part in term.parts:
        yield from nodes(part)

def depth(term):
    return 1 + max(map(depth, term.parts), default=0)

# ---- A sheet's own term

def exported(sheet):
    """The term of a sheet that none of 1 to 15 refuses."""
    def given(number, inferring):
        step = sheet.steps[number]
        rule = model.row(step.rule)
        places = (inferring if place == model.OWN else place == model.INFERRING for place in rule.places)
        parts = [given(premiss, place) for premiss, place in zip(sheet.trees[0][number], places)]
        if rule.name == "AlphaEquivalent":
            return parts[0]
        names = [word(sheet, name) for name in (step.name1, step.name2)[:rule.identifiers]]
        labelled = inferring and rule.ending
        concluded = labelled and model.by_lowest_names(sheet, model.decode(sheet, model.concluded(sheet, step)))
        if labelled is model.ASCRIBED:
            return Term("ascription", [], concluded, [Term(FORMS[rule.name], names, None, parts)])
        label = None
        if labelled is model.LABELLED_BY_LEFT:
            label = concluded.parts[0]
        elif labelled is model.LABELLED_BY_DATATYPE:
            label = word(sheet, concluded.names[1])
        return Term(FORMS[rule.name], names, label, parts)

    return given(len(sheet.steps) - 1, False)

def word(sheet, name):
    return sheet.names.entries[name].decode("latin-1")

# ---- The strict text of a term

def prop_text(sheet, prop):
    """A proposition as the board prints it: without ids and numbers of names."""
    if prop.head in (model.TRUE, model.FALSE):
        return model.SYMBOLS[prop.head]
    if prop.head == model.ATOM:
        parameters = ", ".join(word(sheet, name) for name, _ in prop.parameters)
        return word(sheet, prop.names[0]) + (f"({parameters})" if parameters else "")
    if prop.head in (model.FORALL, model.EXISTS):
        bound, datatype = (word(sheet, name) for name in prop.names)
        return f"{model.SYMBOLS[prop.head]}{bound}:{datatype}. {prop_text(sheet, prop.parts[0])}"

    def side(part, least):
        text = prop_text(sheet, part)
        return f"({text})" if model.strength(part) < least else text

    own, (left, right) = model.strength(prop), prop.parts
    if own == model.STRONGEST:
        return "¬" + side(left, own)
    implies = prop.head == model.IMPLIES
    return f"{side(left, own + implies)} {model.SYMBOLS[prop.head]} {side(right, own + (not implies))}"

def label_text(sheet, label):
    return label if isinstance(label, str) else prop_text(sheet, label)

def text(sheet, term):
    """The strict text: the brackets of the Rust's Display, and those of document 02, ticket 1."""
    def bracketed(part, wanted):
        return f"({text(sheet, part)})" if part.form in wanted else text(sheet, part)

    def closed(part):
        return text(sheet, part) if part.form in CLOSED else f"({text(sheet, part)})"

    def inner(part):
        return bracketed(part, ("ascription",))

    parts, names = term.parts, term.names
    if term.form in ("sorry", "()"):
        return term.form
    if term.form == "name":
        return names[0]
    if term.form == "pair":
        return f"({text(sheet, parts[0])}, {text(sheet, parts[1])})"
    if term.form in CALLS:
        return f"{term.form} {closed(parts[0])}"
    if term.form == "application":
        return f"{bracketed(parts[0], OPEN)} {closed(parts[1])}"
    if term.form == "ascription":
        return f"{bracketed(parts[0], OPEN)}: {label_text(sheet, term.label)}"
    if term.form == "fn":
        label = "" if term.label is None else f": {label_text(sheet, term.label)}"
        return f"fn {names[0]}{label} => {inner(parts[0])}"
    if term.form == "let":
        return f"let ({names[0]}, {names[1]}) = {inner(parts[0])} in {inner(parts[1])}"
    head, left, right = map(inner, parts)
    return f"case {head} of inl {names[0]} => {left}, inr {names[1]} => {right}"

# ---- The nodes of a term, a line each

def heading(sheet, term):
    """A node without its parts."""
    label = "" if term.label is None else f": {label_text(sheet, term.label)}"
    words = {"name": "", "ascription": ""}.get(term.form, term.form)
    if isinstance(term.label, str):
        label += ", a datatype"
    return (" ".join([words, *term.names]).strip() + label).strip()

def tree(sheet, term, indent=0):
    """The lines of a term's nodes, each under the one that it is a part of."""
    yield "  " * indent + heading(sheet, term)
    for part in term.parts:
        yield from tree(sheet, part, indent + 1)

def listing(sheet, term):
    """The nodes of a term, numbered."""
    lines = list(tree(sheet, term))
    width = len(str(len(lines) - 1))
    return "".join(f"{number:{width}} {line}\n" for number, line in enumerate(lines))
