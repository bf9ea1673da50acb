"""What `tools/sheet term` reads by document 02, ticket 2: the term of which some bytes are the strict text.

A text brings names of its own, which are added to a sheet's.
"""

import re

import model
from terms import CALLS, WORDS, Term, depth, nodes, text, word

NODES, NESTING, NAMES, PROP_NESTING, CODE, TEXT = 2048, 512, 512, 64, 8192, 65536
LEVELS = 4 * NESTING  # brackets of terms and labels: no text within the limits has more
NAME_BYTES = re.compile(r"[A-Za-z0-9_]*")

def is_name(name):
    return len(name) <= 32 and bool(model.WORD.fullmatch(name)) and name not in WORDS

class Reader:
    """A text from left to right, with brackets wherever they may stand; its names are added to a sheet's."""

    def __init__(self, sheet, types, content):
        self.sheet, self.types, self.text = sheet, types, content
        self.at, self.levels, self.bound = 0, 0, []

    def fail(self, wanted):
        found = self.text[self.at:self.at + 12]
        where = f"at byte {len(self.text[:self.at].encode())}, {found!r}" if found else "at the end"
        raise model.Refused(model.UNREAD, 0, [f"Expected {wanted} {where}."])

    def accept(self, what):
        found = self.text.startswith(what, self.at)
        self.at += len(what) * found
        return found

    def expect(self, what):
        if not self.accept(what):
            self.fail(repr(what))

    def word(self, at=None):
        """The name bytes in front."""
        return NAME_BYTES.match(self.text, self.at if at is None else at).group()

    def name(self, what="a name"):
        if not is_name(self.word()):
            self.fail(what)
        found = self.word()
        self.at += len(found)
        return found

    def number(self, name):
        return self.sheet.names.number(name.encode())

    def within(self, read):
        """What is read one level deeper."""
        self.levels += 1
        if self.levels > LEVELS:
            raise model.Refused(model.UNREAD, 0, ["It has more brackets within one another than a term within the limits."])
        found = read()
        self.levels -= 1
        return found

    def term(self):
        return self.within({"fn": self.function, "case": self.case, "let": self.let}.get(self.word(), self.ascribed))

    def function(self):
        self.expect("fn ")
        name = self.name()
        label = self.label() if self.accept(": ") else None
        self.expect(" => ")
        return Term("fn", [name], label, [self.term()])

    def case(self):
        self.expect("case ")
        parts, names = [self.term()], []
        for opening in (" of inl ", ", inr "):
            self.expect(opening)
            names.append(self.name())
            self.expect(" => ")
            parts.append(self.term())
        return Term("case", names, None, parts)

    def let(self):
        self.expect("let (")
        names = [self.name()]
        self.expect(", ")
        names.append(self.name())
        self.expect(") = ")
        head = self.term()
        self.expect(" in ")
        return Term("let", names, None, [head, self.term()])

    def ascribed(self):
        """Applications, and then perhaps a label."""
        if self.word() in CALLS:
            form = self.word()
            self.expect(form + " ")
            found = Term(form, [], None, [self.closed()])
        else:
            found = self.closed()
        while self.text.startswith(" ", self.at) and self.argument(self.at + 1):
            self.at += 1
            found = Term("application", [], None, [found, self.closed()])
        return Term("ascription", [], self.label(), [found]) if self.accept(": ") else found

    def argument(self, at):
        """Whether an argument begins there."""
        return self.text.startswith("(", at) or self.word(at) == "sorry" or is_name(self.word(at))

    def closed(self):
        if self.word() == "sorry":
            self.expect("sorry")
            return Term("sorry", [], None, [])
        if not self.accept("("):
            return Term("name", [self.name("a term")], None, [])
        if self.accept(")"):
            return Term("()", [], None, [])
        first = self.term()
        if self.accept(", "):
            first = Term("pair", [], None, [first, self.term()])
        self.expect(")")
        return first

    def label(self):
        """A lone name is a datatype if it is listed, otherwise an atom."""
        prop = self.implication()
        lone = prop.head == model.ATOM and not prop.parameters and word(self.sheet, prop.names[0])
        return lone if lone in self.types else prop

    def made(self, head, *parts, names=(), parameters=()):
        return model.Prop(head, list(names), list(parameters), list(parts))

    def implication(self):
        def read():
            left = self.joined(" ∨ ", model.OR, lambda: self.joined(" ∧ ", model.AND, self.unit))
            return self.made(model.IMPLIES, left, self.implication()) if self.accept(" ⊃ ") else left

        return self.within(read)

    def joined(self, sign, head, part):
        left = part()
        while self.accept(sign):
            left = self.made(head, left, part())
        return left

    def unit(self):
        for head in (model.TRUE, model.FALSE):
            if self.accept(model.SYMBOLS[head]):
                return self.made(head)
        for head in (model.FORALL, model.EXISTS):
            if self.accept(model.SYMBOLS[head]):
                return self.quantified(head)
        if self.accept("¬"):
            return self.made(model.IMPLIES, self.within(self.unit), self.made(model.FALSE))
        if self.accept("("):
            inner = self.implication()
            self.expect(")")
            return inner
        return self.atom()

    def quantified(self, head):
        bound = self.name()
        self.expect(":")
        datatype = self.name()
        self.expect(". ")
        names = [self.number(bound), self.number(datatype)]
        self.bound.append(bound)
        body = self.implication()
        self.bound.pop()
        return self.made(head, body, names=names)

    def atom(self):
        names, parameters = [self.number(self.name("a proposition"))], []
        if self.accept("("):
            while True:
                name = self.name()
                parameters.append((self.number(name), None if name in self.bound else 0))
                if not self.accept(", "):
                    break
            self.expect(")")
        return self.made(model.ATOM, names=names, parameters=parameters)

def code_size(prop):
    own = {model.ATOM: 4, model.FORALL: 5, model.EXISTS: 5}.get(prop.head, 1)
    return own + sum(3 if id is None else 5 for _, id in prop.parameters) + sum(code_size(part) for part in prop.parts)

def beyond(term, names):
    """What of a term passes the limits of reading, a sentence each."""
    counts = ((sum(1 for _ in nodes(term)), NODES, "nodes"), (depth(term), NESTING, "levels"), (names, NAMES, "different names"))
    for found, most, what in counts:
        if found > most:
            yield f"It has {found} {what}, and at most {most} are read."
    for prop in (node.label for node in nodes(term) if isinstance(node.label, model.Prop)):
        if model.nesting(prop) > PROP_NESTING:
            yield f"A label nests {model.nesting(prop)} deep, and at most {PROP_NESTING} levels are read."
        if code_size(prop) > CODE:
            yield f"A label has {code_size(prop)} bytes of code, and at most {CODE} are read."
        if most_parameters(prop) > 8:
            yield f"An atom has {most_parameters(prop)} parameters, and at most 8 are read."

def most_parameters(prop):
    return max([len(prop.parameters)] + [most_parameters(part) for part in prop.parts])

def read(sheet, types, data):
    """The term whose strict text these bytes are, over a sheet's names and its own; or 20."""
    bad = [name for name in types if not is_name(name)]
    model.refuse_for([f"The listed datatype {name!r} is no name." for name in bad], model.UNREAD, 0)
    if len(data) > TEXT:
        raise model.Refused(model.UNREAD, 0, [f"It has {len(data)} bytes, and at most {TEXT} are read."])
    try:
        content = data.decode()
    except UnicodeDecodeError as wrong:
        raise model.Refused(model.UNREAD, 0, [f"Byte {wrong.start} is no UTF-8."]) from None
    reader = Reader(sheet, types, content)
    term = reader.term()
    if reader.at < len(content):
        reader.fail("the end")
    again = text(sheet, term)
    if again != content:
        same = next((at for at, pair in enumerate(zip(again, content)) if pair[0] != pair[1]), min(len(again), len(content)))
        raise model.Refused(model.UNREAD, 0, [f"Other brackets are needed: {model.short(again)}",
                                         f"The two differ from byte {len(content[:same].encode())} on."])
    names = {name for name in re.findall(r"[A-Za-z][A-Za-z0-9_]*", content) if name not in WORDS}
    model.refuse_for(list(beyond(term, len(names))), model.UNREAD, 0)
    return term

def read_alone(types, data):
    """A sheet that has nothing but the names of a text, and the term of that text; or 20."""
    sheet = model.sheet_of_names(())
    return sheet, read(sheet, types, data)
