"""What the checker of document 02, ticket 5 says of a term, in a teacher's words: yes, or the node at which the rules of document
01 stop and why. Propositions are held by their lowest names.
"""

import model
import reading
import terms

CONNECTIVES = {"pair": "a conjunction", "inl": "a disjunction", "inr": "a disjunction", "fn": "an implication"}

class Stopped(Exception):
    """The rules stop: the node, its term and a sentence."""

class Checker:
    """Checking and inferring, which call each other; nodes are counted as they are entered."""

    def __init__(self, sheet, scope):
        self.sheet, self.scope, self.entered = sheet, list(scope), 0

    def text(self, prop):
        return model.short(model.prop_text(self.sheet, prop))

    def enter(self):
        self.entered += 1
        return self.entered - 1

    def under(self, name, prop, judge, *rest):
        self.scope.append((name, prop))
        judged = judge(*rest)
        self.scope.pop()
        return judged

    def infer(self, term):
        return self.infer_at(self.enter(), term)

    def infer_at(self, node, term):
        """The proposition of a term that has none given."""
        def stop(sentence):
            raise Stopped(node, term, sentence)

        def needs(what, head, part):
            prop = self.infer(part)
            return prop if prop.head == head else stop(f"{what}, and {self.text(prop)} is none.")

        names, parts = term.names, term.parts
        if term.form == "name":
            found = [prop for name, prop in reversed(self.scope) if name == names[0]]
            return found[0] if found else stop(f"No hypothesis {names[0]} is in scope here.")
        if term.form == "()":
            return model.Prop(model.TRUE, [], [], [])
        if term.form in ("fst", "snd"):
            prop = needs(f"{term.form} takes a conjunction apart", model.AND, parts[0])
            return prop.parts[term.form == "snd"]
        if term.form == "application":
            prop = needs("What is applied has to be an implication", model.IMPLIES, parts[0])
            self.check(parts[1], prop.parts[0])
            return prop.parts[1]
        if term.form == "ascription":
            self.check(parts[0], term.label)
            return term.label
        if term.form == "fn" and term.label is not None:
            right = self.under(names[0], term.label, self.infer, parts[0])
            return model.Prop(model.IMPLIES, [], [], [term.label, right])
        if term.form == "pair":
            return model.Prop(model.AND, [], [], [self.infer(part) for part in parts])
        if term.form == "case":
            prop = needs("The head of a case has to be a disjunction", model.OR, parts[0])
            left, right = (self.under(*bound, self.infer, part) for *bound, part in zip(names, prop.parts, parts[1:]))
            return left if left == right else stop(f"Its branches give {self.text(left)} and {self.text(right)}.")
        return stop("Nothing says here which proposition it is for: it needs a label.")

    def check(self, term, prop):
        """A form with a checked rule of its own by that alone, any other is inferred whole and then compared."""
        node, names, parts = self.enter(), term.names, term.parts
        heads = {"fn": model.IMPLIES, "pair": model.AND, "inl": model.OR, "inr": model.OR}
        if heads.get(term.form, prop.head) != prop.head:
            raise Stopped(node, term, f"It is for {CONNECTIVES[term.form]}, and asked for is {self.text(prop)}.")
        if term.form == "fn":
            if term.label not in (None, prop.parts[0]):
                label, left = self.text(term.label), self.text(prop.parts[0])
                raise Stopped(node, term, f"Its label is {label}, and the left side of {self.text(prop)} is {left}.")
            self.under(names[0], prop.parts[0], self.check, parts[0], prop.parts[1])
        elif term.form == "pair":
            for part, side in zip(parts, prop.parts):
                self.check(part, side)
        elif term.form in ("inl", "inr"):
            self.check(parts[0], prop.parts[term.form == "inr"])
        elif term.form == "case":
            head = self.infer(parts[0])
            if head.head != model.OR:
                raise Stopped(node, term, f"The head of a case has to be a disjunction, and {self.text(head)} is none.")
            for name, side, part in zip(names, head.parts, parts[1:]):
                self.under(name, side, self.check, part, prop)
        elif term.form == "abort":
            self.check(parts[0], model.Prop(model.FALSE, [], [], []))
        elif term.form != "sorry":
            inferred = self.infer_at(node, term)
            if inferred != prop:
                raise Stopped(node, term, f"It gives {self.text(inferred)}, and asked for is {self.text(prop)}.")

def has_quantifier(prop):
    """Whether a proposition has a quantifier or an uninstantiated parameter: of these alone a name has no id."""
    return len(prop.names) > 1 or any(id is None for _, id in prop.parameters) or any(map(has_quantifier, prop.parts))

def out_of_range(sheet, hypotheses, number):
    """What 31 says, a sentence each."""
    counts = len(sheet.names.entries), len(sheet.propositions.entries)
    for index, given in enumerate(hypotheses):
        if given >= counts[index % 2]:
            yield f"{('Name', 'Proposition')[index % 2]} {given} of a hypothesis is not the sheet's."
    if len(hypotheses) % 2:
        yield "The last hypothesis has no proposition."
    if number >= counts[1]:
        yield f"Proposition {number} is not the sheet's."

def uncheckable(sheet, term, scope, prop):
    """What 22 says, a sentence each."""
    for node, part in enumerate(terms.nodes(term)):
        if part.form == "let":
            yield f"Node {node} is a let."
        elif isinstance(part.label, str):
            yield f"Node {node} has the datatype {part.label} for a label."
        elif part.label and has_quantifier(part.label):
            yield f"The label of node {node} has a quantifier or a parameter without an id: {short(sheet, part.label)}."
    for name, given in scope:
        if has_quantifier(given):
            yield f"The hypothesis {name} has a quantifier or a parameter without an id: {short(sheet, given)}."
    if has_quantifier(prop):
        yield f"The proposition has a quantifier or a parameter without an id: {short(sheet, prop)}."

def short(sheet, prop):
    return model.short(model.prop_text(sheet, prop))

def judged(data, hypotheses, number, read=None):
    """None for yes, or the Stopped of a no, with the sheet, the term and the proposition; a refusal is raised. A term to read is its
    datatypes and its bytes."""
    sheet = model.admitted(data)
    counts = list(hypotheses)
    wrong = list(out_of_range(sheet, counts, number))
    props = [model.by_lowest_names(sheet, model.decode(sheet, code)) for code in sheet.propositions.entries]
    names = [terms.word(sheet, name) for name in range(len(sheet.names.entries))]
    if read:
        term = reading.read(sheet, *read)
    else:
        model.walk(sheet, len(sheet.steps) - 1)
        term = terms.exported(sheet)
    model.refuse_for(wrong, model.NUMBERS, 0)
    scope = [(names[name], props[prop]) for name, prop in zip(counts[::2], counts[1::2])]
    model.refuse_for(list(uncheckable(sheet, term, scope, props[number])), model.UNCHECKABLE, 0)
    return verdict(sheet, term, scope, props[number]), sheet, term, props[number]

def verdict(sheet, term, scope, prop):
    try:
        Checker(sheet, scope).check(term, prop)
    except Stopped as stopped:
        return stopped
    return None

def sentence(stopped, sheet, term, prop):
    """What the checker says of a term."""
    if stopped is None:
        return f"The checker takes {model.short(terms.text(sheet, term))} for {short(sheet, prop)}."
    node, part, why = stopped.args
    return f"The checker stops at node {node}, {model.short(terms.text(sheet, part))}: {why}"

def of_root(data, judge=judged):
    """What the checker says of a sheet's own term and its last step's proposition, from no hypotheses; nothing where the sheet or
    the judgement is refused, or where the last step concludes no proposition."""
    try:
        root = model.admitted(data).steps[-1]
        if root.kind != 0:
            return []
        return [sentence(*judge(data, [], root.first))]
    except model.Refused:
        return []
