"""What `tools/sheet check` says: whether a drawing is sound by document 01's "Sound steps", and if not, which step breaks
which rule and why, in a teacher's words.

Propositions are held by their lowest names, so that the same ones are those that document 01 calls equal.
"""

from collections import namedtuple

import model

QUANTIFIED = ("ForAllIntro", "ForAllElim", "ExistsIntro", "ExistsElim")
COUNTS = ("no premiss", "one premiss", "two premisses", "three premisses")

# A hypothesis in scope: name bytes, id, the step that adds it, and its proposition, None where that step is wrong.
Hypothesis = namedtuple("Hypothesis", "name id step prop")

class Judge:
    """The faults of a sheet that is accepted by 1 to 11 and has no quantifiers: step and sentence of each."""

    def __init__(self, sheet):
        self.sheet, self.faults = sheet, []
        self.props = [model.by_lowest_names(sheet, model.decode(sheet, code)) for code in sheet.propositions.entries]
        waiting = [(len(sheet.steps) - 1, ())]
        while waiting:
            number, scope = waiting.pop()
            waiting += zip(sheet.trees[0][number], self.scopes(number, scope))
            self.faults += [(number, sentence) for sentence in self.broken(number, scope) if sentence]

    def text(self, prop):
        return model.short(model.prop_text(self.sheet, prop))

    def concluded(self, number):
        return self.props[self.sheet.steps[number].first]

    def identifier(self, number, index):
        """The name and the id of a step's first or second identifier."""
        step = self.sheet.steps[number]
        return (step.name1, step.id1) if index == 0 else (step.name2, step.id2)

    def added(self, number):
        """What a step adds over each of its premisses: None, or the index of an identifier and its proposition, if it has one."""
        step, premisses = self.sheet.steps[number], self.sheet.trees[0][number]
        if model.row(step.rule).name == "ImplIntro":
            own = self.concluded(number)
            return [(0, own.parts[0] if own.head == model.IMPLIES else None)] * len(premisses)
        if model.row(step.rule).name == "OrElim" and len(premisses) == 3:
            first = self.concluded(premisses[0])
            return [None] + [(index, first.parts[index] if first.head == model.OR else None) for index in (0, 1)]
        return [None] * len(premisses)

    def scopes(self, number, scope):
        """The hypotheses over each premiss of a step, the latest first."""
        for added in self.added(number):
            if added is None:
                yield scope
            else:
                name, id = self.identifier(number, added[0])
                yield (Hypothesis(self.sheet.names.entries[name], id, number, added[1]),) + scope

    def broken(self, number, scope):
        """Sentences on what is wrong with a step, or None in their place."""
        step, premisses = self.sheet.steps[number], self.sheet.trees[0][number]
        rule = model.row(step.rule)
        if len(premisses) != len(rule.places):
            yield f"{rule.name} stands over {COUNTS[len(rule.places)]}, and here are {len(premisses)}."
            return
        yield getattr(self, rule.name)(number, self.concluded(number), *map(self.concluded, premisses), scope=scope)
        for index, _ in filter(None, self.added(number)):
            yield self.taken(self.identifier(number, index)[0], scope)

    def taken(self, name, scope):
        """The sentence on a hypothesis whose name one in scope has already."""
        for hypothesis in scope:
            if hypothesis.name == self.sheet.names.entries[name]:
                return (f"It adds a hypothesis {model.name_text(self.sheet, name)}, and step {hypothesis.step} has added one "
                        "of that name, which is in scope here: take another name.")
        return None

    def unlike(self, given, gives, own):
        """The sentence on a step that concludes something else than what its rule gives."""
        if gives == own:
            return None
        return f"From {' and '.join(map(self.text, given))} it gives {self.text(gives)}, not {self.text(own)}."

    def no_form(self, what, prop, word):
        return f"{what} has to be {word}, and {self.text(prop)} is none."

    # The rules without quantifiers, each by its name: a sentence on what is wrong, or None.

    def AndIntro(self, _, own, left, right, scope):
        return self.unlike((left, right), model.Prop(model.AND, [], [], [left, right]), own)

    def AndElimFst(self, _, own, premiss, scope, side=0):
        if premiss.head != model.AND:
            return self.no_form("Its premiss", premiss, "a conjunction")
        return self.unlike((premiss,), premiss.parts[side], own)

    def AndElimSnd(self, number, own, premiss, scope):
        return self.AndElimFst(number, own, premiss, scope, side=1)

    def TrueIntro(self, _, own, scope):
        return None if own.head == model.TRUE else f"It gives ⊤, not {self.text(own)}."

    def ImplIntro(self, number, own, premiss, scope):
        if own.head != model.IMPLIES:
            return self.no_form("What it concludes", own, "an implication")
        if own.parts[1] == premiss:
            return None
        return f"The right side of {self.text(own)} is {self.text(own.parts[1])}, and its premiss concludes {self.text(premiss)}."

    def ImplElim(self, _, own, first, second, scope):
        if first.head != model.IMPLIES:
            turned = second.head == model.IMPLIES and second.parts[0] == first
            return self.no_form("Its first premiss", first, "an implication") + \
                (" The second one is it: the two stand the wrong way round." if turned else "")
        if first.parts[0] != second:
            return f"{self.text(first)} asks for {self.text(first.parts[0])}, and its second premiss concludes {self.text(second)}."
        return self.unlike((first, second), first.parts[1], own)

    def Ident(self, number, own, scope):
        name, id = self.identifier(number, 0)
        word = model.name_text(self.sheet, name)
        named = [hypothesis for hypothesis in scope if hypothesis.name == self.sheet.names.entries[name]]
        same = [hypothesis for hypothesis in named if hypothesis.id == id]
        if not named:
            return f"No hypothesis {word} is in scope here."
        if not same:
            return f"The hypothesis {word} in scope, of step {named[0].step}, has the id {named[0].id}, not {id}."
        if any(hypothesis.prop is None or hypothesis.prop == own for hypothesis in same):
            return None
        return f"The hypothesis {word} is {self.text(same[0].prop)} here, by step {same[0].step}, not {self.text(own)}."

    def OrIntroFst(self, _, own, premiss, scope, side=0):
        if own.head != model.OR:
            return self.no_form("What it concludes", own, "a disjunction")
        if own.parts[side] == premiss:
            return None
        other = " That is its other side." if own.parts[1 - side] == premiss else ""
        return (f"The {('left', 'right')[side]} side of {self.text(own)} is {self.text(own.parts[side])}, and its premiss concludes "
                f"{self.text(premiss)}.{other}")

    def OrIntroSnd(self, number, own, premiss, scope):
        return self.OrIntroFst(number, own, premiss, scope, side=1)

    def OrElim(self, _, own, first, second, third, scope):
        if first.head != model.OR:
            return self.no_form("Its first premiss", first, "a disjunction")
        for word, case in (("second", second), ("third", third)):
            if case != own:
                return (f"Both cases have to conclude {self.text(own)}, as it does, and its {word} premiss concludes "
                        f"{self.text(case)}.")
        return None

    def FalsumElim(self, _, own, premiss, scope):
        return None if premiss.head == model.FALSE else f"Its premiss has to conclude ⊥, not {self.text(premiss)}."

    def Sorry(self, _, own, scope):
        return None

    def AlphaEquivalent(self, _, own, premiss, scope):
        if own == premiss:
            return None
        return f"Its premiss concludes {self.text(premiss)}, and without quantifiers only that is equivalent to it."

def outside(sheet):
    """What of a sheet lies outside document 01's "Sound, without quantifiers", a sentence each."""
    for number, step in enumerate(sheet.steps):
        if model.row(step.rule).name in QUANTIFIED:
            yield f"Step {number} is of a rule for quantifiers: {model.rule_text(sheet, step)}."
        if step.kind != 0:
            yield f"Step {number} concludes a judgement and no proposition: {model.conclusion_text(sheet, step)}."
    for number, code in enumerate(sheet.propositions.entries):
        prop = model.decode(sheet, code)
        if has(prop, lambda part: part.head in (model.FORALL, model.EXISTS)):
            yield f"Proposition {number} has a quantifier: {model.short(model.prop_text(sheet, prop))}."
        elif has(prop, lambda part: any(id is None for _, id in part.parameters)):
            yield f"Proposition {number} has a parameter without an id: {model.short(model.prop_text(sheet, prop))}."

def has(prop, test):
    return test(prop) or any(has(part, test) for part in prop.parts)

def judged(data):
    """Whether the sheet is sound, and the sentences on it."""
    try:
        sheet = model.admitted(data)
    except model.Refused as refused:
        return False, ["Not sound: the sheet is refused.", *model.explained(refused, data).rstrip("\n").split("\n")]
    beyond = list(outside(sheet))
    if beyond:
        return False, ["Not judged: document 01 says what is sound for drawings without quantifiers.", *beyond]
    judge = Judge(sheet)
    root = judge.concluded(len(sheet.steps) - 1)
    if not judge.faults:
        sentences = [f"Sound: a deduction of {judge.text(root)} from no hypotheses."]
        gaps = [number for number, step in enumerate(sheet.steps) if model.row(step.rule).name == "Sorry"]
        if gaps:
            sentences.append(f"Left open by Sorry: {model.steps_text(sheet, gaps)}.")
    else:
        wrong = len({number for number, _ in judge.faults})
        sentences = [f"Not sound: {model.counted(wrong, 'step')} {'breaks its rule' if wrong == 1 else 'break their rules'}."]
        for number, sentence in sorted(judge.faults):
            text = model.step_text(sheet, number)
            sentences.append(f"S{text[1:]}: {sentence}")
    goal = judge.props[sheet.goal]
    if goal != root:
        sentences.append(f"The goal is another proposition than the last step's: {judge.text(goal)}.")
    return not judge.faults, sentences
