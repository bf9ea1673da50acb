"""What `tools/sheet show` draws: the steps of a sheet with their places, labels and refusal."""

import re
import shutil
import sys

import deduction
import model

PAGE = 100  # cells across, where no terminal says another number
NARROWEST = 20
SHARE = 0.4  # a proposition that takes more of the width than this is called by its number and stands below
INFERRING = "⇒"

def places(sheet):
    """The place of each step that is read, from the root down: checking or inferring, by step."""
    found, waiting = {}, [(len(sheet.steps) - 1, model.CHECKING)]
    while waiting:
        number, place = waiting.pop()
        found[number] = place
        rule = model.row(sheet.steps[number].rule)
        waiting += [(premiss, place if asked == model.OWN else asked)
                    for premiss, asked in zip(sheet.trees[0][number], rule.places)]
    return found

def label(sheet, step):
    """The label that a step takes in an inferring place, None where it takes none."""
    ending, code = model.row(step.rule).ending, model.concluded(sheet, step)
    if not ending or not code or code[0] not in ending.heads:
        return None
    prop = model.decode(sheet, code)
    if ending is model.LABELLED_BY_DATATYPE:
        return model.name_text(sheet, prop.names[1])
    return model.prop_text(sheet, prop.parts[0] if ending is model.LABELLED_BY_LEFT else prop)

def cut(text, length):
    return text if len(text) <= length else text[:max(length - 2, 0)] + ".."

class Drawing:
    """The steps of a sheet as they are drawn, and the notes below them."""

    def __init__(self, data, marked, numbered, width):
        self.sheet, self.width = model.sheet_of(data), width
        self.marked, self.numbered, self.long, self.cut = marked, numbered, {}, {}
        self.refused, self.places = None, {}
        try:
            model.admitted(data)
            self.places = places(self.sheet)
            model.walk(self.sheet, len(self.sheet.steps) - 1)
        except model.Refused as refused:
            self.refused = refused
        self.steps = [self.step(number) for number in range(len(self.sheet.steps))]
        self.notes = list(self.notes_of(data))

    def called(self, number, text):
        """The text of a proposition, or its number where the text is too long to stand in a tree."""
        if len(text) <= SHARE * self.width:
            return text
        self.long[number] = text
        return f"proposition {number}"

    def conclusion(self, number):
        step = self.sheet.steps[number]
        text = model.code_text(self.sheet, model.concluded(self.sheet, step) or b"")
        if text:
            return self.called(step.first, text)
        judgement = model.conclusion_text(self.sheet, step)
        if len(judgement) > SHARE * self.width:
            self.cut.setdefault(number, []).append(f"concludes {judgement}")
        return cut(judgement, int(SHARE * self.width))

    def step(self, number):
        conclusion = self.conclusion(number)
        room = min(self.width // 2, self.width - len(conclusion) - 4)
        return deduction.Step(number, conclusion, self.beside(number, room), self.sheet.trees[0][number])

    def beside(self, number, room):
        """The rule with its identifiers, the mark of an inferring place, and the label or the refusal. What does not fit the
        room is cut, and stands whole below."""
        step, marks = self.sheet.steps[number], []
        inferring = self.places.get(number) == model.INFERRING
        own = label(self.sheet, step) if inferring else None
        if inferring and self.marked:
            marks.append(("place", INFERRING))
        if self.refused and model.REFUSALS[self.refused.number].where == "step" and self.refused.place == number:
            marks.append(("refused", f"✗ refused {self.refused.number} at column {step.column}"))
        elif own:
            marks.append(("label", f"label {own}"))
        rule = model.rule_text(self.sheet, step)
        whole = [("rule", f"{number}. {rule}" if self.numbered else rule)] + marks
        if sum(len(text) + deduction.BESIDE for _, text in whole) <= room:
            return whole
        self.cut.setdefault(number, []).extend([rule] + [text for style, text in marks if style == "label"])
        marks = [(style, cut(text, room // 2) if style == "label" else text) for style, text in marks]
        left = room - sum(len(text) + deduction.BESIDE for _, text in marks)
        least = len(f"{number}. {model.row(step.rule).name}..")
        return [("rule", cut(f"{number}. {rule}", max(left, least)))] + marks

    def reaches_goal(self):
        """Whether the last step of an admitted sheet concludes the goal."""
        codes = self.sheet.propositions.entries[self.sheet.goal], model.concluded(self.sheet, self.sheet.steps[-1])
        goal, root = (code and model.by_lowest_names(self.sheet, model.decode(self.sheet, code)) for code in codes)
        return goal == root

    def notes_of(self, data):
        sheet = self.sheet
        if self.marked:
            yield "note", (f"{INFERRING} stands at each step in an inferring place." if self.places else
                           "The sheet is refused before any place is looked at.")
        if self.places and not self.reaches_goal():
            goal = model.code_text(sheet, sheet.propositions.entries[sheet.goal])
            yield "note", f"The goal is another proposition than the last step's: {self.called(sheet.goal, goal)}."
        for number, text in sorted(self.long.items()):
            yield "note", f"proposition {number}: {text}"
        for number, texts in sorted(self.cut.items()):
            yield "note", f"step {number}: {', '.join(texts)}"
        if self.refused:
            yield "refused", model.explained(self.refused, data).rstrip("\n")

def items_of(data, marked, numbered, width):
    """What is drawn of a sheet, and its title. Of one whose header does not fit its bytes there are only the words."""
    try:
        for number in (1, 2, 3):
            model.refuse_for(model.REFUSALS[number].explain(data, 0), number, 0)
    except model.Refused as refused:
        return deduction.drawing([], [], [("refused", model.explained(refused, data).rstrip("\n"))], width), "No drawing"
    drawn = Drawing(data, marked, numbered, width)
    title = f"A deduction of {drawn.steps[-1].conclusion}"
    return deduction.drawing(drawn.steps, drawn.sheet.trees[1], drawn.notes, width), title

def options(words):
    """The file, and which options are given; the width, where that is one of them."""
    files, given, waiting = [], {}, list(words)
    while waiting:
        word = waiting.pop(0)
        if word == "--width" and waiting and re.fullmatch("[0-9]{1,4}", waiting[0]):
            given[word] = int(waiting.pop(0))
        elif word in ("--svg", "--places", "--steps"):
            given[word] = True
        else:
            files.append(word)
    if len(files) != 1 or files[0].startswith("--"):
        raise model.Trouble("expected a file, and of --svg, --places, --steps and --width N what is wanted")
    return files[0], given

def shown(data, given):
    """The output of `show`, from a sheet and the options."""
    terminal = not given.get("--svg") and sys.stdout and sys.stdout.isatty()
    width = shutil.get_terminal_size((PAGE, 0)).columns if terminal else PAGE
    items, title = items_of(data, given.get("--places"), given.get("--steps"), max(given.get("--width", width), NARROWEST))
    return deduction.svg(items, title) if given.get("--svg") else deduction.text(items)
