"""The notation: the text form of a sheet, a description, written from bytes and read into them.

A description has one entry to a line. Blank lines and lines that begin with # are skipped.

    goal A ⊃ A ∨ B
    step Ident u             : A
    step OrIntroFst          : A ∨ B
    step ImplIntro u         : A ⊃ A ∨ B

  goal GIVEN                                    the goal
  step RULE IDENTIFIER.. [COUNT] : CONCLUSION   a step; its premisses stand before it
  name WORD                                     the next name, used or not, new or a repeat
  proposition PROP                              the next proposition, likewise
  text HEX, code HEX                            bytes of no name, of no proposition

  CONCLUSION  GIVEN  |  IDENTIFIER : NAME (a type judgement)  |  fields KIND NUMBER NUMBER NUMBER
  GIVEN       PROP  |  PROP as NUMBER  |  as NUMBER
  PROP        ⊤  ⊥  P  P(PARAMETER, ..)  (A)  ¬A  A ∧ B  A ∨ B  A ⊃ B  ∀x:T. A  ∃x:T. A, strongest first;
              ∧ and ∨ group to the left, ⊃ to the right, and a quantifier reaches as far as it can;
              in ASCII: true false ~ /\\ \\/ -> forall x:T. exists x:T.
  PARAMETER   NAME (uninstantiated)  |  NAME#ID (instantiated)
  IDENTIFIER  NAME (its id is 0)  |  NAME#ID
  NAME        WORD  |  WORD@NUMBER  |  @NUMBER
  WORD        an ASCII letter, then letters, digits or _
  HEX         0x and two digits for each byte

RULE is a word such as ImplIntro, or a number. ImplIntro, Ident and ForAllIntro have one identifier, OrElim and
ExistsElim two; one more than the rule has fills fields that should be 0. COUNT, in its square brackets, is how
many premisses the step takes, where that is not the rule's usual number. A step may end in `column NUMBER`, the
grid column in which it was drawn; without it the column is 0.

Names and propositions are numbered by first use, from the top, and equal ones share a number. A name or
proposition line takes the next number in any case, so these lines come first. WORD@NUMBER and PROP as NUMBER
choose one of several equal ones; @NUMBER and as NUMBER may also say a number that the sheet has not. An atom
called true, false, forall or exists is written with its number. HEX may stand for the WORD of a name line and
for the PROP of a proposition line. Both lines may end in `at OFFSET length LENGTH`: the entry then adds no
bytes of its own and points at those.
"""

import re
import struct

from model import (AND, ATOM, EXISTS, FALSE, FORALL, HEADER, IMPLIES, LARGEST, OR, Part, RULE_NUMBERS, STRENGTHS, Sheet, Step, TRUE,
                   Trouble, WORD, code_text, column_text, conclusion_text, counted, cut, given_text, row, rule_text, sheet_of,
                   short, word_of)

DUMPED = 256  # so many bytes of a part are shown in hex

# ---- Writing a description

def entry_lines(part, keyword, loose, text):
    """A line for each entry, and one for each stretch of bytes before, between and after them."""
    def stretch(start, end):
        return [f"{loose} 0x{part.content[start:end].hex()}"] if start < end else []

    lines, at = [], 0
    for entry, (offset, length) in zip(part.entries, part.pairs):
        line = f"{keyword} {text(entry) or '0x' + entry.hex()}"
        if offset < at or offset + length > len(part.content):
            lines.append(f"{line} at {offset} length {length}")
        else:
            lines += stretch(at, offset) + [line]
            at = offset + length
    return lines + stretch(at, len(part.content))

def description(sheet, names, propositions):
    """The description of a sheet, with a line for each name and for each proposition if so asked."""
    lines = entry_lines(sheet.names, "name", "text", word_of) if names else []
    if propositions:
        lines += entry_lines(sheet.propositions, "proposition", "code", lambda code: code_text(sheet, code))
    lines.append(f"goal {given_text(sheet, sheet.goal)}")
    rules = [rule_text(sheet, step) for step in sheet.steps]
    width = min(40, max(map(len, rules), default=0))
    lines += [f"step {rule:{width}} : {conclusion_text(sheet, step)}{column_text(step.column or None)}"
              for rule, step in zip(rules, sheet.steps)]
    return "\n".join(lines) + "\n"

def read(data):
    """The shortest description that gives these bytes again."""
    try:
        sheet = sheet_of(data)
    except Trouble as trouble:
        raise Trouble(f"{trouble}\n{dump(data)}".rstrip()) from None
    for names, propositions in ((False, False), (True, False), (False, True), (True, True)):
        text = description(sheet, names, propositions)
        try:
            if write(text) == data:
                return text
        except Trouble:
            continue
    raise Trouble(f"no description gives these bytes\n{dump(data)}".rstrip())

def dump(data):
    """The bytes in hex, by parts, sixteen to a line, and of each part the first ones."""
    parts, _, rest = cut(data)
    labels = ("header", "name pairs", "proposition pairs", "steps", "text", "code")
    lines = []
    for label, part in [*zip(labels, parts), ("after the last part", rest)]:
        shown = part[:DUMPED]
        lines.append(f"{label}: {counted(len(part), 'byte')}" + (f", the first {DUMPED}" if part != shown else ""))
        lines += ["    " + shown[at:at + 16].hex(" ") for at in range(0, len(shown), 16)]
    return "\n".join(lines) + "\n"

# ---- Reading a description

TOKEN = re.compile(r"\s*(0x(?:[0-9A-Fa-f]{2})*|[0-9]{1,9}|[A-Za-z][A-Za-z0-9_]*|->|/\\|\\/|\S|$)")
NAME = re.compile(r"\s*([A-Za-z][A-Za-z0-9_]*)?(?:@([0-9]{1,9}))?")
JUDGEMENT = re.compile(NAME.pattern + r"\s*(#\s*[0-9]+)?\s*:")
NUMBERED_WORD = re.compile(r"\s*[A-Za-z][A-Za-z0-9_]*@")
AS_NUMBER, FIELDS = re.compile(r"\s*as\s+[0-9]"), re.compile(r"\s*fields\s+[0-9]")
BINARY = {"∧": AND, "/\\": AND, "∨": OR, "\\/": OR, "⊃": IMPLIES, "->": IMPLIES}
LEAVES = {"⊤": TRUE, "true": TRUE, "⊥": FALSE, "false": FALSE}
QUANTIFIERS = {"∀": FORALL, "forall": FORALL, "∃": EXISTS, "exists": EXISTS}

def fitting(what, value, most=LARGEST):
    if value > most:
        raise Trouble(f"{what} is {value}, and the sheet has room for {most}")
    return value

class Line:
    """A line of a description, read from left to right into the sheet in the making; propositions become code."""

    def __init__(self, text, sheet):
        self.text, self.sheet, self.at = text, sheet, 0

    def peek(self):
        return TOKEN.match(self.text, self.at).group(1)

    def take(self):
        match = TOKEN.match(self.text, self.at)
        self.at = match.end()
        return match.group(1)

    def follows(self, pattern):
        return pattern.match(self.text, self.at) is not None

    def accept(self, *tokens):
        return self.take() if self.peek() in tokens else None

    def expect(self, token, where):
        if not self.accept(token):
            raise self.unexpected(f"{token} {where}")

    def unexpected(self, wanted):
        return Trouble(f"expected {wanted}, found {short(self.peek()) or 'the end of the line'}")

    def number(self, what, most=LARGEST):
        if not re.fullmatch("[0-9]+", self.peek()):
            raise self.unexpected(f"{what}, a number")
        return fitting(what, int(self.take()), most)

    def hex(self):
        if not self.peek().startswith("0x"):
            raise self.unexpected("0x and two digits for each byte")
        return bytes.fromhex(self.take()[2:])

    def name(self, what="a name"):
        match = NAME.match(self.text, self.at)
        word, number = match.groups()
        if word is None and number is None:
            raise self.unexpected(what)
        self.at = match.end()
        if number is None:
            return self.sheet.names.number(word.encode())
        number = fitting("a name's number", int(number))
        if word is not None and self.sheet.names.get(number) != word.encode():
            raise Trouble(f"name {number} is not {word}, which a name line before this one has to say")
        return number

    def identifier(self):
        return [self.name(), self.number("an id") if self.accept("#") else 0]

    def proposition(self, weakest=STRENGTHS[IMPLIES]):
        left = self.operand()
        while STRENGTHS.get(BINARY.get(self.peek()), 0) >= weakest:
            head = BINARY[self.take()]
            left = bytes([head]) + left + self.proposition(STRENGTHS[head] + (head != IMPLIES))
        return left

    def operand(self):
        if self.follows(NUMBERED_WORD):
            return self.atom()
        if self.accept("¬", "~"):
            return bytes([IMPLIES]) + self.operand() + bytes([FALSE])
        if self.accept("("):
            inner = self.proposition()
            self.expect(")", "after a proposition in brackets")
            return inner
        if self.peek() in LEAVES:
            return bytes([LEAVES[self.take()]])
        return self.quantified() if self.peek() in QUANTIFIERS else self.atom()

    def quantified(self):
        head = QUANTIFIERS[self.take()]
        bound = self.name("the quantifier's object")
        self.expect(":", "after the quantifier's object")
        datatype = self.name("a datatype")
        self.expect(".", "after the datatype")
        return struct.pack("<BHH", head, bound, datatype) + self.proposition()

    def atom(self):
        name, parameters = self.name("a proposition"), []
        if self.accept("("):
            parameters.append(self.parameter())
            while self.accept(","):
                parameters.append(self.parameter())
            self.expect(")", "after the parameters")
        count = fitting("the number of parameters", len(parameters), 255)
        return struct.pack("<BHB", ATOM, name, count) + b"".join(parameters)

    def parameter(self):
        name = self.name("a parameter")
        return struct.pack("<BHH", 1, name, self.number("an id")) if self.accept("#") else struct.pack("<BH", 0, name)

    def given(self):
        """The number of a proposition that is given by its text, its number or both."""
        if self.follows(AS_NUMBER):
            self.take()
            return self.number("a proposition's number")
        code = self.proposition()
        if not self.accept("as"):
            return self.sheet.propositions.number(code)
        number = self.number("a proposition's number")
        if self.sheet.propositions.get(number) != code:
            raise Trouble(f"proposition {number} is another one; a proposition line before this one has to say it")
        return number

    def conclusion(self):
        """The conclusion's kind and its three numbers."""
        if self.follows(FIELDS):
            self.take()
            return [self.number("a field") for _ in range(4)]
        if self.follows(JUDGEMENT):
            identifier = self.identifier()
            self.expect(":", "after the judgement's object")
            return [1] + identifier + [self.name("a datatype")]
        return [0, self.given(), 0, 0]

    def pair(self):
        """Where an entry lies, if the line says it."""
        if not self.accept("at"):
            return None
        offset = self.number("the offset")
        self.expect("length", "after the offset")
        return offset, self.number("the length")

    def rule(self):
        if re.fullmatch("[0-9]+", self.peek()):
            return self.number("the rule", 255)
        if self.peek() not in RULE_NUMBERS:
            raise self.unexpected("a rule (" + ", ".join(RULE_NUMBERS) + ")")
        return RULE_NUMBERS[self.take()]

def goal_line(line):
    if line.sheet.goal is not None:
        raise Trouble("this is a second goal")
    line.sheet.goal = line.given()

def step_line(line):
    rule, identifiers = line.rule(), []
    name, needed, usual, *_ = row(rule)
    while len(identifiers) < 4 and line.peek() not in ("[", ":", ""):
        identifiers += line.identifier()
    if len(identifiers) < 2 * needed:
        raise Trouble(f"{name} has {counted(needed, 'identifier')}, found {len(identifiers) // 2}")
    count = len(usual)
    if line.accept("["):
        count = line.number("the number of premisses", 255)
        line.expect("]", "after the number of premisses")
    line.expect(":", "before the conclusion")
    fields = identifiers + [0] * (4 - len(identifiers)) + line.conclusion()
    column = line.number("the column") if line.accept("column") else 0
    line.sheet.steps.append(Step(rule, count, *fields, column))

def name_line(line):
    entry = line.take().encode() if WORD.fullmatch(line.peek()) else line.hex()
    line.sheet.names.add(entry, line.pair())

def proposition_line(line):
    code = line.hex() if line.peek().startswith("0x") else line.proposition()
    line.sheet.propositions.add(code, line.pair())

def text_line(line):
    line.sheet.names.content += line.hex()

def code_line(line):
    line.sheet.propositions.content += line.hex()

LINES = {"goal": goal_line, "step": step_line, "name": name_line, "proposition": proposition_line,
         "text": text_line, "code": code_line}

def write(text):
    """The bytes of a description."""
    sheet = Sheet(Part(), Part(), None, [])
    for number, content in enumerate(text.split("\n"), 1):
        line = Line(content, sheet)
        if line.peek() in ("", "#"):
            continue
        try:
            if line.peek() not in LINES:
                raise line.unexpected("one of " + ", ".join(LINES))
            LINES[line.take()](line)
            if line.peek():
                raise line.unexpected("the end of the line")
        except Trouble as trouble:
            raise Trouble(f"line {number}: {trouble}") from None
    if sheet.goal is None:
        raise Trouble("there is no goal line")
    return sheet.to_bytes()

def bytes_of(data):
    """The sheet of a description, or the sheet itself.

    A header in its ranges has a byte below 9, as the upper one of the number of names, and a description has none.
    """
    try:
        described = data and min(data[:HEADER.size]) >= 9 and data.decode()
    except UnicodeDecodeError:
        return data
    return write(described) if described else data
