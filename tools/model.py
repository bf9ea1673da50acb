"""The tool's model of document 01: how a sheet lies in its bytes, its rules, its propositions and how they are written, the refusals
in their order with a sentence on each, and the comparison of two conclusions.

It is a reading of the document by itself, beside the proved library: nothing of the one stands on the other.
"""

import functools
import re
import struct
from collections import namedtuple

# ---- The sheet of document 01

HEADER, PAIR, STEP = struct.Struct("<6H"), struct.Struct("<2H"), struct.Struct("<2B9H")
HEADER_RANGES = (("text length", 0, 8192), ("number of names", 0, 512), ("code length", 0, 8192),
                 ("number of propositions", 1, 512), ("number of steps", 1, 1024))
LAST_COLUMN = 4095
LARGEST = 65535
TRUE, FALSE, AND, OR, IMPLIES, ATOM, FORALL, EXISTS = range(8)

# What an inferring place adds: nothing, or a label from a conclusion with one of the heads, and a refusal of others.
Ending = namedtuple("Ending", "refusal heads wanted")
BARE = None
ASCRIBED = Ending(13, range(8), "that is a proposition, for the ascription")
LABELLED_BY_LEFT = Ending(14, (IMPLIES,), "X ⊃ Y, with X for the label")
LABELLED_BY_DATATYPE = Ending(15, (FORALL,), "∀x:T. X, with T for the label")

# Document 01's "Places and labels", by the numbers of the rules: how many identifiers a rule has, the places of the
# premisses that it reads, whether more premisses may follow these, unread, and its ending.
Rule = namedtuple("Rule", "name identifiers places more ending")
OWN, CHECKING, INFERRING = "own", "checking", "inferring"
RULES = (
    Rule("AndIntro", 0, (OWN, OWN), False, BARE),
    Rule("AndElimFst", 0, (INFERRING,), False, BARE),
    Rule("AndElimSnd", 0, (INFERRING,), False, BARE),
    Rule("TrueIntro", 0, (), True, BARE),
    Rule("ImplIntro", 1, (OWN,), False, LABELLED_BY_LEFT),
    Rule("ImplElim", 0, (INFERRING, CHECKING), False, BARE),
    Rule("Ident", 1, (), True, BARE),
    Rule("OrIntroFst", 0, (CHECKING,), False, ASCRIBED),
    Rule("OrIntroSnd", 0, (CHECKING,), False, ASCRIBED),
    Rule("OrElim", 2, (INFERRING, OWN, OWN), False, BARE),
    Rule("FalsumElim", 0, (CHECKING,), False, ASCRIBED),
    Rule("ForAllIntro", 1, (OWN,), False, LABELLED_BY_DATATYPE),
    Rule("ForAllElim", 0, (INFERRING, CHECKING), False, BARE),
    Rule("ExistsIntro", 0, (CHECKING, CHECKING), False, ASCRIBED),
    Rule("ExistsElim", 2, (INFERRING, OWN), False, BARE),
    Rule("Sorry", 0, (), True, ASCRIBED),
    Rule("AlphaEquivalent", 0, (OWN,), True, BARE),
)
RULE_NUMBERS = {rule.name: number for number, rule in enumerate(RULES)}
Step = namedtuple("Step", "rule count name1 id1 name2 id2 kind first second third column")

class Trouble(Exception):
    """What cannot be written, read or explained, as a sentence."""

class Part:
    """The names with their text, or the propositions with their code."""

    def __init__(self, pairs=(), content=b""):
        self.entries, self.pairs, self.content, self.first = [], [], content, {}
        for offset, length in pairs:
            self.add(content[offset:offset + length], (offset, length))

    def add(self, entry, pair=None):
        """One entry more: where the pair says, or after all bytes so far."""
        if pair is None:
            pair = (len(self.content), len(entry))
            self.content += entry
        self.first.setdefault(entry, len(self.entries))
        self.entries.append(entry)
        self.pairs.append(pair)

    def number(self, entry):
        """The lowest number of these bytes, which are added if they are new."""
        if entry not in self.first:
            self.add(entry)
        return self.first[entry]

    def get(self, number):
        return self.entries[number] if number < len(self.entries) else None

class Sheet:
    def __init__(self, names, propositions, goal, steps):
        self.names, self.propositions, self.goal, self.steps = names, propositions, goal, steps
        self.texts = {}

    @functools.cached_property
    def trees(self):
        """The premisses of each step, which takes what there is where it finds too few; the trees left at the end."""
        taken, left = [], []
        for number, step in enumerate(self.steps):
            kept = max(0, len(left) - step.count)
            taken.append(left[kept:])
            left[kept:] = [number]
        return taken, left

    @functools.cached_property
    def depths(self):
        depths = []
        for premisses in self.trees[0]:
            depths.append(1 + max([depths[number] for number in premisses], default=0))
        return depths

    def to_bytes(self):
        numbers = (len(self.names.content), len(self.names.pairs), len(self.propositions.content),
                   len(self.propositions.pairs), len(self.steps))
        for (what, _, _), value in zip(HEADER_RANGES, numbers):
            if value > LARGEST:
                raise Trouble(f"the {what} is {value}, and the header has room for {LARGEST}")
        pairs = b"".join(PAIR.pack(*pair) for pair in self.names.pairs + self.propositions.pairs)
        steps = b"".join(STEP.pack(*step) for step in self.steps)
        return HEADER.pack(*numbers, self.goal) + pairs + steps + self.names.content + self.propositions.content

def cut(data):
    """The parts of the bytes by the sizes in their header, the sum of these sizes, and the bytes past it."""
    sizes = [HEADER.size]
    if len(data) >= HEADER.size:
        text, names, code, propositions, steps, _ = HEADER.unpack_from(data)
        sizes += [PAIR.size * names, PAIR.size * propositions, STEP.size * steps, text, code]
    ends = [sum(sizes[:index + 1]) for index in range(len(sizes))]
    return [data[end - size:end] for size, end in zip(sizes, ends)], ends[-1], data[ends[-1]:]

def sheet_of(data):
    parts, size, _ = cut(data)
    if len(data) != size:
        asks = "asks for" if len(data) >= HEADER.size else "alone has"
        raise Trouble(f"{counted(len(data), 'byte')}, and the header {asks} {size}")
    header, names, propositions, steps, text, code = parts
    return Sheet(Part(PAIR.iter_unpack(names), text), Part(PAIR.iter_unpack(propositions), code),
                 HEADER.unpack(header)[5], [Step(*fields) for fields in STEP.iter_unpack(steps)])

def sheet_of_names(names):
    """A sheet that has nothing but names."""
    sheet = Sheet(Part(), Part(), 0, [])
    for name in names:
        sheet.names.add(name.encode())
    return sheet

def row(rule):
    return RULES[rule] if rule < len(RULES) else Rule(str(rule), 0, (), False, BARE)

# ---- The code of a proposition

# Its head byte, its own names, (name, id or None) for each parameter, its parts.
Prop = namedtuple("Prop", "head names parameters parts")
NAMES_OF = {ATOM: 1, FORALL: 2, EXISTS: 2}
PARTS_OF = {AND: 2, OR: 2, IMPLIES: 2, FORALL: 1, EXISTS: 1}

class Code:
    """The code of a proposition, read from left to right as refusal 7 asks."""

    def __init__(self, code, names):
        self.code, self.names, self.at = code, names, 0

    def take(self, size, what, limit=LARGEST + 1):
        value = int.from_bytes(self.code[self.at:self.at + size], "little")
        if self.at + size > len(self.code):
            raise Trouble(f"{what} is missing: the code ends after {counted(len(self.code), 'byte')}")
        if value >= limit:
            raise Trouble(f"{what} at byte {self.at} is {value}, expected a number below {limit}")
        self.at += size
        return value

    def name(self):
        return self.take(2, "the name", self.names)

    def parameter(self):
        instantiated = self.take(1, "the parameter's kind", 2)
        return self.name(), self.take(2, "the id") if instantiated else None

    def proposition(self):
        head = self.take(1, "a proposition's first byte", 8)
        names = [self.name() for _ in range(NAMES_OF.get(head, 0))]
        count = self.take(1, "the number of parameters", 9) if head == ATOM else 0
        parameters = [self.parameter() for _ in range(count)]
        return Prop(head, names, parameters, [self.proposition() for _ in range(PARTS_OF.get(head, 0))])

def decode(sheet, code):
    reader = Code(code, len(sheet.names.entries))
    prop = reader.proposition()
    if reader.at < len(code):
        raise Trouble(f"the proposition ends after {reader.at} of {len(code)} bytes")
    return prop

def nesting(prop):
    return 1 + max([nesting(part) for part in prop.parts], default=0)

# ---- Printing: the brackets of the Rust's Display, with @ and # where a word alone would not do

SYMBOLS = "⊤⊥∧∨⊃ ∀∃"
STRENGTHS = {AND: 4, OR: 3, IMPLIES: 2, FORALL: 1, EXISTS: 1}
STRONGEST = 999
WORD = re.compile(r"[A-Za-z][A-Za-z0-9_]*")
RESERVED = ("true", "false", "forall", "exists")
LONG = 100  # a proposition of more characters is called by its number

def counted(number, thing):
    return f"{number} {thing}" + ("" if number == 1 else "es" if thing.endswith("s") else "s")

def word_of(entry):
    word = entry.decode("latin-1")
    return word if WORD.fullmatch(word) else None

def name_text(sheet, number, as_atom=False):
    entry = sheet.names.get(number)
    word = word_of(entry or b"")
    if word is None:
        return f"@{number}"
    alone = sheet.names.first[entry] == number and not (as_atom and word in RESERVED)
    return word if alone else f"{word}@{number}"

def identifier_text(sheet, name, identity):
    """A name with its id, if it has one."""
    return name_text(sheet, name) + ("" if identity is None else f"#{identity}")

def strength(prop):
    negation = prop.head == IMPLIES and prop.parts[1].head == FALSE
    return STRONGEST if negation else STRENGTHS.get(prop.head, STRONGEST)

def prop_text(sheet, prop):
    if prop.head in (TRUE, FALSE):
        return SYMBOLS[prop.head]
    if prop.head == ATOM:
        parameters = ", ".join(identifier_text(sheet, *parameter) for parameter in prop.parameters)
        return name_text(sheet, prop.names[0], as_atom=True) + (f"({parameters})" if parameters else "")
    if prop.head in (FORALL, EXISTS):
        bound, datatype = (name_text(sheet, name) for name in prop.names)
        return f"{SYMBOLS[prop.head]}{bound}:{datatype}. {prop_text(sheet, prop.parts[0])}"
    own, (left, right) = strength(prop), prop.parts
    if own == STRONGEST:
        return "¬" + bracketed(sheet, left, strength(left) < own)
    # Beside a connective of its own strength, ⊃ brackets the left side, ∧ and ∨ the right one.
    left_text = bracketed(sheet, left, strength(left) < own + (prop.head == IMPLIES))
    right_text = bracketed(sheet, right, strength(right) < own + (prop.head != IMPLIES))
    return f"{left_text} {SYMBOLS[prop.head]} {right_text}"

def bracketed(sheet, prop, wanted):
    return f"({prop_text(sheet, prop)})" if wanted else prop_text(sheet, prop)

def code_text(sheet, code):
    """The proposition of a code, or None where there is none."""
    if code not in sheet.texts:
        try:
            sheet.texts[code] = prop_text(sheet, decode(sheet, code))
        except Trouble:
            sheet.texts[code] = None
    return sheet.texts[code]

def given_text(sheet, number):
    """A proposition of the sheet by its text, its number, or both where equal ones have several."""
    code = sheet.propositions.get(number)
    text = code_text(sheet, code or b"")
    if text is None or len(text) > LONG:
        return f"as {number}"
    return text if sheet.propositions.first[code] == number else f"{text} as {number}"

def conclusion_text(sheet, step):
    if step.kind == 0 and step.second == step.third == 0:
        return given_text(sheet, step.first)
    if step.kind == 1:
        return f"{identifier_text(sheet, step.first, step.second or None)} : {name_text(sheet, step.third)}"
    return f"fields {step.kind} {step.first} {step.second} {step.third}"

def column_text(column):
    """The end of a step or of a refusal, nothing where no column is to be said."""
    return "" if column is None else f" column {column}"

def rule_text(sheet, step):
    """What stands before the colon of a step."""
    fields = ((step.name1, step.id1), (step.name2, step.id2))
    shown = max([row(step.rule).identifiers] + [index for index in (1, 2) if fields[index - 1] != (0, 0)])
    identifiers = [identifier_text(sheet, name, identity or None) for name, identity in fields[:shown]]
    count = [] if step.count == len(row(step.rule).places) else [f"[{step.count}]"]
    return " ".join([row(step.rule).name] + identifiers + count)

# ---- Refusals 1 to 11: each function gives the sentences on one place of a sheet, none where nothing is wrong there

def short(text):
    return text if len(text) <= LONG else text[:LONG] + ".."

def concluded(sheet, step):
    """The code of a step's conclusion, None where that is no proposition of the sheet."""
    return sheet.propositions.get(step.first) if step.kind == 0 else None

def found_text(sheet, step):
    """A step's conclusion, in words even where a description calls it by its number."""
    return short(code_text(sheet, concluded(sheet, step) or b"") or conclusion_text(sheet, step))

def step_text(sheet, number):
    step = sheet.steps[number]
    return f"step {number} ({rule_text(sheet, step)} : {found_text(sheet, step)}{column_text(step.column or None)})"

def steps_text(sheet, numbers):
    texts = [step_text(sheet, number) for number in numbers[:4]]
    if len(numbers) > 4:
        texts.append("and so on")
    return ", ".join(texts) or "no premisses"

def about_step(sheet, place):
    return f"It is {step_text(sheet, place)}, over {steps_text(sheet, sheet.trees[0][place])}."

def explain_length(data, _):
    return [] if len(data) >= HEADER.size else explain_size(data, _)

def explain_header(data, _):
    header = HEADER.unpack_from(data)
    ranges = HEADER_RANGES + (("goal", 0, max(0, header[3] - 1)),)
    return [f"The {what} is {value}, expected {low} to {high}."
            for value, (what, low, high) in zip(header, ranges) if not low <= value <= high]

def explain_size(data, _):
    try:
        sheet_of(data)
    except Trouble as trouble:
        return [f"Found {trouble}."]
    return []

def explain_pair(part, place, what, most):
    offset, length = part.pairs[place]
    end = sum(part.pairs[place - 1]) if place else 0
    faults = ((offset < end, f"It begins before {end}, where the {what} before it ends."),
              (offset + length > len(part.content), f"It ends past the last of {len(part.content)} bytes."),
              (not 1 <= length <= most, f"Expected a length from 1 to {most}."))
    wrong = [sentence for holds, sentence in faults if holds]
    content = short(word_of(part.entries[place]) or part.entries[place].hex(" ") or "empty")
    return wrong and [f"{what.capitalize()} {place} ({content}) has offset {offset} and length {length}."] + wrong

def explain_letters(sheet, place):
    entry = sheet.names.entries[place]
    for index, byte in enumerate(entry):
        if not re.fullmatch(rb"[A-Za-z0-9_]" if index else rb"[A-Za-z]", bytes([byte])):
            wanted = "a letter, a digit or _" if index else "a letter"
            return [f"Name {place} is {str(entry)[1:]}: byte {index} is 0x{byte:02x}, expected {wanted}."]
    return []

def explain_code(sheet, place):
    code = sheet.propositions.entries[place]
    try:
        decode(sheet, code)
    except Trouble as trouble:
        return [f"Proposition {place} has the code {short(code.hex(' '))}: {trouble}."]
    return []

def explain_nesting(sheet, place):
    prop = decode(sheet, sheet.propositions.entries[place])
    depth = nesting(prop)
    return [f"Proposition {place} nests {depth} deep: {short(prop_text(sheet, prop))}"] if depth > 64 else []

def explain_fields(sheet, place):
    """Each field has to stay below a limit, which is 1 for a field that is not used."""
    step, names, used = sheet.steps[place], len(sheet.names.entries), row(sheet.steps[place].rule).identifiers
    first, first_id = (names, LARGEST + 1) if used > 0 else (1, 1)
    second, second_id = (names, LARGEST + 1) if used > 1 else (1, 1)
    fields = [("rule", step.rule, len(RULES)), ("conclusion's kind", step.kind, 2)]
    if step.rule < len(RULES):
        fields += [("first name", step.name1, first), ("first id", step.id1, first_id),
                   ("second name", step.name2, second), ("second id", step.id2, second_id)]
    if step.kind == 0:
        fields += [("proposition", step.first, len(sheet.propositions.entries)),
                   ("field after the proposition", step.second, 1), ("conclusion's last field", step.third, 1)]
    if step.kind == 1:
        fields += [("judgement's name", step.first, names), ("judgement's datatype", step.third, names)]
    fields.append(("column", step.column, LAST_COLUMN + 1))
    wrong = [f"The {what} is {value}, expected {'0' if limit == 1 else f'a number below {limit}'}."
             for what, value, limit in fields if value >= limit]
    return wrong and [about_step(sheet, place)] + wrong

def explain_trees(sheet, place):
    taken, left = sheet.trees
    asked, found = sheet.steps[place].count, len(taken[place])
    if found < asked:
        return [about_step(sheet, place), f"Expected {counted(asked, 'finished tree')} before it, found {found}."]
    if place == len(sheet.steps) - 1 and len(left) > 1:
        return [f"Expected one tree at the end, found {len(left)}, with the roots {steps_text(sheet, left)}."]
    return []

def explain_depth(sheet, place):
    depth = sheet.depths[place]
    return [about_step(sheet, place), f"Its tree nests {depth} deep."] if depth > 256 else []

# What its place counts and what it says, in the words of README.md; 1 to 11 have their function.
Refusal = namedtuple("Refusal", "where reason explain", defaults=(None,))
REFUSALS = {
    1: Refusal("0", "fewer than 12 bytes came", explain_length),
    2: Refusal("0", "a header number lies outside its range", explain_header),
    3: Refusal("0", "the byte count is not the one that the header gives", explain_size),
    4: Refusal("name", "a name's pair starts before the last one's end, ends past the text, "
               "or has a length outside 1 to 32", lambda sheet, place: explain_pair(sheet.names, place, "name", 32)),
    5: Refusal("name", "a name holds a byte that its position does not allow", explain_letters),
    6: Refusal("proposition", "a proposition's pair starts before the last one's end, ends past the code, "
               "or has length 0", lambda sheet, place: explain_pair(sheet.propositions, place, "proposition", 8192)),
    7: Refusal("proposition", "its code is not exactly one proposition over its whole length with names of the sheet",
               explain_code),
    8: Refusal("proposition", "it nests deeper than 64", explain_nesting),
    9: Refusal("step", "a rule, kind, name, proposition number or column is out of range, or an unused field is not 0",
               explain_fields),
    10: Refusal("step", "a step finds too few trees before it, or the last step leaves more than one", explain_trees),
    11: Refusal("step", "its tree nests deeper than 256", explain_depth),
    12: Refusal("step", "a visited step has the wrong premiss count"),
    13: Refusal("step", "an ascription is needed where the conclusion is a type judgement"),
    14: Refusal("step", "a function of ImplIntro needs a label and its conclusion is no implication"),
    15: Refusal("step", "a function of ForAllIntro needs a label and its conclusion is no ∀"),
    16: Refusal("0", "the lent output is shorter than the answer"),
    17: Refusal("0", "a comparison names a step that the sheet has not"),
    18: Refusal("0", "does not occur: two atoms of one name with different parameter counts are a no"),
    19: Refusal("0", "two uninstantiated parameters meet with neither bound on its side"),
    20: Refusal("0", "no term within the limits, or more than one, has the text as its strict text, "
                "or a listed datatype is no admitted name"),
    21: Refusal("0", "the version of the handout is outside 1 to 3"),
    22: Refusal("0", "the term, a hypothesis or the proposition holds a quantifier, an uninstantiated parameter, a let "
                "or a datatype label"),
    23: Refusal("0", "the given conclusion or column breaks the rules of a step"),
    24: Refusal("0", "there are already 1,024 steps or 256 levels"),
    25: Refusal("0", "the root's conclusion and the given one are not alpha equal"),
    26: Refusal("0", "the host step is no Sorry without premisses"),
    27: Refusal("0", "the conclusions of the host step and of the donor's root differ, names taken by bytes"),
    28: Refusal("0", "the merged sheet passes a limit of the sheet"),
    29: Refusal("0", "the names of an exercise are too many, repeated or malformed, or its number of connectives passes 3"),
    30: Refusal("0", "the ordinal of an exercise is past the end"),
    31: Refusal("0", "a number of the hypotheses or of the proposition is not the sheet's, or a last name has no proposition"),
}
ROOM, NEVER, UNREAD, VERSION, UNCHECKABLE, GIVEN, FULL, UNEQUAL = 16, 18, 20, 21, 22, 23, 24, 25
NO_OPEN_STEP, DIFFER, LIMIT, EXERCISE, ORDINAL, NUMBERS = 26, 27, 28, 29, 30, 31

# ---- The refusal of a sheet, in document 01's order

class Refused(Exception):
    """What document 01 answers where it refuses: the number, the place and the sentences on it."""

    def __init__(self, number, place, sentences):
        super().__init__(number, place)
        self.number, self.place, self.sentences = number, place, sentences
        self.whose = None  # of a graft: the host or the donor, where it is the refusal of one of them

    def column(self, data):
        """The column of the step that is named, as its bytes stand; None where no step is named."""
        return sheet_of(data).steps[self.place].column if REFUSALS[self.number].where == "step" else None

    def said(self, data):
        where, reason, _ = REFUSALS[self.number]
        place = "0" if where == "0" else f"{where} {self.place}"
        return f"refused {self.number} at {place}{column_text(self.column(data))}: {reason}"

    def in_a_line(self, data):
        """What it says with its sentences, and whose it is."""
        return " ".join([(f"{self.whose} is " if self.whose else "") + f"{self.said(data)}."] + self.sentences)

def refuse_for(sentences, number, place):
    if sentences:
        raise Refused(number, place, sentences)

def explained(refused, data):
    return "\n".join([f"R{refused.said(data)[1:]}."] + refused.sentences) + "\n"

def admitted(data):
    """The sheet, or its refusal of 1 to 11: the first number, and under it the lowest place."""
    for number in (1, 2, 3):
        refuse_for(REFUSALS[number].explain(data, 0), number, 0)
    sheet = sheet_of(data)
    sizes = {"name": len(sheet.names.pairs), "proposition": len(sheet.propositions.pairs), "step": len(sheet.steps)}
    for number in range(4, 12):
        where, _, explain_place = REFUSALS[number]
        for place in range(sizes[where]):
            refuse_for(explain_place(sheet, place), number, place)
    return sheet

def walk(sheet, number, origin=None):
    """Refusals 12 to 15 of a step: its count on entering, its premisses in order, its conclusion last.

    In an inferring place the origin is the step that put a premiss there, and that premiss.
    """
    rule, count = row(sheet.steps[number].rule), sheet.steps[number].count
    needed = len(rule.places)
    if count < needed or count > needed and not rule.more:
        wanted = counted(needed, "premiss") + (" or more" if rule.more else "")
        raise Refused(12, number, [about_step(sheet, number), f"Expected {wanted}, found {count}."])
    for premiss, place in zip(sheet.trees[0][number], rule.places):
        walk(sheet, premiss, {OWN: origin, CHECKING: None, INFERRING: (number, premiss)}[place])
    if origin and rule.ending:
        refuse_for(explain_label(sheet, number, rule.ending, *origin), rule.ending.refusal, number)

def explain_label(sheet, number, ending, origin, through):
    code = concluded(sheet, sheet.steps[number])
    if code and code[0] in ending.heads:
        return []
    passed = "" if through == number else f", and the place is passed down to step {number}"
    return [about_step(sheet, number),
            f"It stands in an inferring place: {step_text(sheet, origin)} puts step {through} there{passed}.",
            f"Expected a conclusion {ending.wanted}; found {found_text(sheet, sheet.steps[number])}."]

def compared(sheet, *numbers):
    """Whether the conclusions of two steps are equal up to the names of bound objects, or refusal 17 or 19."""
    present = [number < len(sheet.steps) for number in numbers]
    texts = [step_text(sheet, number) if there else f"step {number}" for number, there in zip(numbers, present)]
    about = f"Compared are {' and '.join(texts)}."
    if not all(present):
        raise Refused(17, 0, [about, f"The sheet has the steps 0 to {len(sheet.steps) - 1}."])
    steps = [sheet.steps[number] for number in numbers]
    if steps[0].kind != steps[1].kind:
        return False
    if steps[0].kind == 1:
        (x, i, t), (y, j, u) = ((step.first, step.second, step.third) for step in steps)
        return same_name(sheet, x, y) and i == j and same_name(sheet, t, u)
    try:
        return alpha_equal(sheet, *(decode(sheet, concluded(sheet, step)) for step in steps), ())
    except Refused as refused:
        refused.sentences.insert(0, about)
        raise

def same_name(sheet, left, right):
    return sheet.names.entries[left] == sheet.names.entries[right]

def by_lowest_names(sheet, prop):
    """A proposition with the lowest number of each name: two are the same just where shape, name bytes and ids are equal."""
    def lowest(name):
        return sheet.names.first[sheet.names.entries[name]]

    return Prop(prop.head, [lowest(name) for name in prop.names], [(lowest(name), identity) for name, identity in prop.parameters],
                [by_lowest_names(sheet, part) for part in prop.parts])

def alpha_equal(sheet, left, right, bindings):
    """Two propositions from left to right as far as the first no, under bound objects in pairs, the latest first."""
    # The last name is the atom's, or the quantifier's datatype.
    if left.head != right.head or left.names and not same_name(sheet, left.names[-1], right.names[-1]):
        return False
    if left.head == ATOM:
        if len(left.parameters) != len(right.parameters):
            return False
        texts = [prop_text(sheet, atom) for atom in (left, right)]
        return all(parameters_equal(sheet, *pair, bindings, texts) for pair in zip(left.parameters, right.parameters))
    if left.head in (FORALL, EXISTS):
        bindings = ((left.names[0], right.names[0]),) + bindings
    return all(alpha_equal(sheet, *parts, bindings) for parts in zip(left.parts, right.parts))

def parameters_equal(sheet, left, right, bindings, texts):
    """Uninstantiated ones by the latest binding that has either, instantiated ones by name and id."""
    (x, i), (y, j) = left, right
    if i is not None or j is not None:
        return i == j and same_name(sheet, x, y)
    for bound_left, bound_right in bindings:
        found = same_name(sheet, bound_left, x), same_name(sheet, bound_right, y)
        if any(found):
            return all(found)
    raise Refused(19, 0, [f"{name_text(sheet, x)} of {texts[0]} meets {name_text(sheet, y)} of {texts[1]}, "
                          "and no quantifier over these binds either."])
