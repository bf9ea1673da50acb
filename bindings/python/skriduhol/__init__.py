"""The proved library behind proof boards: a sheet's text, its lists, their lengths, its label count, the comparison of two conclusions,
the judgement of its term, restated conclusions, grafts of one sheet into another, terms that are read from their strict text,
exercises, and the index of a sheet's names.

Every function answers for any bytes, and raises `Refused` where the library refuses. A text or list is as long as it has to be;
given a room, a longer one is refused with 16, as the library does. Functions may be called from several threads at once.

The shared library is the one that the environment variable SKRIDUHOL_LIB names, a file or the folder that it stands in; without it
the repository's, where `tools/install target/install` writes it, or else the system's.
"""

from __future__ import annotations

import ctypes
import ctypes.util
import enum
import os
import pathlib
import struct
from collections.abc import Callable, Sequence
from typing import Any, Final, NamedTuple, TypeVar

__all__ = ["BOARD_ROOM", "CODE_ROOM", "FREE", "LONGEST_EXERCISE", "LONGEST_SHEET", "LONGEST_TERM", "NAME_ROOM", "RECORD_NUMBERS",
           "RECORD_ROOM", "REFUSALS", "SLOT_COUNT", "VERSION", "Atom", "Given", "Hypothesis", "Judged", "Node", "ReadTerm",
           "Refused", "Style", "Whose", "atom_list", "atom_list_length", "board_output", "compare", "datatype_list",
           "datatype_list_length", "exercise", "exercise_length", "find_name", "graft", "graft_length", "handout",
           "handout_datatypes", "handout_datatypes_length", "handout_length", "judge", "label_count", "name_index", "plain_text",
           "plain_text_length", "read_term", "read_term_length", "restate", "restate_length", "strict_text", "strict_text_length"]

VERSION: Final = 2
"""The version of include/skriduhol.h that this module is written for."""

BOARD_ROOM: Final = 65536
"""What the board lends, in bytes."""

LONGEST_SHEET: Final = 40972
"""The longest sheet, in bytes."""

LONGEST_EXERCISE: Final = 19
"""The longest code of an exercise, in bytes."""

LONGEST_TERM: Final = 65536
"""The longest text of a term that is read, in bytes."""

RECORD_NUMBERS: Final = 7
"""The numbers in the record of a node."""

RECORD_ROOM: Final = 14336
"""The numbers of records that are enough for every term that is read."""

NAME_ROOM: Final = 2048
"""The bytes of names that are enough for every term that is read."""

CODE_ROOM: Final = 131072
"""The bytes of code that are enough for every term that is read."""

SLOT_COUNT: Final = 1024
"""The slots of an index of names."""

FREE: Final = 65535
"""What a slot holds that has no name."""

REFUSALS: Final[dict[int, tuple[str, str]]] = {
    1: ("0", "fewer than 12 bytes came"),
    2: ("0", "a header number lies outside its range"),
    3: ("0", "the byte count is not the one that the header gives"),
    4: ("name", "a name's pair starts before the last one's end, ends past the text, or has a length outside 1 to 32"),
    5: ("name", "a name holds a byte that its position does not allow"),
    6: ("proposition", "a proposition's pair starts before the last one's end, ends past the code, or has length 0"),
    7: ("proposition", "its code is not exactly one proposition over its whole length with names of the sheet"),
    8: ("proposition", "it nests deeper than 64"),
    9: ("step", "a rule, kind, name, proposition number or column is out of range, or an unused field is not 0"),
    10: ("step", "a step finds too few trees before it, or the last step leaves more than one"),
    11: ("step", "its tree nests deeper than 256"),
    12: ("step", "a visited step has the wrong premiss count"),
    13: ("step", "an ascription is needed where the conclusion is a type judgement"),
    14: ("step", "a function of ImplIntro needs a label and its conclusion is no implication"),
    15: ("step", "a function of ForAllIntro needs a label and its conclusion is no ∀"),
    16: ("0", "the lent output is shorter than the answer"),
    17: ("0", "a comparison names a step that the sheet has not"),
    18: ("0", "does not occur: two atoms of one name with different parameter counts are a no"),
    19: ("0", "two uninstantiated parameters meet with neither bound on its side"),
    20: ("0", "no term within the limits, or more than one, has the text as its strict text, or a listed datatype is no admitted name"),
    21: ("0", "the version of the handout is outside 1 to 3"),
    22: ("0", "the term, a hypothesis or the proposition holds a quantifier, an uninstantiated parameter, a let or a datatype label"),
    23: ("0", "the given conclusion or column breaks the rules of a step"),
    24: ("0", "there are already 1,024 steps or 256 levels"),
    25: ("0", "the root's conclusion and the given one are not alpha equal"),
    26: ("0", "the host step is no Sorry without premisses"),
    27: ("0", "the conclusions of the host step and of the donor's root differ, names taken by bytes"),
    28: ("0", "the merged sheet passes a limit of the sheet"),
    29: ("0", "the names of an exercise are too many, repeated or malformed, or its number of connectives passes 3"),
    30: ("0", "the ordinal of an exercise is past the end"),
    31: ("0", "a number of the hypotheses or of the proposition is not the sheet's, or a last name has no proposition"),
}
"""Of each refusal what its place counts (0 for nothing) and its reason."""

class Whose(enum.Enum):
    """Whose sheet a refusal of a graft speaks of."""

    NEITHER = 0
    HOST = 1
    DONOR = 2

class Refused(Exception):
    """A refusal: its number; its place, which is 0 or the number of a name, a proposition or a step; the grid column of the step
    that 9 to 15 name, for any other 0; of a graft, whose sheet it speaks of; and its reason in words."""

    def __init__(self, number: int, place: int, column: int, whose: Whose = Whose.NEITHER) -> None:
        super().__init__(number, place, column, whose)
        self.number, self.place, self.column, self.whose = number, place, column, whose
        self.words: str = REFUSALS[number][1] if number in REFUSALS else "unknown to this module"

    def __str__(self) -> str:
        where = f"{self.place} column {self.column}" if 9 <= self.number <= 15 else f"{self.place}"
        of = "" if self.whose is Whose.NEITHER else f" of the {self.whose.name.lower()}"
        return f"refused {self.number} at {where}{of}: {self.words}"

class Style(enum.Enum):
    """How a text is asked for."""

    PLAIN = "plain"
    STRICT = "strict"

class Atom(NamedTuple):
    """An atom of a label: the number of its name in the sheet, and how many parameters it has."""

    name: int
    parameters: int

class Hypothesis(NamedTuple):
    """A hypothesis of a judgement, by numbers of the sheet: its name and its proposition."""

    name: int
    proposition: int

class Judged(NamedTuple):
    """Whether the checking rules derive a judgement, which is also its truth value, and if not, the node of the term at which they
    stop: nodes are counted from 0, a node before its parts, these from left to right."""

    derived: bool
    node: int | None

    def __bool__(self) -> bool:
        return self.derived

class Node(NamedTuple):
    """A node of a term that was read: its kind, five numbers that `include/skriduhol.h` says for each kind, and how many labels stand in
    it and in its parts."""

    kind: int
    first: int
    second: int
    third: int
    fourth: int
    fifth: int
    labels: int

class ReadTerm(NamedTuple):
    """A term that was read: its nodes, parts before the whole, so that the last is the term's own; its names by their numbers; and the
    code of its labels' propositions, each from an even offset on, half of which is its number."""

    nodes: list[Node]
    names: list[str]
    code: bytes

class Given(NamedTuple):
    """A conclusion as a step record has it, a kind and three numbers, and a column. Kind 0 is a proposition by its number; kind 1
    is a type judgement: the object's name, its id, and the datatype's name."""

    kind: int
    first: int
    second: int = 0
    third: int = 0
    column: int = 0

def _file() -> str:
    """The shared library's path, or its name where the system is to find it."""
    file = f"libskriduhol.so.{VERSION}"
    named = os.environ.get("SKRIDUHOL_LIB")
    if named:
        return os.path.join(named, file) if os.path.isdir(named) else named
    own = pathlib.Path(__file__).resolve().parents[3] / "target" / "install" / "lib" / file
    return str(own) if own.exists() else ctypes.util.find_library("skriduhol") or file

def _opened() -> ctypes.CDLL:
    try:
        return ctypes.CDLL(_file())
    except OSError as error:
        raise ImportError(f"no shared library of Skriduhol ({error}): `tools/install PREFIX` writes it to PREFIX/lib, and "
                          "SKRIDUHOL_LIB may name that folder") from None

_library = _opened()
_SIZE = ctypes.c_size_t
_RESULT: list[Any] = [ctypes.POINTER(_SIZE)] * 2
_BYTES: list[Any] = [ctypes.c_char_p, _SIZE]

def _function(name: str, *arguments: Any, result: list[Any] = _RESULT) -> Callable[..., int]:
    """A function of the library that takes bytes, the arguments, and where its value and column go."""
    function = getattr(_library, f"skriduhol_{name}")
    function.argtypes, function.restype = _BYTES + list(arguments) + result, ctypes.c_uint8
    return function  # type: ignore[no-any-return]

_TEXT = [ctypes.POINTER(ctypes.c_uint8), _SIZE]
_LIST = [ctypes.POINTER(ctypes.c_uint16), _SIZE]
_plain_text = _function("plain_text", *_TEXT)
_strict_text = _function("strict_text", *_TEXT)
_atom_list = _function("atom_list", *_LIST)
_datatype_list = _function("datatype_list", *_LIST)
_handout = {Style.PLAIN: _function("handout_plain", _SIZE, *_TEXT), Style.STRICT: _function("handout_strict", _SIZE, *_TEXT)}
_handout_datatypes = _function("handout_datatypes", _SIZE, *_LIST)
_plain_text_length = _function("plain_text_length")
_strict_text_length = _function("strict_text_length")
_atom_list_length = _function("atom_list_length")
_datatype_list_length = _function("datatype_list_length")
_handout_length = {Style.PLAIN: _function("handout_plain_length", _SIZE), Style.STRICT: _function("handout_strict_length", _SIZE)}
_handout_datatypes_length = _function("handout_datatypes_length", _SIZE)
_label_count = _function("label_count")
_compare = _function("compare", _SIZE, _SIZE)
_judge = _function("judge", *_LIST, _SIZE, result=_RESULT + [ctypes.POINTER(_SIZE)])
_read_term = _function("read_term", *_BYTES, *_LIST, *_TEXT, *_TEXT, result=_RESULT + [ctypes.POINTER(_SIZE)] * 2)
_read_term_length = _function("read_term_length", *_BYTES, result=_RESULT + [ctypes.POINTER(_SIZE)] * 2)
_exercise = _function("exercise", _SIZE, _SIZE, *_TEXT)
_SLOTS = ctypes.c_uint16 * SLOT_COUNT
_name_index = _function("name_index", _SLOTS)
_find_name = _function("find_name", _SLOTS, *_BYTES)
_restate = _function("restate", ctypes.c_uint16 * 5, _SLOTS, *_TEXT)
_graft = _function("graft", _SIZE, *_BYTES, _SLOTS, *_TEXT, result=_RESULT + [ctypes.POINTER(_SIZE)])
_restate_length = _function("restate_length", ctypes.c_uint16 * 5)
_graft_length = _function("graft_length", _SIZE, *_BYTES, result=_RESULT + [ctypes.POINTER(_SIZE)])
_exercise_length = _function("exercise_length", _SIZE, _SIZE)
_board_output = _library.skriduhol_board_output
_board_output.argtypes, _board_output.restype = _BYTES + [ctypes.POINTER(ctypes.c_uint8)], _SIZE

def _size(what: str, number: int) -> int:
    """A number that C can be handed: ctypes would cut any other one to its low bits."""
    if not 0 <= number < 1 << 8 * ctypes.sizeof(_SIZE):
        raise ValueError(f"{what} is {number}, expected a number from 0 on that a size_t holds")
    return number

def _u16(what: str, number: int) -> int:
    if not 0 <= number < 65536:
        raise ValueError(f"{what} is {number}, expected 0 to 65535")
    return number

def _frozen(content: bytes) -> bytes:
    """The bytes themselves, or a copy of other memory, which no other thread can then change. Empty ones have an address too."""
    return content if isinstance(content, bytes) else bytes(memoryview(content))

def _divided(names: Sequence[str]) -> bytes:
    """Names divided by newlines. One with a newline in it would be two, and one of no bytes none: both are malformed, and handed over
    as such."""
    return "\n".join(name.replace("\n", "?") or "?" for name in names).encode(errors="replace")

def _asked(function: Callable[..., int], content: bytes, *arguments: Any) -> int:
    """The value that a function hands back, or its refusal."""
    content, value, column = _frozen(content), _SIZE(), _SIZE()
    number = function(content, len(content), *arguments, ctypes.byref(value), ctypes.byref(column))
    if number:
        raise Refused(number, value.value, column.value)
    return value.value

def _filled(element: Any, function: Callable[..., int], content: bytes, *arguments: Any, room: int) -> tuple[Any, int]:
    """The memory that a function fills, a room of so many elements, and how much of it is filled."""
    # One element at least: the library takes no null address, even of no room.
    out = (element * max(_size("the room", room), 1))()
    return out, _asked(function, content, *arguments, out, room)

def _bytes(function: Callable[..., int], content: bytes, *arguments: Any, room: int) -> bytes:
    return ctypes.string_at(*_filled(ctypes.c_uint8, function, content, *arguments, room=room))

def _text(function: Callable[..., int], length: Callable[..., int], sheet: bytes, *version: int, room: int | None) -> str:
    """A text in a room, or in as much as it needs: its length is asked for first, of the same bytes."""
    content = _frozen(sheet)
    return _bytes(function, content, *version, room=_asked(length, content, *version) if room is None else room).decode()

def _list(function: Callable[..., int], length: Callable[..., int], sheet: bytes, *version: int, room: int | None) -> list[int]:
    content = _frozen(sheet)
    lent = _asked(length, content, *version) if room is None else room
    out, filled = _filled(ctypes.c_uint16, function, content, *version, room=lent)
    return list(out[:filled])

def plain_text(sheet: bytes, *, room: int | None = None) -> str:
    """The declarations and the term. A room is counted in bytes."""
    return _text(_plain_text, _plain_text_length, sheet, room=room)

def strict_text(sheet: bytes, *, room: int | None = None) -> str:
    """The plain text with brackets also around a case or let on either side of an application, and around an ascription within a
    function, a case or a let."""
    return _text(_strict_text, _strict_text_length, sheet, room=room)

def atom_list(sheet: bytes, *, room: int | None = None) -> list[Atom]:
    """The atoms of the term's labels, left to right with repeats. A room is counted in numbers, two for each atom."""
    numbers = _list(_atom_list, _atom_list_length, sheet, room=room)
    return [Atom(name, parameters) for name, parameters in zip(numbers[::2], numbers[1::2])]

def datatype_list(sheet: bytes, *, room: int | None = None) -> list[int]:
    """The datatypes that are labels of the term, left to right with repeats, each by the number of its name."""
    return _list(_datatype_list, _datatype_list_length, sheet, room=room)

def handout(sheet: bytes, version: int, style: Style = Style.PLAIN, *, room: int | None = None) -> str:
    """The text of a version of the handout, 1 to 3. Version 1 is `plain_text` and `strict_text`; version 2 has the datatype
    declarations before the atoms, and declares the datatypes of its own list; version 3 is version 2 with its declarations sorted."""
    return _text(_handout[style], _handout_length[style], sheet, _size("the version", version), room=room)

def handout_datatypes(sheet: bytes, version: int, *, room: int | None = None) -> list[int]:
    """The datatype list of a version of the handout. Version 1 is `datatype_list`; versions 2 and 3 have every datatype of every
    label, those within a proposition too."""
    return _list(_handout_datatypes, _handout_datatypes_length, sheet, _size("the version", version), room=room)

def plain_text_length(sheet: bytes) -> int:
    """How long the plain text is, in bytes. Like the other lengths, it is found out without writing the answer."""
    return _asked(_plain_text_length, sheet)

def strict_text_length(sheet: bytes) -> int:
    """How long the strict text is, in bytes."""
    return _asked(_strict_text_length, sheet)

def atom_list_length(sheet: bytes) -> int:
    """How long the atom list is as numbers, as a room is counted: two for each atom."""
    return _asked(_atom_list_length, sheet)

def datatype_list_length(sheet: bytes) -> int:
    """How long the datatype list is."""
    return _asked(_datatype_list_length, sheet)

def handout_length(sheet: bytes, version: int, style: Style = Style.PLAIN) -> int:
    """How long the text of a version of the handout is, in bytes."""
    return _asked(_handout_length[style], sheet, _size("the version", version))

def handout_datatypes_length(sheet: bytes, version: int) -> int:
    """How long the datatype list of a version of the handout is."""
    return _asked(_handout_datatypes_length, sheet, _size("the version", version))

def label_count(sheet: bytes) -> int:
    """How many ascriptions and labelled functions the sheet's term has."""
    return _asked(_label_count, sheet)

def compare(sheet: bytes, i: int, j: int) -> bool:
    """Whether the conclusions of steps i and j are equal up to the names of their bound objects."""
    return _asked(_compare, sheet, _size("a step", i), _size("a step", j)) == 1

def judge(sheet: bytes, hypotheses: Sequence[tuple[int, int]], proposition: int) -> Judged:
    """Whether the sheet's term checks against one of the sheet's propositions from the hypotheses given, each a `Hypothesis` or such a
    pair of numbers. A later one hides earlier ones of its name."""
    numbers = [_u16("a number of a hypothesis", number) for hypothesis in hypotheses for number in hypothesis]
    # One number at least: the library takes no null address, even of no hypotheses.
    lent, node = (ctypes.c_uint16 * max(len(numbers), 1))(*numbers), _SIZE()

    def judged(*arguments: Any) -> int:
        return _judge(*arguments, ctypes.byref(node))

    derived = _asked(judged, sheet, lent, len(numbers), _size("the proposition", proposition)) == 1
    return Judged(derived, None if derived else node.value)

def read_term(text: str | bytes, datatypes: Sequence[str] = (), *, room: tuple[int, int, int] | None = None) -> ReadTerm:
    """The term that a strict text has. A label that is a lone name is a datatype if it is listed and otherwise an atom. A room is
    counted in numbers of records, bytes of names and bytes of code."""
    content, types = text.encode(errors="replace") if isinstance(text, str) else _frozen(text), _divided(datatypes)
    rooms = [_size("a room", lent) for lent in room or (RECORD_ROOM, NAME_ROOM, CODE_ROOM)]
    # One element at least: the library takes no null address, even of no room.
    elements = zip((ctypes.c_uint16, ctypes.c_uint8, ctypes.c_uint8), rooms)
    records, names, code = ((element * max(lent, 1))() for element, lent in elements)
    name_count, code_length = _SIZE(), _SIZE()

    def read(*arguments: Any) -> int:
        return _read_term(*arguments, ctypes.byref(name_count), ctypes.byref(code_length))

    count = _asked(read, content, types, len(types), records, rooms[0], names, rooms[1], code, rooms[2])
    nodes = [Node(*records[at:at + RECORD_NUMBERS]) for at in range(0, RECORD_NUMBERS * count, RECORD_NUMBERS)]
    pairs = struct.iter_unpack("<2H", ctypes.string_at(names, 4 * name_count.value))
    return ReadTerm(nodes, [content[offset:offset + length].decode() for offset, length in pairs],
                    ctypes.string_at(code, code_length.value))

def read_term_length(text: str | bytes, datatypes: Sequence[str] = ()) -> tuple[int, int, int]:
    """How large the term of a strict text is, as a room is counted: numbers of records, bytes of names and bytes of code."""
    content, types = text.encode(errors="replace") if isinstance(text, str) else _frozen(text), _divided(datatypes)
    name_count, code_length = _SIZE(), _SIZE()

    def measured(*arguments: Any) -> int:
        return _read_term_length(*arguments, ctypes.byref(name_count), ctypes.byref(code_length))

    nodes = _asked(measured, content, types, len(types))
    return RECORD_NUMBERS * nodes, 4 * name_count.value, code_length.value

def exercise(names: Sequence[str], n: int, ordinal: int, *, room: int | None = None) -> bytes:
    """The code of the proposition at an ordinal, from 0, among all of at most n binary connectives over ⊤, ⊥ and up to 3 names, n
    up to 3. In the code the names are numbered as given. `include/skriduhol.h` says their order."""
    return _bytes(_exercise, _divided(names), _size("the number of connectives", n), _size("the ordinal", ordinal),
                  room=LONGEST_EXERCISE if room is None else room)

def exercise_length(names: Sequence[str], n: int, ordinal: int) -> int:
    """How long the code of an exercise is, in bytes."""
    return _asked(_exercise_length, _divided(names), _size("the number of connectives", n), _size("the ordinal", ordinal))

def name_index(sheet: bytes) -> list[int]:
    """The index of the sheet's names, 1,024 slots, by which `find_name` finds one without comparing all."""
    slots = _SLOTS()
    _asked(_name_index, sheet, slots)
    return list(slots)

def find_name(sheet: bytes, slots: Sequence[int], name: bytes) -> int | None:
    """The number of a name by slots beside the sheet: by its own index the lowest number of these bytes, or None."""
    if len(slots) != SLOT_COUNT:
        raise ValueError(f"there are {len(slots)} slots, expected {SLOT_COUNT}")
    lent, name = _SLOTS(*(_u16("a slot", slot) for slot in slots)), _frozen(name)
    found = _asked(_find_name, sheet, lent, name, len(name))
    return None if found == FREE else found

def _row(given: Given) -> Any:
    return (ctypes.c_uint16 * 5)(*(_u16("a number of what is given", number) for number in given))

def restate(sheet: bytes, given: Given, *, room: int | None = None) -> tuple[bytes, list[int]]:
    """The sheet with one more step, AlphaEquivalent over its root, that concludes what is given, and the index of its names."""
    slots = _SLOTS()
    return _bytes(_restate, sheet, _row(given), slots, room=LONGEST_SHEET if room is None else room), list(slots)

def restate_length(sheet: bytes, given: Given) -> int:
    """How long the sheet with one more step is, in bytes."""
    return _asked(_restate_length, sheet, _row(given))

def graft(host: bytes, step: int, donor: bytes, *, room: int | None = None) -> tuple[bytes, list[int]]:
    """The host with the donor's steps in the place of one of its own, a Sorry without premisses that concludes what the donor's root
    does, and the index of the merged names."""
    slots, other, lent = _SLOTS(), _frozen(donor), LONGEST_SHEET if room is None else room
    grafted = _of_graft(_graft, lambda function: _bytes(function, host, _size("the step", step), other, len(other), slots, room=lent))
    return grafted, list(slots)

def graft_length(host: bytes, step: int, donor: bytes) -> int:
    """How long the merged sheet is, in bytes."""
    other = _frozen(donor)
    return _of_graft(_graft_length, lambda function: _asked(function, host, _size("the step", step), other, len(other)))

_Answer = TypeVar("_Answer")

def _of_graft(function: Callable[..., int], ask: Callable[[Callable[..., int]], _Answer]) -> _Answer:
    """What is asked of a function that also says whose sheet a refusal speaks of."""
    whose = _SIZE()
    try:
        return ask(lambda *arguments: function(*arguments, ctypes.byref(whose)))
    except Refused as refused:
        raise Refused(refused.number, refused.place, refused.column, Whose(whose.value)) from None

def board_output(sheet: bytes) -> bytes:
    """What the board prints: the plain text if 65,536 bytes have room for it, or the refusal's line."""
    content, out = _frozen(sheet), (ctypes.c_uint8 * BOARD_ROOM)()
    return ctypes.string_at(out, _board_output(content, len(content), out))
