"""Every operation on the example sheets and on the stored answers, refusals, rooms, and what is no argument."""

import pathlib
import re
import struct
import subprocess
import sys
import threading
import typing
import unittest

import skriduhol
from skriduhol import Atom, Given, Hypothesis, Judged, ReadTerm, Refused, Style, Whose

ROOT = pathlib.Path(__file__).resolve().parents[3]

def example(name):
    return (ROOT / "examples" / "sheets" / f"{name}.sheet").read_bytes()

SECOND, REFUSED, HANDOUT = example("second_drawing"), example("refused"), example("second_handout")

class Examples(unittest.TestCase):
    def assert_refused(self, number, place, column, question, *arguments, **room):
        with self.assertRaises(Refused) as caught:
            question(*arguments, **room)
        refused = caught.exception
        self.assertEqual((refused.number, refused.place, refused.column), (number, place, column))
        self.assertEqual(refused.words, skriduhol.REFUSALS[number][1])
        return refused

    def test_texts(self):
        self.assertEqual(skriduhol.plain_text(example("smallest")), "\n\n\n()")
        self.assertEqual(skriduhol.plain_text(SECOND), "atom A;\natom B;\n\n\nfn u => inl u")
        self.assertEqual(skriduhol.plain_text(example("case_as_an_argument")), "\n\n\nf case h of inl x => a, inr y => b c")
        self.assertEqual(skriduhol.strict_text(example("case_as_an_argument")), "\n\n\nf (case h of inl x => a, inr y => b) c")

    def test_handouts(self):
        self.assertEqual(skriduhol.handout(HANDOUT, 1), skriduhol.plain_text(HANDOUT))
        self.assertEqual(skriduhol.handout(HANDOUT, 1, Style.STRICT), skriduhol.strict_text(HANDOUT))
        self.assertTrue(skriduhol.handout(HANDOUT, 2).startswith("datatype U;\ndatatype T;\ndatatype V;\natom P(2);\n"))
        self.assertTrue(skriduhol.handout(HANDOUT, 3, Style.STRICT).startswith("datatype T;\ndatatype U;\ndatatype V;\natom P(2);\n"))
        self.assertEqual([skriduhol.handout_datatypes(HANDOUT, version) for version in (1, 2, 3)], [[5], [3, 5, 5], [3, 5, 5]])
        self.assertEqual(skriduhol.datatype_list(HANDOUT), [5])
        for version in (0, 4, 2 ** 64 - 1):
            self.assert_refused(21, 0, 0, skriduhol.handout, HANDOUT, version)
            self.assert_refused(21, 0, 0, skriduhol.handout_datatypes, b"", version)

    def test_lengths(self):
        for sheet in (SECOND, HANDOUT, example("smallest"), example("labelled_function"), example("case_as_an_argument")):
            self.assertEqual(skriduhol.plain_text_length(sheet), len(skriduhol.plain_text(sheet).encode()))
            self.assertEqual(skriduhol.strict_text_length(sheet), len(skriduhol.strict_text(sheet).encode()))
            self.assertEqual(skriduhol.atom_list_length(sheet), 2 * len(skriduhol.atom_list(sheet)))
            self.assertEqual(skriduhol.datatype_list_length(sheet), len(skriduhol.datatype_list(sheet)))
            for version in (1, 2, 3):
                self.assertEqual(skriduhol.handout_datatypes_length(sheet, version), len(skriduhol.handout_datatypes(sheet, version)))
                for style in Style:
                    length = skriduhol.handout_length(sheet, version, style)
                    self.assertEqual(length, len(skriduhol.handout(sheet, version, style).encode()))
                    self.assertEqual(len(skriduhol.handout(sheet, version, style, room=length).encode()), length)
                    self.assert_refused(16, 0, 0, skriduhol.handout, sheet, version, style, room=length - 1)
        self.assert_refused(14, 1, 3, skriduhol.plain_text_length, REFUSED)
        self.assert_refused(21, 0, 0, skriduhol.handout_length, REFUSED, 0)
        self.assert_refused(21, 0, 0, skriduhol.handout_datatypes_length, b"", 4)
        self.assert_refused(1, 0, 0, skriduhol.atom_list_length, b"")

    def test_lists_counts_and_comparisons(self):
        self.assertEqual(skriduhol.atom_list(example("labelled_function")), [Atom(name=0, parameters=0)])
        self.assertEqual(skriduhol.label_count(example("labelled_function")), 1)
        self.assertIs(skriduhol.compare(example("labelled_function"), 0, 2), True)
        self.assertIs(skriduhol.compare(example("labelled_function"), 0, 1), False)
        self.assert_refused(17, 0, 0, skriduhol.compare, SECOND, 0, 2 ** 64 - 1)

    def test_judgements(self):
        labelled, bound = example("labelled_function"), example("bound_object")
        self.assertEqual(skriduhol.judge(SECOND, [], 0), Judged(True, None))
        self.assertEqual(skriduhol.judge(SECOND, (), 1), Judged(False, 0))
        # (fn u: A => u) v: the names are A, u and v, the propositions A and A ⊃ A
        for hypotheses, node in (((), 3), ([Hypothesis(2, 0)], None), ([(2, 1), (2, 0)], None), ([(2, 0), (2, 1)], 3)):
            judged = skriduhol.judge(labelled, hypotheses, 0)
            self.assertEqual((judged, bool(judged)), ((node is None, node), node is None))
        self.assert_refused(1, 0, 0, skriduhol.judge, b"", [], 0)
        self.assert_refused(14, 1, 3, skriduhol.judge, REFUSED, [(9, 9)], 9)
        for hypotheses, proposition in (([], 2), ([], 2 ** 64 - 1), ([(0, 2)], 0), ([(4, 0)], 0), ([(0, 0), (0,)], 0)):
            self.assert_refused(31, 0, 0, skriduhol.judge, bound, hypotheses, proposition)
        self.assert_refused(22, 0, 0, skriduhol.judge, bound, [(3, 1)], 0)
        for hypotheses, proposition in (([(65536, 0)], 0), ([(0, -1)], 0), ([], -1), ([], 2 ** 64)):
            with self.assertRaises(ValueError):
                skriduhol.judge(SECOND, hypotheses, proposition)

    def test_texts_are_read(self):
        text = "fn x: T => (x: A)"
        nodes = [(0, 0, 0, 0, 0, 0, 0), (11, 0, 0, 1, 0, 0, 1), (4, 1, 0, 2, 1, 0, 2)]
        self.assertEqual(skriduhol.read_term(text, ["U", "T"]), ReadTerm(nodes, ["x", "T", "A"], b"\x05\x02\x00\x00"))
        read = skriduhol.read_term(text.encode(), room=(21, 12, 8))
        self.assertEqual((read.nodes[-1], read.code), ((4, 1, 0, 1, 0, 0, 2), b"\x05\x01\x00\x00\x05\x02\x00\x00"))
        self.assertEqual(skriduhol.read_term(bytearray(b"()")), ReadTerm([(12, 0, 0, 0, 0, 0, 0)], [], b""))
        for room in ((20, 12, 4), (21, 11, 4), (21, 12, 3), (0, 0, 0)):
            self.assert_refused(16, 0, 0, skriduhol.read_term, text, ["T"], room=room)
        for wrong in ("", "in", "f (a)", "fn x => x: A", "x: A ⊃ ⊥", "é", "\udc80", b"\xff", "x" * (skriduhol.LONGEST_TERM + 1)):
            self.assert_refused(20, 0, 0, skriduhol.read_term, wrong)
        for datatypes in ([""], ["T", ""], ["in"], ["T\nU"], ["é"], ["T" * 33]):
            self.assert_refused(20, 0, 0, skriduhol.read_term, "x", datatypes)
        for room in ((-1, 12, 4), (21, 2 ** 64, 4)):
            with self.assertRaises(ValueError):
                skriduhol.read_term("x", room=room)

    def test_the_size_of_a_read_term_is_its_least_room(self):
        text, datatypes = "fn x: T => (x: A)", ["U", "T"]
        size = skriduhol.read_term_length(text, datatypes)
        self.assertEqual(size, (21, 12, 4))
        self.assertEqual(skriduhol.read_term(text, datatypes, room=size), skriduhol.read_term(text, datatypes))
        for part in range(3):
            short = tuple(room - (part == at) for at, room in enumerate(size))
            self.assert_refused(16, 0, 0, skriduhol.read_term, text, datatypes, room=short)
        self.assert_refused(20, 0, 0, skriduhol.read_term_length, "in")

    def test_the_texts_of_sheets_are_read_back(self):
        for name, count in (("smallest", 1), ("second_drawing", 3), ("labelled_function", 4), ("case_as_an_argument", 8),
                            ("second_handout", 6), ("disjunction_swapped", 7)):
            term = skriduhol.strict_text(example(name)).rpartition("\n")[2]
            read = skriduhol.read_term(term, ["T"])
            self.assertEqual((len(read.nodes), read.nodes[-1].labels), (count, skriduhol.label_count(example(name))), name)

    def test_the_board(self):
        self.assertEqual(skriduhol.board_output(SECOND), b"atom A;\natom B;\n\n\nfn u => inl u")
        self.assertEqual(skriduhol.board_output(REFUSED), b"refused 14 at 1 column 3\n")

    def test_exercises(self):
        self.assertEqual(skriduhol.exercise([], 0, 0), b"\x00")
        self.assertEqual(skriduhol.exercise(["A"], 0, 2), b"\x05\x00\x00\x00")
        self.assertEqual(len(skriduhol.exercise(("A", "B", "C"), 3, 86704)), skriduhol.LONGEST_EXERCISE)
        self.assertEqual(skriduhol.exercise_length(("A", "B", "C"), 3, 86704), skriduhol.LONGEST_EXERCISE)
        self.assert_refused(30, 0, 0, skriduhol.exercise_length, ("A", "B", "C"), 3, 86705)
        self.assert_refused(30, 0, 0, skriduhol.exercise, ["A", "B", "C"], 3, 86705)
        for names in ([""], ["A", ""], ["", ""], ["A\nB"], ["\n"], ["é"], ["\udc80"], ["A", "A"], ["A", "B", "C", "D"], ["A" * 33]):
            self.assert_refused(29, 0, 0, skriduhol.exercise, names, 0, 0)
        self.assert_refused(29, 0, 0, skriduhol.exercise, [], 4, 0)

    def test_names(self):
        slots = skriduhol.name_index(SECOND)
        self.assertEqual([slot for slot in slots if slot != skriduhol.FREE], [0, 1, 2])
        self.assertEqual([skriduhol.find_name(SECOND, slots, name) for name in (b"A", b"B", b"u", b"C", b"")], [0, 1, 2, None, None])
        self.assert_refused(1, 0, 0, skriduhol.name_index, b"")
        self.assert_refused(1, 0, 0, skriduhol.find_name, b"", slots, b"A")
        for wrong in (slots[1:], slots[1:] + [65536], slots[1:] + [-1]):
            with self.assertRaises(ValueError):
                skriduhol.find_name(SECOND, wrong, b"A")

    def test_restatements(self):
        sheet = example("bound_object")
        new, slots = skriduhol.restate(sheet, Given(0, 1, column=7))
        self.assertEqual((len(new), slots), (len(sheet) + 20, skriduhol.name_index(new)))
        self.assertEqual(skriduhol.plain_text(new), skriduhol.plain_text(sheet))
        self.assert_refused(16, 0, 0, skriduhol.restate, sheet, Given(0, 1), room=len(sheet) + 19)
        self.assert_refused(23, 0, 0, skriduhol.restate, sheet, Given(0, 1, column=4096))
        self.assertEqual(skriduhol.restate_length(sheet, Given(0, 1, column=7)), len(new))
        self.assert_refused(23, 0, 0, skriduhol.restate_length, sheet, Given(0, 1, column=4096))
        with self.assertRaises(ValueError):
            skriduhol.restate(sheet, Given(0, 65536))

    def test_grafts(self):
        host, donor = example("open_step"), example("disjunction_swapped")
        new, slots = skriduhol.graft(host, 0, donor)
        self.assertEqual(slots, skriduhol.name_index(new))
        self.assertTrue(skriduhol.plain_text(new).endswith("\nfn h => (fn u: A ∨ B => case u of inl a => inr a: B ∨ A, "
                                                           "inr b => inl b: B ∨ A) (fst h)"))
        self.assertEqual(skriduhol.graft(bytearray(host), 0, memoryview(donor), room=len(new)), (new, slots))
        # The column of step 4 behind 12 bytes, 4 names and 5 propositions is made 4098.
        wide = host[:147] + b"\x10" + host[148:]
        for refusal, whose, *asked in (
                ((16, 0, 0), Whose.NEITHER, host, 0, donor), ((26, 0, 0), Whose.NEITHER, host, 1, donor),
                ((26, 0, 0), Whose.NEITHER, host, 2 ** 64 - 1, donor), ((27, 0, 0), Whose.NEITHER, host, 0, SECOND),
                ((9, 4, 4098), Whose.HOST, wide, 0, b""), ((9, 4, 4098), Whose.DONOR, host, 9, wide),
                ((1, 0, 0), Whose.HOST, b"", 0, b""), ((1, 0, 0), Whose.DONOR, host, 0, b"")):
            refused = self.assert_refused(*refusal, skriduhol.graft, *asked, room=len(new) - 1)
            if refused.number == 16:
                self.assertEqual(skriduhol.graft_length(*asked), len(new))
            else:
                self.assertIs(self.assert_refused(*refusal, skriduhol.graft_length, *asked).whose, whose)
            self.assertIs(refused.whose, whose)
        said = str(self.assert_refused(9, 4, 4098, skriduhol.graft, host, 0, wide))
        self.assertTrue(said.startswith("refused 9 at 4 column 4098 of the donor: a rule, kind, "), said)
        for step in (-1, 2 ** 64):
            with self.assertRaises(ValueError):
                skriduhol.graft(host, step, donor)
        with self.assertRaises(TypeError):
            skriduhol.graft(host, 0, "text")

    def test_a_refusal_says_what_it_is(self):
        refused = self.assert_refused(14, 1, 3, skriduhol.plain_text, REFUSED)
        self.assertEqual(str(refused), "refused 14 at 1 column 3: a function of ImplIntro needs a label and its conclusion is no "
                         "implication")
        self.assertEqual(str(self.assert_refused(1, 0, 0, skriduhol.label_count, b"")), "refused 1 at 0: fewer than 12 bytes came")

    def test_rooms(self):
        """Without a room an answer may be longer than the first one lent."""
        for question in (skriduhol.plain_text, skriduhol.strict_text):
            self.assertEqual(question(SECOND, room=31), "atom A;\natom B;\n\n\nfn u => inl u")
            for room in (0, 30):
                self.assert_refused(16, 0, 0, question, SECOND, room=room)
        self.assert_refused(16, 0, 0, skriduhol.atom_list, example("labelled_function"), room=1)
        self.assertEqual(skriduhol.datatype_list(SECOND, room=0), [])
        self.assertGreater(len(skriduhol.plain_text(of_many_labels(250))), skriduhol.BOARD_ROOM)
        self.assertEqual(len(skriduhol.atom_list(of_many_labels(250))), 64 * 250)

    def test_other_memory_than_bytes(self):
        for sheet in (bytearray(SECOND), memoryview(SECOND)):
            self.assertEqual(skriduhol.plain_text(sheet), skriduhol.plain_text(SECOND))
            self.assertEqual(skriduhol.board_output(sheet), skriduhol.board_output(SECOND))
        for sheet in ("text", 5, None):
            with self.assertRaises(TypeError):
                skriduhol.plain_text(sheet)

    def test_numbers_that_no_size_holds(self):
        for number in (-1, 2 ** 64):
            for question in (lambda n: skriduhol.compare(SECOND, n, 0), lambda n: skriduhol.compare(SECOND, 0, n),
                             lambda n: skriduhol.handout(SECOND, n), lambda n: skriduhol.handout_datatypes(SECOND, n),
                             lambda n: skriduhol.exercise([], n, 0), lambda n: skriduhol.exercise([], 0, n),
                             lambda n: skriduhol.plain_text(SECOND, room=n)):
                with self.assertRaises(ValueError):
                    question(number)

    def test_threads(self):
        found = []
        threads = [threading.Thread(target=lambda: found.extend(skriduhol.plain_text(SECOND) for _ in range(200))) for _ in range(4)]
        for thread in threads:
            thread.start()
        for thread in threads:
            thread.join()
        self.assertEqual(found, [skriduhol.plain_text(SECOND)] * 800)

def of_many_labels(count):
    """A sheet of so many sorries, each of a conjunction of 64 atoms that is its label, in pairs under AndElimFst."""
    code = bytes([2] * 63) + bytes([5, 0, 0, 0]) * 64
    sorry, pair, first = (struct.pack("<2B9H", rule, premisses, *[0] * 9) for rule, premisses in ((15, 0), (0, 2), (1, 1)))
    steps = sorry + (sorry + pair) * (count - 1) + first
    return struct.pack("<10H", 1, 1, len(code), 1, 2 * count, 0, 0, 1, 0, len(code)) + steps + b"A" + code

def found_number(sheet, name):
    """By the sheet's own index, or by slots that all hold 0 where it is refused; FREE for none."""
    try:
        slots = skriduhol.name_index(sheet)
    except Refused:
        slots = [0] * skriduhol.SLOT_COUNT
    found = skriduhol.find_name(sheet, slots, name)
    return skriduhol.FREE if found is None else found

def read_numbers(read):
    """The numbers of the nodes, the names and the code."""
    return [number for node in read.nodes for number in node], read.names, read.code

def judged_number(sheet, numbers, proposition):
    """The node of a no, or 65,535 for yes; a last number may stand alone."""
    judged = skriduhol.judge(sheet, [numbers[at:at + 2] for at in range(0, len(numbers), 2)], proposition)
    return 65535 if judged else judged.node

class Answers(unittest.TestCase):
    """The stored answers of the oracle, laid out as tests/oracle/README.md says."""

    QUESTIONS = {
        0: lambda sheet, room: skriduhol.plain_text(sheet, room=room).encode(),
        1: lambda sheet, room: skriduhol.strict_text(sheet, room=room).encode(),
        2: lambda sheet, room: [number for atom in skriduhol.atom_list(sheet, room=room) for number in atom],
        3: lambda sheet, room: skriduhol.datatype_list(sheet, room=room),
        4: skriduhol.label_count,
        5: skriduhol.compare,
        6: skriduhol.board_output,
        7: lambda sheet, version, room: skriduhol.handout(sheet, version, room=room).encode(),
        8: lambda sheet, version, room: skriduhol.handout(sheet, version, Style.STRICT, room=room).encode(),
        9: lambda sheet, version, room: skriduhol.handout_datatypes(sheet, version, room=room),
        10: lambda names, n, ordinal, room: skriduhol.exercise(
            names.decode("latin-1").split("\n") if names else [], n, ordinal, room=room),
        11: skriduhol.name_index,
        12: lambda sheet, name: found_number(sheet, name),
        13: lambda sheet, *given: skriduhol.restate(sheet, Given(*given[:5]), room=given[5])[0],
        14: lambda both, own, theirs, step, room: skriduhol.graft(both[:own], step, both[own:own + theirs], room=room)[0],
        15: lambda text, names, *room: read_numbers(skriduhol.read_term(
            text, names.decode("latin-1").split("\n") if names else [], room=room)),
        16: lambda sheet, numbers, proposition: judged_number(sheet, numbers, proposition),
    }
    ASKED = {**dict.fromkeys(range(4), "<I"), 5: "<2H", **dict.fromkeys(range(7, 10), "<QI"), 10: "<2QI", 13: "<5HI",
             14: "<2IQI"}
    LISTS = (2, 3, 9, 11)

    def read(self):
        data, at = (ROOT / "crates" / "replay" / "data" / "answers").read_bytes(), 0

        def take(layout):
            nonlocal at
            at += struct.calcsize(layout)
            return struct.unpack_from(layout, data, at - struct.calcsize(layout))

        def asked_of(kind):
            if kind == 15:
                return take("<%ds" % take("<H")) + take("<3I")
            if kind == 16:
                return take("<%dH" % take("<B")), *take("<Q")
            return take("<%ds" % take("<B") if kind == 12 else self.ASKED.get(kind, "<"))

        for entry in range(*take("<I")):
            content, = take("<%ds" % take("<I"))
            for _ in range(*take("<B")):
                kind, = take("<B")
                asked = asked_of(kind)
                number, value = take("<BI")
                if number:
                    answer = number, value, *take("<HB" if kind == 14 else "<H")
                elif kind in (4, 5, 12, 16):
                    answer = value
                elif kind == 15:
                    names, code = take("<HI")
                    numbers, pairs = list(take(f"<{7 * value}H")), take(f"<{2 * names}H")
                    words = [content[at:at + length].decode() for at, length in zip(pairs[::2], pairs[1::2])]
                    answer = numbers, words, *take(f"<{code}s")
                else:
                    answer = list(take(f"<{value}H")) if kind in self.LISTS else take(f"<{value}s")[0]
                yield entry, content, kind, asked, answer

    def test_every_stored_answer(self):
        met, kinds = set(), set()
        for entry, content, kind, asked, answer in self.read():
            kinds.add(kind)
            try:
                found = self.QUESTIONS[kind](content, *asked)
            except Refused as refused:
                found = refused.number, refused.place, refused.column, *([refused.whose.value] if kind == 14 else [])
                met.add(refused.number)
            self.assertEqual(found, answer, (entry, kind, asked))
        # 18 does not occur; 20 is of a text that is read, and 22 and 31 of a judgement, where the stored answers have such.
        of_kinds = {15: {20}, 16: {22, 31}}
        self.assertEqual(met, set(skriduhol.REFUSALS) - {18}.union(*(of_kinds[kind] for kind in of_kinds.keys() - kinds)))

class Module(unittest.TestCase):
    def test_every_function_of_the_header_is_called(self):
        header = (ROOT / "include" / "skriduhol.h").read_text(encoding="utf-8")
        source = pathlib.Path(skriduhol.__file__).read_text(encoding="utf-8")
        called = set(re.findall(r'_function\("(\w+)"', source)) | set(re.findall(r"_library\.skriduhol_(\w+)", source))
        self.assertEqual(called, set(re.findall(r"skriduhol_([a-z_]+)\(", header)))

    def test_the_constants_of_the_header(self):
        header = (ROOT / "include" / "skriduhol.h").read_text(encoding="utf-8")
        defined = {name: int(value) for name, value in re.findall(r"#define SKRIDUHOL_(\w+) (\d+)", header)}
        self.assertEqual({name: getattr(skriduhol, name) for name in defined}, defined)
        refusals = re.findall(r"/\* (\w+): (.*) \*/\n +SKRIDUHOL_REFUSED_\w+ = (\d+)", header)
        self.assertEqual({int(number): (place, words) for place, words, number in refusals}, skriduhol.REFUSALS)

    def test_all_that_is_public_is_typed_and_said(self):
        for name in skriduhol.__all__:
            value = getattr(skriduhol, name)
            if callable(value):
                self.assertTrue(value.__doc__, name)
                if not isinstance(value, type):
                    self.assertIn("return", typing.get_type_hints(value))
        self.assertTrue((pathlib.Path(skriduhol.__file__).parent / "py.typed").exists())

    def test_the_program(self):
        def run(*words):
            return subprocess.run([sys.executable, "-m", "skriduhol", *map(str, words)], capture_output=True, text=True, check=False)

        sheets = ROOT / "examples" / "sheets"
        answer = run(sheets / "labelled_function.sheet")
        self.assertEqual((answer.returncode, answer.stdout), (0, "atom A;\n\n\n(fn u: A => u) v\nlabels: 1\natoms: 0 0\ndatatypes:\n"))
        answer = run(sheets / "refused.sheet", 1)
        self.assertEqual((answer.returncode, answer.stdout[:25]), (1, "refused 14 at 1 column 3:"))
        for words in ((), ("a", "b"), ("a", "1", "2"), (sheets / "none.sheet",), (sheets,)):
            answer = run(*words)
            self.assertEqual((answer.returncode, answer.stdout, answer.stderr.count("\n")), (2, "", 1))

if __name__ == "__main__":
    unittest.main()
