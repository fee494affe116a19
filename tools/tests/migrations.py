"""Tests of how `compare/run --migrations` holds a server's answers against a trace: without a server, and without the program."""
import importlib.util
import pathlib
import types
import unittest

TOP = pathlib.Path(__file__).resolve().parent.parent.parent
# (by its file: other modules of compare have names that tools has too)
SPEC = importlib.util.spec_from_file_location("compare_answers", TOP / "compare/answers.py")
ANSWERS = importlib.util.module_from_spec(SPEC)
SPEC.loader.exec_module(ANSWERS)

TRACE = """version = 1

#journal
1 op word ok 0
2 insp call other
3 c1 call rows 2
(2)
(1)
4 copy call-before lost
5 apply call ok 2
6 ren rename waits 4
7 ren poll waits 4
8 lock cut lost
9 ren poll timeout 2
10 c2 call-after lost waited
done
table t (id)
(1)
tables t
"""


def turn(actor, answer, **named):
    return types.SimpleNamespace(**{"actor": actor, "answer": answer, "note": "", "side": "", "wait": 0, "reply": None, "line": "", "what": "", "blockers": None, "early": set(), **named})


def turns():
    """The turns of that trace, as a server's answers make them."""
    return [
        turn("op", "ok 0"),
        turn("insp", "other", what="show tables"),
        turn("c1", "rows 2", reply=("c1", "1.1 rows 2", "(1)", "(2)")),
        turn("copy", "lost", side="before"),
        turn("apply", "ok 2", line="REPLACE INTO `_t_gho` (`id`) VALUES (1)"),
        turn("ren", "waits", what="rename", wait=1, note="waits"),
        turn("ren", "waits", what="rename", wait=1, note="waits"),
        turn("lock", "lost", note="cut"),
        turn("ren", "timeout 2", what="rename", wait=1),
        turn("c2", "lost waited", side="after"),
    ]


class Answers(unittest.TestCase):
    def test_lines(self):
        self.assertEqual(ANSWERS.lines_of(turns()), ANSWERS.printed_lines(TRACE))
        self.assertEqual(ANSWERS.compared(turns(), TRACE), (10, 0, None))

    def test_no_trace(self):
        self.assertIsNone(ANSWERS.printed_lines("usage: check | replay\n"))

    def test_traces_of_the_tools(self):
        """A line for each turn of every trace."""
        for file in TOP.glob("tools/tests/traces/*.trace"):
            lines = ANSWERS.printed_lines(file.read_text())
            self.assertEqual([int(line[0].split()[0]) for line in lines], list(range(1, len(lines) + 1)), file)

    def test_blockers(self):
        """Sessions are numbered as they are opened: insp, c1, copy, apply, ren, and lock, c2 behind them."""
        for first, second, behind, reported in (
            (None, None, (), ([], None)),
            ({"apply"}, {"apply", "c1"}, (), ([2], None)),
            ({"apply"}, {"ren", "c9"}, (), ([1], "7 ren poll waits 4")),
            ({"ren"}, {"apply"}, (), ([1, 1], None)),
            ({"c1"}, None, (), ([], "6 ren rename waits 4")),
            ({"c1"}, None, {"apply"}, ([1], None)),
            (set(), None, (), ([], "6 ren rename waits 4")),
        ):
            given = turns()
            given[5].blockers, given[6].blockers, given[5].behind, given[6].behind = first, second, behind, ()
            with self.subTest(reported):
                ways, other = ANSWERS.blockers_compared(given, TRACE)
                self.assertEqual((list(ways.values()), other and other.partition(",")[0]), reported)

    def test_blocker_that_is_answered(self):
        """The server has answered the copier, who waits for c1 in the model: c2 waits for c1, and in the server for the copier."""
        trace = "\n#journal\n1 copy call other\n2 c1 call ok 1\n3 copy call waits 2\n4 c2 call waits 2\ndone\n"
        for early, reported in (({"copy"}, ([1], None)), (set(), ([], "4 c2 call waits 2"))):
            given = [turn("copy", "other"), turn("c1", "ok 1"), turn("copy", "waits"), turn("c2", "waits", blockers={"copy"}, behind=(), early=early)]
            with self.subTest(reported):
                ways, other = ANSWERS.blockers_compared(given, trace)
                self.assertEqual((list(ways.values()), other and other.partition(",")[0]), reported)

    def test_other_answers(self):
        for at, change, reported in (
            (1, {"answer": "ok 0"}, "turn 2"),
            (2, {"reply": ("c1", "1.1 rows 2", "(1)", "(3)")}, "turn 3"),
            (5, {"what": "drop"}, "turn 6"),
            (6, {"wait": 2}, "turn 7"),
            (8, {"answer": "ok 0"}, "turn 9"),
        ):
            wrong = turns()
            wrong[at].__dict__.update(change)
            with self.subTest(reported):
                self.assertTrue(ANSWERS.compared(wrong, TRACE)[2].startswith(reported + ","))
        self.assertEqual(ANSWERS.compared(turns()[:-1], TRACE)[2], "the program has 10 turns, and the server 9")

    def test_equal_row(self):
        wrong = turns()
        wrong[4].answer = "ok 1"
        self.assertEqual(ANSWERS.compared(wrong, TRACE), (9, 1, None))
        wrong[4].line = "INSERT INTO `_t_gho` (`id`) VALUES (1)"
        self.assertTrue(ANSWERS.compared(wrong, TRACE)[2].startswith("turn 5, INSERT"))

    def test_words(self):
        for reported, text in ((("ok", 3), "ok 3"), (("refused", 1406, "c"), "error 1406"), (("waits", True), "other"), (("at", 7), "other")):
            self.assertEqual(ANSWERS.answer_text(reported), text)
        for case, text in (((True, False, False), "done"), ((True, True, False), "refused"), ((False, False, False), "waited"), ((False, False, True), "refused")):
            self.assertEqual(ANSWERS.loss_text(*case), f"lost {text}")
