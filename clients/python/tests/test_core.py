"""The core, which has no input and output: what is sent, and what the bytes that come settle, however they are cut."""

import random
import tracemalloc
import unittest

import helpers  # puts the package on the path of modules

from tsearch.answers import Answer, View, joined
from tsearch.core import Core, after_line, ended_by, value_of
from tsearch.errors import Cancelled, ChangeRefused, Ended, NotUnderstood, OptionRefused, PatternRefused, PublishRefused, SearchRefused, TooSlow
from tsearch.merging import split
from tsearch.query import Query


def cut(data: bytes, source: random.Random) -> list[bytes]:
    """The data in pieces."""
    pieces, at = [], 0
    while at < len(data):
        step = source.choice([1, 2, 3, 7, 50, 1_000])
        pieces.append(data[at : at + step])
        at += step
    return pieces


class Sending(unittest.TestCase):
    def test_items_are_as_the_page_says(self) -> None:
        core = Core()
        self.assertEqual(b"".join(core.put("a b:%", b"x\ny\n")[1]), b"put a%20b:%25 4\nx\ny\n\n")
        self.assertEqual(b"".join(core.load("a", b"/tmp/a b")[1]), b"load a /tmp/a b\n")
        self.assertEqual(b"".join(core.remove(b"\xff\n")[1]), b"remove \xff%0A\n")
        self.assertEqual(b"".join(core.remove_under("a b/")[1]), b"removeunder a%20b/\n")
        copied, parts = core.copy_under("a b/", b"\xff:")
        self.assertEqual((b"".join(parts), copied.name), (b"copyunder a%20b/ \xff:\n", b"\xff:"))
        self.assertEqual(b"".join(core.publish()[2]), b"publish\nstatus\n")
        for query, item in (
            (Query.of("o w"), b"find -Z -- o w\n"),
            (Query.of("", "", limit=3), b"find -Z -n  -m 3 -- \n"),
            (Query.of("-- x", ["a", b"\xff"], "c", invert=True), b"find -Z -v -n a -n \xff -N c -- -- x\n"),
            (Query.of("x", ignore_case=True, literal=True, whole_words=True, whole_lines=True), b"find -Z -i -F -w -x -- x\n"),
            (Query.of("x", not_names=["a"], names_ignore_case=True, context=0), b"find -Z -I -N a -C 0 -- x\n"),
            (Query.of("x", under="a b/", not_under=["a b/\xff", b"%"]), b"find -Z --under a%20b/ --not-under a%20b/\xc3\xbf --not-under %25 -- x\n"),
            (Query.of("x", column=True), b"find -Z --column -- x\n"),
            (Query.of("x", spans=True), b"find -Z --spans -- x\n"),
            (Query.of("x", names_only=True), b"find -Z -l -- x\n"),
            (Query.of("x", counts=True), b"find -Z -c -- x\n"),
            (Query.of("x", header_only=True, limit=1), b"find -Z -q -m 1 -- x\n"),
            (Query.of("x", limit=1, lane="visitor-7"), b"find -Z -m 1 --lane visitor-7 -- x\n"),
            (Query.of("x", under="a b/", not_under=["c", b"\xff\n"]), b"find -Z --under a%20b/ --not-under c --not-under \xff%0A -- x\n"),
            (Query.of("x", "y", under=["a", "b"], limit=2), b"find -Z -n y --under a --under b -m 2 -- x\n"),
            (Query.of("x", lane=b"\xff" * 64), b"find -Z --lane " + b"\xff" * 64 + b" -- x\n"),
        ):
            self.assertEqual(core.find(query)[1], [item])
        both = Query.of("x", context=1, spans=True, limit=2).parts()
        self.assertEqual([query.item() for query in both], [b"find -Z -m 2 -C 1 -- x\n", b"find -Z --spans -m 2 -- x\n"])

    def test_what_would_be_something_else_is_not_sent(self) -> None:
        core = Core()
        for pattern, reason, offset in ("a\nremove a", "bad byte", 1), ("a" * 1_025, "pattern too long", 1_024):
            for number, query in enumerate([Query.of(pattern), Query.of("x", pattern), Query.of("x", "y", ["z"] * 3 + [pattern])]):
                with self.assertRaises(PatternRefused) as raised:
                    core.find(query)
                found = raised.exception
                self.assertEqual((found.reason, found.offset, found.number), (reason, offset, [0, 1, 5][number]))
                self.assertEqual(found.pattern, pattern.encode())
        for name in "ab c", ["x", "ab publish"]:
            with self.assertRaises(PatternRefused) as raised:
                core.find(Query.of("x", not_names=name))
            self.assertEqual(raised.exception.offset, 2)
        for lane in "", "a b", "a\npublish", "a" * 65, "\u00e9" * 33:
            with self.assertRaises(OptionRefused) as refused:
                core.find(Query.of("x", lane=lane))
            self.assertEqual(refused.exception.reason, "option --lane needs a word of 1 to 64 bytes")
        for prefixes in {"under": ""}, {"not_under": ["a", b""]}:
            with self.assertRaises(OptionRefused) as refused:
                core.find(Query.of("x", **prefixes))
            self.assertEqual(refused.exception.reason, f"option --{next(iter(prefixes)).replace('_', '-')} needs a word of 1 byte or more")
        # as in the program, name patterns come first
        for query, number in (Query.of("a\nb", "c d", "e f"), 1), (Query.of("a\nb", "c", "e f"), 2), (Query.of("a\nb", "c", "e"), 0):
            with self.assertRaises(PatternRefused) as raised:
                core.find(query)
            self.assertEqual((raised.exception.number, raised.exception.offset), (number, 1))
        for name, reason in (b"", "name empty"), (b"n" * 4_097, "name too long"), (b" " * 1_366, "name too long"):
            for call in (lambda: core.put(name, b""), lambda: core.remove(name), lambda: core.remove_under(name), lambda: core.load(name, b"x")):
                with self.assertRaises(ChangeRefused) as raised:
                    call()
                self.assertEqual((raised.exception.reason, raised.exception.name), (reason, name))
            for words, called in ((name, "to"), b"to"), (("from", name), name):
                with self.assertRaises(ChangeRefused) as raised:
                    core.copy_under(*words)
                self.assertEqual((raised.exception.reason, raised.exception.name), (reason, called))
        for path in b"", b"a\nb", b"a\0":
            self.assertRaises(ChangeRefused, core.load, "a", path)
        self.assertEqual(str(ChangeRefused("name empty", b"")), "name empty")
        # a number is neither a text nor as many bytes 0
        for call in (lambda: core.put(3, b""), lambda: core.remove(3), lambda: core.find(Query.of(3))):
            self.assertRaises(TypeError, call)
        # nothing of that was counted
        search, parts = core.find(Query.of("x"))
        self.assertEqual((search.number, search.line, parts), (1, 1, [b"find -Z -- x\n"]))

    def test_lines_of_bodies_are_counted(self) -> None:
        core = Core()
        core.put("a", b"1\n2\n3")
        self.assertEqual(core.find(Query.of("x"))[0].line, 5)


class Receiving(unittest.TestCase):
    def talk(self) -> tuple[Core, list, bytes]:
        """Items, and what a session writes to them, with entries out of order and lines that look like texts of a session."""
        core = Core(life=3)
        sent = [core.put("a", b"1\n2")[0]]  # lines 1 to 3
        sent.append(core.put("b", b"x\0")[0])  # 4, 5
        sent.append(core.find(Query.of("x"))[0])  # 6, search 1
        sent.append(core.find(Query.of("(", whole_words=True))[0])  # 7, search 2
        publish, status, _ = core.publish()  # 8, 9
        sent += [publish, status]
        sent.append(core.find(Query.of("y", limit=2))[0])  # 10, search 3
        sent.append(core.remove("c d")[0])  # 11
        sent.append(core.find(Query.of("z"))[0])  # 12, search 4
        sent.append(core.find(Query.of("s"))[0])  # 13, search 5
        sent.append(core.find(Query.of("m", ["a", "[z-a]"]))[0])  # 14, search 6
        sent.append(core.find(Query.of("q", header_only=True))[0])  # 15, search 7
        sent.append(core.find(Query.of("c", counts=True))[0])  # 16, search 8
        sent.append(core.find(Query.of("k", context=1))[0])  # 17, search 9
        sent.append(core.find(Query.of("o", names_only=True, counts=True))[0])  # 18, search 10
        sent.append(core.status()[0])  # 19
        written = (
            b"line 4 refused: byte 0 in body\nsearch 2 refused: group not closed at 0\n"
            b"line 9 status version 1 documents 1 bytes 3 accepted 1 of 9 open 1\n"
            b"search 3 version 1 lines 2 and more candidates 1 of 1\na\0" b"1:search 9 version 1 lines 7\na%20b\0" b"7::y\n"
            b"line 11 refused: no such file\nsearch 5 refused: too slow\nsearch 4 refused: out of memory\n"
            b"search 7 version 1 lines 4 and more\nsearch 8 version 1 names 2 candidates 2 of 2\na:1\0" b"1\nb\0" b"12\n"
            b"search 6 refused: name pattern 2: bad range at 1\nsearch 1 version 0 lines 0\n"
            b"search 9 version 1 lines 1 rows 3\n--\0" b"1:--\n--\n--\0" b"9-k:\n"
            b"search 10 refused: -l and -c exclude each other\n"
            b"line 19 status version 1 documents 1 bytes 3 accepted 1 of 9 open 0\n"
        )
        return core, sent, written

    def check(self, sent: list) -> None:
        put, bad_put, first, refused, publish, status, limited, removed, no_memory, slow, bad_name, header, counts, context, options, last = sent
        self.assertIsNone(value_of(put))
        self.assertIsNone(value_of(publish))
        self.assertEqual((bad_put.error.reason, bad_put.error.name), ("byte 0 in body", b"b"))
        self.assertEqual((len(first.value), first.value.version, first.value.life), (0, 0, 3))
        self.assertEqual((refused.error.reason, refused.error.offset), ("group not closed", 0))
        self.assertEqual((status.value.version, status.value.open, status.value.refused), (1, 1, (bad_put.error,)))
        answer = limited.value
        self.assertEqual(helpers.plain(answer), [(b"a", 1, b"search 9 version 1 lines 7"), (b"a b", 7, b":y")])
        self.assertEqual((answer.count, len(answer), answer.more, answer.candidates, answer.documents), (2, 2, True, 1, 1))
        self.assertEqual((header.value.count, header.value.more, len(header.value)), (4, True, 0))
        self.assertEqual((counts.value.counts(), counts.value.names(), counts.value.more), ({b"a:1": 1, b"b": 12}, [b"a:1", b"b"], False))
        self.assertEqual(helpers.shown(context.value)[2], [(b"--", 1, b"--", None, None, True), None, (b"--", 9, b"k:", None, None, False)])
        for call in header.value.rows, counts.value.hits, context.value.names, answer.counts:
            self.assertRaises(ValueError, lambda call=call: list(call()))
        self.assertEqual((type(options.error), options.error.reason), (OptionRefused, "-l and -c exclude each other"))
        self.assertEqual((type(removed.error), removed.error.name), (ChangeRefused, b"c d"))
        self.assertEqual([type(no_memory.error), type(slow.error)], [SearchRefused, TooSlow])
        self.assertEqual((bad_name.error.number, bad_name.error.offset, bad_name.error.pattern), (2, 1, b"[z-a]"))
        self.assertEqual(last.value.refused, ())

    def test_texts_cut_anywhere(self) -> None:
        for seed in range(200):
            core, sent, written = self.talk()
            settled = [one for piece in cut(written, random.Random(seed)) for one in core.receive(piece)]
            self.assertCountEqual(settled, sent)
            self.check(sent)
            self.assertFalse(core.open_numbers)

    def test_all_at_once_and_byte_by_byte(self) -> None:
        for pieces in (lambda data: [data], lambda data: [data[at : at + 1] for at in range(len(data))]):
            core, sent, written = self.talk()
            for piece in pieces(written):
                core.receive(piece)
            self.check(sent)

    def test_what_has_come_is_not_copied_with_each_piece(self) -> None:
        core, count = Core(), 2_000
        search = core.find(Query.of("x"))[0]
        core.receive(b"search 1 version 0 lines %d\n" % count)
        piece = b"a\0" + b"1:" + b"x" * 1_000 + b"\n"
        tracemalloc.start()
        self.addCleanup(tracemalloc.stop)
        for _ in range(count - 1):
            tracemalloc.reset_peak()
            before, _ = tracemalloc.get_traced_memory()
            core.receive(piece)
            self.assertLess(tracemalloc.get_traced_memory()[1] - before, 100 * len(piece))
        self.assertEqual(core.receive(piece), [search])
        self.assertEqual(search.value.data, piece * count)

    def test_end_in_the_middle_settles_all(self) -> None:
        for end in range(0, 300, 3):
            core, sent, written = self.talk()
            core.receive(written[:end])
            core.end(ended_by(-9, "gone"))
            self.assertTrue(all(one.is_settled for one in sent))
            self.assertTrue(all(type(one.error) is Ended for one in sent[-1:]))

    def test_cancels(self) -> None:
        core = Core()
        first, second = core.find(Query.of("a"))[0], core.find(Query.of("b"))[0]
        self.assertEqual(core.cancel(first), [b"cancel 1\n"])
        self.assertEqual(core.cancel(first), [])
        # the second is cancelled while its lines come
        core.receive(b"search 2 version 0 lines 3\na\0" b"1:x\na\0" b"2")
        self.assertEqual(core.cancel(second), [])
        self.assertEqual(core.receive(b":x\na\0" b"3:x\nsearch 1 refused: cancelled\n"), [second, first])
        self.assertEqual([type(first.error), type(second.error)], [Cancelled, Cancelled])
        third = core.find(Query.of("c"))[0]
        core.receive(b"search 3 version 0 lines 1\na\0" b"1:x\n")
        self.assertEqual((core.cancel(third), len(third.value)), ([], 1))
        # an answer that comes in spite of the cancel is passed over, and not kept
        fourth = core.find(Query.of("d"))[0]
        core.cancel(fourth)
        core.receive(b"search 4 version 0 lines 2\na\0" b"1:x\n")
        self.assertEqual((core._coming.left, core._coming.parts), (1, []))
        core.receive(b"a\0" b"2:x\n")
        self.assertIsInstance(fourth.error, Cancelled)

    def test_a_status_leaves_refusals_to_the_publish(self) -> None:
        core = Core()
        put, status = core.put("a", b"\0")[0], core.status()[0]
        core.receive(b"line 1 refused: full\nline 3 status version 0 documents 0 bytes 0 accepted 0 of 9 open 0\n")
        _, second, _ = core.publish()
        core.receive(b"line 5 status version 0 documents 0 bytes 0 accepted 0 of 9 open 0\n")
        self.assertEqual((status.value.refused, second.value.refused), ((), (put.error,)))

    def test_a_refused_publish(self) -> None:
        """What was refused before is told by the next one."""
        core = Core()
        remove = core.remove("a")[0]
        publish, status, _ = core.publish()
        core.receive(b"line 1 refused: no such file\nline 2 refused: out of memory\nline 3 status version 0 documents 0 bytes 0 accepted 0 of 9 open 0\n")
        self.assertIsInstance(publish.error, PublishRefused)
        self.assertEqual(status.value.refused, ())
        again = core.publish()[1]
        core.receive(b"line 5 status version 0 documents 0 bytes 0 accepted 0 of 9 open 0\n")
        self.assertEqual(again.value.refused, (remove.error,))

    def test_who_has_a_list_for_refusals(self) -> None:
        """No publish tells them then, and they are there before its status."""
        core, own = Core(), []
        first, second = core.remove_under("a/")[0], core.remove("b")[0]
        first.refusals = own
        status = core.publish()[1]
        core.receive(b"line 1 refused: no such file\n")
        self.assertEqual(own, [first.error])
        core.receive(b"line 2 refused: no such file\nline 4 status version 0 documents 0 bytes 0 accepted 0 of 9 open 0\n")
        self.assertEqual((own, status.value.refused), ([first.error], (second.error,)))

    def test_what_no_session_writes(self) -> None:
        for written in (
            b"hello\n",
            b"search 2 version 0 lines 0\n",
            b"search 1 version 0 lines\n",
            b"line 9 refused: bad line\n",
            b"line 1 status version 0\n",
            b"x" * 2_000,
            b"search 1 version 0 lines 1\na\0" b"1:x\nsearch 1 version 0 lines 0\n",
            b"search 1 version 0 lines 1 and rows 1\n",
        ):
            with self.subTest(written=written[:40]):
                core = Core()
                core.find(Query.of("x"))
                self.assertRaises(NotUnderstood, core.receive, written)

    def test_answers_of_two_lives_are_not_joined(self) -> None:
        first, second, other = (Answer(life, 6, 0, False, View.LINES, b"") for life in (1, 1, 2))
        self.assertEqual((joined([first, second]).life, joined([first, other])), (1, None))

    def test_where_documents_end(self) -> None:
        source = random.Random(3)
        for _ in range(500):
            places, data, has_gaps = [], b"", source.random() < 0.5
            for name in sorted({bytes(source.choices(b"-a:!\xff", k=source.randint(1, 3))) for _ in range(source.randint(0, 8))}):
                data += b"--\n" if data and has_gaps else b""
                rows = b""
                for number in range(source.choice([1, 2, 3, 17, 100])):
                    rows += b"--\n" if rows and has_gaps and source.random() < 0.2 else b""
                    rows += b"%s\0%d:%s\n" % (name, number, bytes(source.choices(b"-a:!\r\xff", k=source.randint(0, 6))))
                places.append((len(data), len(data) + len(name) + 1, len(data) + len(rows)))
                data += rows
            self.assertEqual(split(Answer(1, 1, 0, False, View.CONTEXT, data)).places, places)

    def test_where_lines_end(self) -> None:
        source = random.Random(5)
        for _ in range(500):
            data = bytes(source.choices(b"a\n\nb", k=source.randint(1, 40)))
            at = source.randrange(len(data))
            for lines in range(1, data.count(b"\n", at) + 1):
                found = after_line(data, at, lines)
                self.assertEqual((data[at:found].count(b"\n"), data[found - 1 : found]), (lines, b"\n"))


if __name__ == "__main__":
    assert helpers.PACKAGE.is_dir()
    unittest.main()
