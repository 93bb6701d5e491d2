"""The session for threads: answers against a plain model, kills, refusals, slow programs and slow readers."""

import os
import pathlib
import pickle
import random
import signal
import socket
import subprocess
import sys
import tempfile
import threading
import time
import tracemalloc
import unittest
import unittest.mock

from helpers import SECONDS, SLOW, Model, hits_of, plain, shown, slow_documents, stand_in, state_of, stop, stopped, until

import tsearch
from tsearch.program import main as run_program
from tsearch.query import document_pattern


def threads(count, run) -> list:
    """Runs a function in so many threads, with their numbers, and gives what they raise."""
    faults = []

    def call(number: int) -> None:
        try:
            run(number)
        except BaseException as fault:  # whatever it is, it is compared
            faults.append(fault)

    running = [threading.Thread(target=call, args=(number,)) for number in range(count)]
    for thread in running:
        thread.start()
    for thread in running:
        thread.join(SECONDS)
    if any(thread.is_alive() for thread in running):
        faults.append(AssertionError("a thread waits"))
    return faults


class Answers(unittest.TestCase):
    def test_many_threads_share_a_session(self) -> None:
        model = Model(1)
        for readers in 0, 2, 8:
            with self.subTest(readers=readers), tsearch.Session(readers=readers, most_open=20) as session:
                for name, body in model.documents.items():
                    session.put(name, body)
                self.assertEqual(session.publish().documents, len(model.documents))

                def search(number: int) -> None:
                    source = random.Random(number)
                    for _ in range(25):
                        pattern, options = source.choice(model.PATTERNS), model.options(source)
                        answer = shown(session.find(pattern, timeout=SECONDS, **options))
                        if answer != model.find(pattern, **options):
                            raise AssertionError(f"{pattern} {options}: {answer}, and not {model.find(pattern, **options)}")

                self.assertEqual(threads(16, search), [])
                self.assertEqual(session.status(SECONDS).open, 0)

    def test_answers_beside_changes(self) -> None:
        """Each publish writes the same number into two documents: an answer shows it twice, and no thread sees it fall."""
        with tsearch.Session() as session:
            done = threading.Event()

            def search(number: int) -> None:
                last, options = -1, {"context": 0, "spans": True} if number % 2 else {"spans": True}
                while not done.is_set():
                    answer = session.find("^[0-9]+$", timeout=SECONDS, **options)
                    texts = {hit.text for hit in answer}
                    # the lengths change with the versions
                    if any(hit.spans != ((0, len(hit.text)),) for hit in answer):
                        raise AssertionError(answer.hits())
                    if len(answer) not in (0, 2) or len(texts) > 1 or (texts and int(min(texts)) < last):
                        raise AssertionError(f"{answer.hits()} after {last}")
                    last = int(min(texts, default=b"-1"))

            def change() -> None:
                for number in range(200):
                    session.put("a", str(number))
                    session.put("b", str(number))
                    # no older than the publish before
                    published = session.publish(SECONDS)
                    answer = session.find(f"^{number}$", whole_lines=True, timeout=SECONDS)
                    if (len(answer), answer.version) != (2, published.version):
                        raise AssertionError(answer)
                done.set()

            def run(number: int) -> None:
                try:
                    change() if number == 0 else search(number)
                finally:
                    done.set()

            self.assertEqual(threads(6, run), [])

    def test_names_and_values(self) -> None:
        names = [b"a b", b"a:1:x", b"100%", b"\xff\xfe", "é".encode(), b"line\nfeed", b"~!@#", b"%41"]
        with tsearch.Session(stats=True) as session:
            for name in names:
                session.put(name, b"x \xff:y\nno")
            session.publish()
            answer = session.find("x")
            self.assertEqual(sorted(hit.name for hit in answer), sorted(names))
            self.assertEqual({hit[1:3] for hit in answer}, {(1, b"x \xff:y")})
            self.assertEqual({hit.text for hit in answer.texts()}, {"x \ufffd:y"})
            self.assertEqual(answer.documents, len(names))
            self.assertEqual([name for name, _ in answer.by_document()], session.find("x", names_only=True).names())
            self.assertEqual(plain(session.find("x", names="^a%20b$")), [(b"a b", 1, b"x \xff:y")])
            for name in names:
                session.remove(name).wait(SECONDS)
            self.assertEqual(session.publish().documents, 0)

    def test_names_under_a_prefix(self) -> None:
        """Names are compared as they are given, not as they are sent."""
        names = [b"%41/b", b"%41", b"A/b", b"a b/c", b"a b", b"a/b", b"\xff/a", b"\xff"]
        for prefix in b"%", b"%41/", b"A", b"a", b"a ", b"a b/c", b"\xff", b"\xff/", b"x", b"a%":
            left = [name for name in names if not name.startswith(prefix)]
            with self.subTest(prefix), tsearch.Session() as session:
                for name in names:
                    session.put(name, b"x")
                change = session.remove_under(prefix)
                self.assertEqual(change.name, prefix)
                published = session.publish()
                self.assertEqual([refusal.reason for refusal in published.refused], ["no such file"] * (left == names))
                self.assertEqual((published.documents, published.accepted), (len(left), len(names) + (left != names)))
                self.assertEqual(sorted(session.find("x", names_only=True).names()), sorted(left))

    def test_copies_under_a_prefix(self) -> None:
        """They are of what was accepted before, published or not, and also in the place of what is there."""
        bodies = {b"a b/c": b"x1\n", b"a b/d": b"x2\n", b"a b": b"x3\n", b"\xff/c": b"x4\n", b"\xff": b"x5\n"}
        for prefix, to in (b"a b/", b"\xff/"), (b"a b/", b"a b/new/"), (b"a b", b"%41"), (b"\xff", b"\xff"), (b"none", b"x"), (b"a b", b"n" * 4_096):
            copied = {to + name.removeprefix(prefix): body for name, body in bodies.items() if name.startswith(prefix)}
            is_refused = not copied or any(len(name) > 4_096 for name in copied)
            left = bodies if is_refused else {**bodies, **copied}
            with self.subTest((prefix, to)), tsearch.Session() as session:
                for name, body in bodies.items():
                    session.put(name, body)
                change = session.copy_under(prefix, to)
                self.assertEqual(change.name, to)
                published = session.publish()
                self.assertEqual([refusal.name for refusal in published.refused], [to] * is_refused)
                self.assertEqual((published.documents, published.accepted), (len(left), len(bodies) + (not is_refused)))
                self.assertEqual(sorted(plain(session.find("x"))), sorted((name, 1, body[:-1]) for name, body in left.items()))
                # what is copied stays when the other changes
                session.put(b"a b/c", b"x6\n")
                session.remove(b"a b/d")
                session.publish()
                left = {**left, b"a b/c": b"x6\n"}
                del left[b"a b/d"]
                self.assertEqual(sorted(plain(session.find("x"))), sorted((name, 1, body[:-1]) for name, body in left.items()))

    def test_searches_under_prefixes(self) -> None:
        names = [b"%41/b", b"%41", b"A/b", b"a b/c", b"a b", b"a/b", b"\xff/a", b"\xff"]
        with tsearch.Session() as session:
            for name in names:
                session.put(name, b"x")
            session.publish()
            for under, not_under in (b"%", []), ("a ", "a b/"), ([b"\xff", "A"], []), ([], ["a", b"%41/"]), ("a/b", "a"), (["a b/c/"], []):
                with self.subTest(under=under, not_under=not_under):
                    first, second = (tuple(map(tsearch.names.to_bytes, [one] if isinstance(one, (str, bytes)) else one)) for one in (under, not_under))
                    wanted = [name for name in names if (not first or name.startswith(first)) and not name.startswith(second)]
                    found = session.find("x", names_only=True, under=under, not_under=not_under).names()
                    self.assertEqual(sorted(found), sorted(wanted))
            many = [f"{number}/" for number in range(4_095)]
            self.assertEqual(session.find("x", names_only=True, under=[*many, "a/"], not_under=many).names(), [b"a/b"])
            for options, reason in (
                ({"under": ""}, "option --under needs a word of 1 byte or more"),
                ({"not_under": ["a", b""]}, "option --not-under needs a word of 1 byte or more"),
                ({"under": [*many, "a", "b"]}, "option --under over 4096 times"),
            ):
                with self.assertRaises(tsearch.OptionRefused) as refused:
                    session.find("x", timeout=SECONDS, **options)
                self.assertEqual(refused.exception.reason, reason)

    def test_escaped_texts(self) -> None:
        """The pattern that is made of a text finds this text alone, whatever its bytes mean in a pattern."""
        texts = [b"a%cb" % byte for byte in range(1, 256) if byte != 10] + [b"ab", b"aab", b"a{2}b", b"a(b)c", b"[ab]", b"^a$"]
        with tsearch.Session() as session:
            for text in texts:
                session.put(text, text)
            session.publish()
            for text in texts:
                found = session.find(tsearch.escape(text), whole_lines=True, timeout=SECONDS)
                self.assertEqual(plain(found), [(text, 1, text)])
                self.assertEqual(session.find("", names=document_pattern(text), names_only=True).names(), [text])

    def test_loads(self) -> None:
        with tempfile.TemporaryDirectory() as folder, tsearch.Session() as session:
            path = os.path.join(folder, "a file")
            with open(path, "w", encoding="ascii") as file:
                file.write("hello")
            session.load("loaded", path)
            missing = session.load("missing", os.path.join(folder, "none"))
            published = session.publish()
            self.assertEqual([(one.name, one.reason) for one in published.refused], [(b"missing", "cannot load")])
            self.assertRaises(tsearch.ChangeRefused, missing.wait, SECONDS)
            self.assertEqual(plain(session.find("h")), [(b"loaded", 1, b"hello")])

    def test_empty_and_large_answers(self) -> None:
        body = b"\n" * 300_000
        with tsearch.Session() as session:
            self.assertEqual((session.find("x").hits(), session.find("x").version), ([], 0))
            session.put("large", body)
            session.put("small", b"x")
            session.publish()
            answer = session.find("")
            self.assertEqual(len(answer), 300_001)
            self.assertEqual(sum(hit.text == b"" for hit in answer), 300_000)
            limited = session.find("", limit=10)
            self.assertEqual((len(limited), limited.count, limited.more, len(limited.data) < 200), (10, 10, True, True))


    def test_two_searches_are_of_one_version(self) -> None:
        """Context with spans takes two. If they are of different versions, both are made again."""
        code = """
            def answer(version, *texts):
                say(next(items) and b"search %d version %d lines 1%s\\na\\0" % (next(numbers), version, b" rows 1" * (len(texts) > 1)) + texts[0])
            numbers = iter(range(1, 9))
            for versions in (3, 4), (4, 5), (6, 6):
                answer(versions[0], b"2:xy\\n", True)
                answer(versions[1], b"2:%d-2:xy\\n" % versions[0] if versions[0] < 6 else b"2:1-2:xy\\n")
        """
        session = tsearch.Session(stand_in(code))
        answer = session.find("xy", context=0, spans=True, timeout=SECONDS)
        self.assertEqual((answer.version, answer.hits()), (6, [(b"a", 2, b"xy", None, ((0, 2),))]))
        session.close()


class Refusals(unittest.TestCase):
    def test_of_patterns(self) -> None:
        with tsearch.Session() as session:
            for pattern, name, reason, offset in (
                ("a(b", None, "group not closed", 1),
                ("é[z-a]", None, "bad range", 4),
                ("a", "*", "nothing to repeat", 0),
                ("a\nput b", None, "bad byte", 1),
                ("a\0", None, "bad byte", 1),
            ):
                with self.assertRaises(tsearch.PatternRefused) as raised:
                    session.find(pattern, names=name or ())
                found = raised.exception
                self.assertEqual((found.reason, found.offset, found.number), (reason, offset, int(name is not None)))
                self.assertEqual(found.pattern.decode(), name or pattern)
                again = pickle.loads(pickle.dumps(found))
                self.assertEqual((str(again), again.offset), (str(found), offset))
            for options in {"limit": 0}, {"context": -1}, {"context": 1_001}, {"counts": True, "spans": True}, {"names": ["x"] * 17}, {"under": ["x"] * 4_097}:
                self.assertRaises(tsearch.OptionRefused, session.find, "x", **options)
            self.assertRaises(TypeError, session.find, "x", name="y")
            self.assertEqual(session.status().accepted, 0)

    def test_of_prefixes(self) -> None:
        """Each of many prefixes stands for the names that begin with it, as `bytes.startswith` tells."""
        names = [b"a", b"a b", b"a b/c", b"a/b", b"ab", b"b%20", b"b/\xff\n", b"\xff", b"z" * 900]
        with tsearch.Session() as session:
            for name in names:
                session.put(name, b"x\n")
            session.publish()
            prefixes = [(), (b"a",), (b"a b", b"a/"), (b"b%20", b"b/\xff\n", b"b "), (b"z" * 899,), (b"no",), tuple(b"a%d" % at for at in range(4_095)) + (b"ab",)]
            for under in prefixes:
                for other in prefixes:
                    found = session.find("x", under=under, not_under=other, names_only=True).names()
                    wanted = [name for name in names if (not under or name.startswith(under)) and not name.startswith(other)]
                    self.assertEqual(sorted(found), sorted(wanted), (under[:3], other[:3]))
            self.assertEqual(session.find("x", under="a", names="b$", limit=1, names_only=True).names(), [b"a b"])

    def test_nothing_that_is_typed_becomes_another_item(self) -> None:
        """Each of many patterns and name patterns, most of them hostile, is answered or refused, and changes nothing."""
        source = random.Random(9)
        pieces = [*"a ()[*|\n\r\0\\é\udcff", "{3}", "-- ", " -- ", "-q", "remove a", "\npublish\n", "put b 1\n"]

        def typed() -> str:
            return "".join(source.choices(pieces, k=source.randint(0, 5)))

        with tsearch.Session() as session:
            session.put("a", "a -- remove a\n")
            session.publish()
            counts = [0, 0]
            for _ in range(600):
                options = source.choice([{}, {"names": typed()}, {"not_names": [typed(), typed()]}, {"under": typed() + "a"}, {"literal": True}, {"invert": True}])
                try:
                    session.find(typed(), timeout=SECONDS, **options)
                    counts[0] += 1
                except tsearch.PatternRefused as refused:
                    self.assertLessEqual(refused.offset, len(refused.pattern))
                    counts[1] += 1
            self.assertGreater(min(counts), 50)
            self.assertEqual(session.status().accepted, 1)
            self.assertEqual(session.publish().documents, 1)
            self.assertEqual(plain(session.find("-- remove", literal=True)), [(b"a", 1, b"a -- remove a")])

    def test_of_changes(self) -> None:
        with tsearch.Session(max_commands=3, max_line=None) as session:
            self.assertRaises(TypeError, session.put, "a", 5)
            changes = [session.put("a", "x"), session.put("b", b"\0"), session.put("c", "y" * 16_385), session.remove("d")]
            session.status(SECONDS)
            published = session.publish()
            wanted = [(b"b", "byte 0 in body"), (b"c", "line too long"), (b"d", "no such file")]
            self.assertEqual([(one.name, one.reason) for one in published.refused], wanted)
            self.assertEqual(session.publish().refused, ())
            changes[0].wait(SECONDS)
            for change in changes[1:]:
                self.assertRaises(tsearch.ChangeRefused, change.wait, SECONDS)
            session.put("e", "1")
            session.put("f", "2")
            with self.assertRaises(tsearch.ChangeRefused) as raised:
                session.put("g", "3").wait(SECONDS)
            self.assertEqual(raised.exception.reason, "full")
            # a new program takes them all, and the old one answers until then
            session.restart(lambda new: [new.put(name, "z") for name in "abc"], only_if_ended=False)
            self.assertEqual((session.life, len(session.find("z")), session.find("z").life), (2, 3, 2))

    def test_lengths(self) -> None:
        """A session takes what is as long as it can be, and is told what is the most."""
        name = b"n" * 4_096
        with tsearch.Session() as session:
            session.put(name, b"x" * 1_000_000 + b"foo" + b"x" * 1_000_000)
            session.put("long", b"x" * 67_108_865)
            self.assertEqual([(one.name, one.reason) for one in session.publish().refused], [(b"long", "body too long")])
            self.assertEqual([(hit.name, hit.spans) for hit in session.find("foo", spans=True)], [(name, ((1_000_000, 1_000_003),))])
        with tsearch.Session(max_body=10, max_line=5, max_name=3) as session:
            for number, body in enumerate((b"x" * 5, b"x" * 6, b"x\n" * 5, b"x\n" * 6)):
                session.put(f"{number}", body)
            session.put("name", b"x")
            wanted = [(b"1", "line too long"), (b"3", "body too long"), (b"name", "name too long")]
            self.assertEqual([(one.name, one.reason) for one in session.publish().refused], wanted)

    def test_an_answer_that_is_too_long(self) -> None:
        with tsearch.Session(max_answer=1_000) as session:
            session.put("a", "foo\n" * 50_000 + "bar")
            session.publish()
            for _ in range(2):
                with self.assertRaises(tsearch.SearchRefused) as raised:
                    session.find("foo")
                self.assertEqual((raised.exception.reason, len(session.find("bar"))), ("answer too long", 1))

    def test_of_more_changes_than_pipes_hold(self) -> None:
        """Their texts fill the pipe of the output while changes are sent. The session reads meanwhile, so neither side waits for ever."""
        count = 40_000
        with tsearch.Session(max_commands=1) as session:
            session.put("a", "x")
            for number in range(count):
                session.put(f"f{number}", "some text\n" * 10)
            published = session.publish(SECONDS)
            self.assertEqual([one.name for one in published.refused], [b"f%d" % number for number in range(count)])


class Time(unittest.TestCase):
    def test_a_search_is_cancelled_after_its_time(self) -> None:
        with tsearch.Session() as session:
            for name, body in slow_documents().items():
                session.put(name, body)
            session.publish()
            for _ in range(4):  # more than there are readers
                began = time.monotonic()
                with stopped(session.pid), self.assertRaises(TimeoutError):
                    session.find(SLOW, timeout=0.1)
                self.assertLess(time.monotonic() - began, SECONDS / 4)
            session.sync(SECONDS)
            self.assertEqual(session.status(SECONDS).open, 0)
            self.assertEqual(len(session.find("^end$", timeout=SECONDS)), 1)

    def test_cancel(self) -> None:
        with tsearch.Session() as session:
            for name, body in slow_documents().items():
                session.put(name, body)
            session.publish()
            with stopped(session.pid):
                searches = [session.begin(SLOW) for _ in range(5)]
                with self.assertRaises(TimeoutError):
                    searches[0].result(0.05)
                self.assertFalse(searches[0].done())
                for search in searches:
                    session.cancel(search)
                    session.cancel(search)
            for search in searches:
                self.assertRaises(tsearch.Cancelled, search.result, SECONDS)
            done = session.begin("^end$")
            self.assertEqual(len(done.result(SECONDS)), 1)
            done.cancel()
            self.assertEqual((len(done.result()), done.done()), (1, True))

    def test_a_program_that_takes_nothing(self) -> None:
        """Senders wait, and do not fill the memory; limits of time hold; and all is there once it goes on."""
        session = tsearch.Session()
        body = b"x" * 99 + b"\n"
        try:
            session.put("first", "first")
            session.publish()
            stop(session.pid)
            sent = []

            def put() -> None:
                for number in range(200):
                    session.put(f"f{number}", body * 1_000)
                    sent.append(number)

            sender = threading.Thread(target=put)
            sender.start()
            time.sleep(0.5)
            # a mebibyte waits, one more body, what the pipe takes, and what the program had begun to read
            self.assertLess(len(sent), 60)
            for call in session.status, session.publish, lambda limit: session.find("x", timeout=limit):
                self.assertRaises(TimeoutError, call, 0.1)
            os.kill(session.pid, signal.SIGCONT)
            sender.join(SECONDS)
            self.assertEqual(len(sent), 200)
            self.assertEqual(session.publish(SECONDS).documents, 201)
            self.assertEqual(session.find("x", timeout=SECONDS).count, 200_000)
        finally:
            os.kill(session.pid, signal.SIGCONT)
            session.close(SECONDS)

    def test_many_small_items_wait(self) -> None:
        """There are more of them than the system takes in one write."""
        with tsearch.Session() as session:
            session.status(SECONDS)
            with stopped(session.pid):
                for number in range(20_000):
                    session.put(f"f{number}", b"x")
            self.assertEqual(session.publish(SECONDS).documents, 20_000)

    def test_an_item_does_not_go_through_all_that_wait(self) -> None:
        with tsearch.Session() as session:
            session.status(SECONDS)
            with stopped(session.pid):
                for _ in range(30_000):
                    session.put("a", b"x")
                tracemalloc.start()
                self.addCleanup(tracemalloc.stop)
                before, _ = tracemalloc.get_traced_memory()
                session.put("a", b"x")
                most = tracemalloc.get_traced_memory()[1] - before
            # a list of all that waits takes half a megabyte, and what is read at a time a quarter of one
            self.assertLess(most, 400_000)

    def test_how_many_searches_are_at_the_program(self) -> None:
        """One more waits for its turn."""
        for most in 1, 3:
            session = tsearch.Session(stand_in("list(items)"), most_open=most)
            searches = [session.begin("x", timeout=SECONDS) for _ in range(most)]
            self.assertRaises(TimeoutError, session.begin, "x", timeout=0.2)
            self.assertFalse(any(search.done() for search in searches))
            session.kill()
            session.close()

    def test_sync_waits_for_no_later_search(self) -> None:
        code = """
            next(items), next(items)
            say(b"search 1 version 0 lines 0\\n")
            list(items)
        """
        session = tsearch.Session(stand_in(code))
        session.begin("first")
        waiting = threading.Thread(target=session.sync, args=(SECONDS,))
        waiting.start()
        until(lambda: session._connection.room._waiters)
        later = session.begin("later")
        waiting.join(SECONDS / 4)
        self.assertEqual((waiting.is_alive(), later.done()), (False, False))
        session.kill()
        waiting.join(SECONDS)

    def test_close(self) -> None:
        session = tsearch.Session()
        session.status()
        began = time.monotonic()
        with stopped(session.pid):
            search = session.begin("x")
            self.assertEqual(session.close(0.3), -signal.SIGKILL)
        self.assertLess(time.monotonic() - began, SECONDS / 2)
        self.assertRaises(tsearch.Ended, search.result, SECONDS)
        self.assertRaises(tsearch.Ended, session.find, "x")
        session.close()
        # what was sent before is answered
        session = tsearch.Session()
        session.put("a", "x")
        session.publish()
        searches = [session.begin("x") for _ in range(100)]
        self.assertEqual(session.close(SECONDS), 0)
        self.assertEqual({len(search.result(SECONDS)) for search in searches}, {1})


class Ends(unittest.TestCase):
    def test_kills_in_the_middle_of_answers(self) -> None:
        """Each thread gets whole answers or `Ended`, and goes on once one of them has started the program again."""
        documents = {b"f%d" % number: b"line %d\n" % number * 500 for number in range(40)}
        wanted = hits_of(documents, "line")

        def feed(changes: tsearch.Changes) -> None:
            for name, body in documents.items():
                changes.put(name, body)

        with tsearch.Session() as session:
            feed(session)
            session.publish(SECONDS)
            counts = {"ended": 0, "whole": 0}
            lock = threading.Lock()
            done = threading.Event()

            def search(_: int) -> None:
                while not done.is_set():
                    try:
                        answer = session.find("line", timeout=SECONDS)
                        if plain(answer) != wanted:
                            raise AssertionError(f"{len(answer)} lines of life {answer.life}, and not {len(wanted)}")
                        key = "whole"
                    except tsearch.Ended:
                        session.restart(feed)
                        key = "ended"
                    with lock:
                        counts[key] += 1

            def kill(_: int) -> None:
                try:
                    for _ in range(6):
                        before, life = counts["whole"], session.life
                        until(lambda before=before: counts["whole"] > before + 5)
                        os.kill(session.pid, signal.SIGKILL)
                        until(lambda life=life: session.life > life)
                finally:
                    done.set()

            self.assertEqual(threads(7, lambda number: kill(number) if number == 0 else search(number)), [])
            self.assertEqual(session.life, 7)
            self.assertGreaterEqual(counts["ended"], 6)

    def test_every_waiter_is_told(self) -> None:
        session = tsearch.Session()
        session.status()
        stop(session.pid)
        calls = [session.status, lambda: session.find("x"), session.publish, session.sync, lambda: session.put("a", "b").wait()]
        told = []

        def call(number: int) -> None:
            try:
                calls[number % len(calls)]()
                told.append("returned")
            except tsearch.Ended as ended:
                told.append(ended.status)

        waiting = [threading.Thread(target=call, args=(number,)) for number in range(15)]
        session.begin("x")
        for thread in waiting:
            thread.start()
        time.sleep(0.3)
        self.assertEqual(told, [])
        os.kill(session.pid, signal.SIGKILL)
        for thread in waiting:
            thread.join(SECONDS)
        self.assertEqual(told, [-signal.SIGKILL] * 15)
        session.close()

    def test_a_feed_that_fails(self) -> None:
        with tsearch.Session() as session:
            session.put("a", "x")
            session.publish()
            self.assertIsNone(session.restart(lambda changes: 1 / 0))
            with self.assertRaises(ZeroDivisionError):
                session.restart(lambda changes: 1 / 0, only_if_ended=False)
            self.assertEqual((session.life, len(session.find("x"))), (1, 1))
            session.kill()
            with self.assertRaises(ZeroDivisionError):
                session.restart(lambda changes: 1 / 0)
            self.assertRaises(tsearch.Ended, session.find, "x")

    def test_a_program_with_processes_of_its_own(self) -> None:
        """They hold its output open, and are killed with it."""
        session = tsearch.Session(["bash", "-c", "echo $$ >&2; sleep 1000; exit 3", "bash"], messages=lambda message: None)
        search = session.begin("x")
        session.kill()
        self.assertRaises(tsearch.Ended, search.result, SECONDS)
        self.assertEqual(session.close(SECONDS), -signal.SIGKILL)

    def test_a_session_that_is_closed_stays_so(self) -> None:
        session = tsearch.Session()
        session.kill()
        self.assertEqual(session.restart(lambda changes: changes.put("a", "x")).documents, 1)
        # closed while it is fed
        session.kill()
        self.assertRaises(tsearch.Ended, session.restart, lambda changes: session.close())
        self.assertRaises(tsearch.Ended, session.restart, print)
        self.assertEqual(session.life, 2)

    def test_what_the_program_says_at_its_end(self) -> None:
        session = tsearch.Session([tsearch.find_program(), "--readers", "99"])
        with self.assertRaises(tsearch.Ended) as raised:
            session.find("x", timeout=SECONDS)
        self.assertEqual(raised.exception.status, 2)
        self.assertIn("invalid value '99'", str(raised.exception))
        session.close()

    def test_a_program_that_says_very_much(self) -> None:
        """Only the end of it is kept."""
        code = """
            for _ in range(100):
                os.write(2, b"x" * 10_000)
            os.write(2, b"the end")
            sys.exit(3)
        """
        session = tsearch.Session(stand_in(code))
        with self.assertRaises(tsearch.Ended) as raised:
            session.publish(SECONDS)
        message = raised.exception.message
        self.assertEqual((raised.exception.status, message[-8:], len(message) < 10_000), (3, "xthe end", True))
        session.close()

    def test_lives_leave_no_descriptors(self) -> None:
        def descriptors() -> int:
            return len(os.listdir("/proc/self/fd"))

        with tsearch.Session() as session:
            session.status(SECONDS)
            before = descriptors()
            for _ in range(10):
                session.restart(lambda changes: changes.put("a", "x"), only_if_ended=False)
            until(lambda: descriptors() <= before)

    def test_what_the_variable_names(self) -> None:
        with tempfile.TemporaryDirectory() as name:
            file = pathlib.Path(name, "file")
            file.write_bytes(b"")
            for path, why in ("/nothing/here", "is not there"), (name, "is a folder"), (str(file), "may not be executed"):
                with self.subTest(path=path), unittest.mock.patch.dict(os.environ, {"TSEARCH": path}):
                    for call in tsearch.find_program, tsearch.Session, run_program:
                        with self.assertRaises((tsearch.Error, SystemExit)) as raised:
                            call()
                        self.assertIn(f"the variable TSEARCH names {path}, which {why}", str(raised.exception))

    def test_a_program_that_is_none(self) -> None:
        self.assertRaises(OSError, tsearch.Session, "/nothing/here")
        for code, error in (
            ("say(b'hello\\n'); time.sleep(60)", tsearch.NotUnderstood),
            ("next(items); say(b'search 1 version 0 lines 5\\na\\0001:x\\na\\0002'); os._exit(3)", tsearch.Ended),
            ("next(items); say(b'search 7 version 0 lines 0\\n'); time.sleep(60)", tsearch.NotUnderstood),
            ("os.close(1); time.sleep(60)", tsearch.Ended),
        ):
            with self.subTest(code=code):
                session = tsearch.Session(stand_in(code))
                self.assertRaises(error, session.find, "x", timeout=SECONDS)
                session.kill()
                session.close()

    def test_what_is_sent_for_a_search_that_nobody_waits_for(self) -> None:
        code = """
            seen = [next(items), next(items)]
            assert seen == [b"find -Z -- slow\\n", b"cancel 1\\n"], seen
            say(b"search 1 refused: cancelled\\n")
            assert next(items) == b"find -Z -- x\\n"
            say(b"search 2 version 0 lines 0\\n")
        """
        session = tsearch.Session(stand_in(code))
        self.assertRaises(TimeoutError, session.find, "slow", timeout=0.3)
        self.assertEqual(session.find("x", timeout=SECONDS).hits(), [])
        self.assertEqual(session.close(SECONDS), 0)

    def test_a_program_that_writes_slowly(self) -> None:
        code = """
            next(items)
            for byte in b"search 1 version 0 lines 2\\na\\0001:x\\na\\0002:y\\n":
                say(bytes([byte]))
                time.sleep(0.005)
            next(items)
        """
        session = tsearch.Session(stand_in(code))
        self.assertEqual(len(session.find("x", timeout=SECONDS)), 2)
        session.close(0.1)


class Pipes(unittest.TestCase):
    def run_over(self, reading: int, writing: int) -> None:
        session = tsearch.Session.over(reading, writing)
        os.close(reading)
        if writing != reading:
            os.close(writing)
        session.put("a", "hello\n" * 1_000)
        session.publish(SECONDS)
        self.assertEqual(threads(8, lambda _: self.assertEqual(len(session.find("hello", timeout=SECONDS)), 1_000)), [])
        self.assertRaises(ValueError, session.restart, print)
        self.assertIsNone(session.close(SECONDS))
        with self.assertRaises(tsearch.Ended) as raised:
            session.status()
        self.assertIsNone(raised.exception.status)

    def test_two_pipes(self) -> None:
        program = subprocess.Popen([tsearch.find_program(), "--live"], stdin=subprocess.PIPE, stdout=subprocess.PIPE)
        reading, writing = os.dup(program.stdout.fileno()), os.dup(program.stdin.fileno())
        program.stdin.close()
        program.stdout.close()
        self.run_over(reading, writing)
        self.assertEqual(program.wait(SECONDS), 0)

    def test_a_socket(self) -> None:
        here, there = socket.socketpair()
        program = subprocess.Popen([tsearch.find_program(), "--live"], stdin=there, stdout=there)
        there.close()
        descriptor = here.detach()
        self.run_over(descriptor, descriptor)
        self.assertEqual(program.wait(SECONDS), 0)

    def test_nothing_is_left_running(self) -> None:
        """A client that is killed leaves no program."""
        code = "import sys, time, tsearch; s = tsearch.Session(); s.status(); print(s.pid, flush=True); time.sleep(60)"
        path = os.pathsep.join(sys.path)
        client = subprocess.Popen([sys.executable, "-c", code], stdout=subprocess.PIPE, env={**os.environ, "PYTHONPATH": path})
        pid = int(client.stdout.readline())
        client.kill()
        client.wait()
        client.stdout.close()

        until(lambda: state_of(pid) in ("Z", ""))


if __name__ == "__main__":
    unittest.main()
