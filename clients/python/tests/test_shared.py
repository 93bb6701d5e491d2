"""Repositories that share a session: searches over several, what one of them lacks, and repositories and revisions that come and go."""

from __future__ import annotations

import asyncio
import concurrent.futures
import contextlib
import dataclasses
import itertools
import json
import os
import pathlib
import random
import signal
import tempfile
import unittest
import unittest.mock

from helpers import SECONDS, SLOW, Model, slow_documents, until
from made import Made
from serving import Server, serving_in
from test_host import NO_REASON, REASON, Host

import tsearch
from tsearch import aio
from tsearch.answers import Answer, Published, View
from tsearch.feeding import Feeding
from tsearch.merging import parted
from tsearch.query import Query


def hits_by_repository(rows: list[dict]) -> dict[str, list[tuple[str, list[dict]]]]:
    """The files of each repository that has an answer, with their hits."""
    found: dict[str, list[tuple[str, list[dict]]]] = {row["repository"]: [] for row in rows if "life" in row}
    for row in rows:
        if "hits" in row:
            found[row["repository"]].append((row["name"], row["hits"]))
    return found


@unittest.skipUnless(NO_REASON, REASON)
class Several(unittest.TestCase):
    """Searches over seven repositories, of files and of revisions, beside those in each."""

    NAMES = ["r0", "r1", "r2", "r3", "r4", "files", "with space"]

    @classmethod
    def setUpClass(cls) -> None:
        cls.top = pathlib.Path(cls.enterClassContext(tempfile.TemporaryDirectory()))
        rows = []
        for number, name in enumerate(cls.NAMES):
            documents = {**Model(number, 20).documents, b"many": b"".join(b"many %d %s\n" % (at, name.encode()) for at in range(number * 20))}
            if number < 5:
                made = Made(cls.top / f"{name}.git")
                made.commit("main" if number % 2 else "trunk/x+1", documents)
                rows.append(f'[[repository]]\npath = "{name}.git"\nrevisions = ["main", "trunk/*"]\n')
                continue
            for path, body in documents.items():
                file = cls.top / name / os.fsdecode(path)
                file.parent.mkdir(parents=True, exist_ok=True)
                file.write_bytes(body)
            rows.append(f'[[repository]]\npath = "{name}"\n')
        (cls.top / "host.toml").write_text("".join(rows))
        words = ("--settings", str(cls.top / "host.toml"), "--filter-header", "X-Filters", "--most-lines", "100")
        cls.server = cls.enterClassContext(serving_in(cls.top, *words, count=len(cls.NAMES), names=cls.NAMES))

    def setUp(self) -> None:
        self.see({name: {} for name in self.NAMES})

    def see(self, filters: dict[str, dict]) -> None:
        self.server.headers = {"X-Filters": json.dumps(filters)}

    def alone(self, pattern: str, **words: object) -> dict[str, list[tuple[str, list[dict]]]]:
        """What each repository answers by itself."""
        seen = json.loads(self.server.headers["X-Filters"])
        return {name: hits_by_repository(self.server.find(pattern, repository=name, **words))[name] for name in self.NAMES if name in seen}

    def test_all_at_once_as_each_alone(self) -> None:
        patterns = [*Model.PATTERNS, "many (7|19) ", "nothing at all"]
        for number, pattern in enumerate(patterns):
            words: dict[str, object] = [{}, {"context": 2}, {"name": "f1", "i": 1}, {"not": ["^dir 1/", "f2"], "context": 1}, {"v": 1, "name": "f3"}][number % 5]
            rows = self.server.find(pattern, **words)
            if rows[-1]["more"]:
                continue
            self.assertEqual(hits_by_repository(rows), self.alone(pattern, **words), (pattern, words))
            self.assertEqual(rows[-1]["lines"], sum(row["lines"] for row in rows if "life" in row))
        self.assertEqual(len({row["version"] for row in self.server.find("x=1", name="f1") if "life" in row}), 1)

    def test_shares(self) -> None:
        """Of more lines than are shown each repository has as many as any other, and then those that have more; each as it is alone."""
        from tsearch.web.server import shares

        rows = self.server.find("^many", context=1)
        lines = {row["repository"]: (row["lines"], row["more"]) for row in rows if "life" in row}
        counts = [number * 20 for number in range(7)]
        wanted = shares(counts, 100)
        self.assertEqual(lines, {name: (share, share < count) for name, share, count in zip(self.NAMES, wanted, counts)})
        self.assertEqual((rows[-1]["lines"], rows[-1]["more"]), (100, True))
        found = hits_by_repository(rows)
        for name, share in zip(self.NAMES, wanted):
            one = hits_by_repository(self.server.find("^many", context=1, repository=name, max=share))[name] if share else []
            self.assertEqual(found[name], one, name)
        rows = self.server.find("^many", repository=["r4", "files"])
        self.assertEqual([row["lines"] for row in rows if "life" in row], [50, 50])
        self.assertEqual(self.server.lines("/api/count", q="^many"), [{"counts": dict(zip(self.NAMES, counts))}])
        self.assertEqual(self.server.lines("/api/count", q="^many", repository="r4"), [{"counts": {"r4": 80}}])

    def test_filters_of_each(self) -> None:
        self.see({"r1": {}, "r2": {"names": ["^dir 1/"]}, "r3": {"not_names": ["^dir 1/"]}, "files": {"names": ["^dir 1/"]}, "with space": {}})
        for words in {}, {"name": "f1"}, {"not": "^dir 2"}:
            rows = self.server.find("alpha", **words)
            self.assertEqual(hits_by_repository(rows), self.alone("alpha", **words))
            names = {name for found in (hits_by_repository(rows)[one] for one in ("r2", "files")) for name, _ in found}
            self.assertEqual({name.split("/")[0] for name in names} - {"dir 1"}, set())
        self.see({"r1": {"not_under": ["dir 1/"]}, "r2": {"under": ["dir 1/", "f"]}, "r4": {"under": ["dir 2/"], "names": ["f1"]}, "files": {"not_under": ["dir 1/"]}})
        for words in {}, {"name": "f1"}, {"not": "^dir 2"}:
            rows = self.server.find("alpha", **words)
            self.assertEqual(hits_by_repository(rows), self.alone("alpha", **words))
            names = {repository: {name for name, _ in found} for repository, found in hits_by_repository(rows).items()}
            self.assertFalse([name for one in ("r1", "files") for name in names[one] if name.startswith("dir 1/")])
            self.assertFalse([name for name in names["r2"] if not name.startswith(("dir 1/", "f"))])
            self.assertFalse([name for name in names["r4"] if not name.startswith("dir 2/") or "f1" not in name])
        self.see({"r1": {}, "r2": {"names": ["("]}})
        self.assertEqual(self.server.find("alpha"), [{"refused": "group not closed", "offset": 0, "in": "host"}])

    def test_as_many_patterns_of_paths_as_a_search_takes(self) -> None:
        self.see({name: {} for name in ("r1", "files")})
        for names in (["f1"] * 15, ["f1"] * 16):
            self.assertEqual(hits_by_repository(self.server.find("alpha", name=names)), self.alone("alpha", name="f1"))
            self.assertEqual(hits_by_repository(self.server.find("alpha", **{"not": names})), self.alone("alpha", **{"not": "f1"}))
            for name in "r1", "files":
                one = hits_by_repository(self.server.find("alpha", name=names, repository=name))
                self.assertEqual(one, {name: self.alone("alpha", name="f1")[name]})
        self.assertEqual(self.server.find("alpha", name=["f1"] * 17), [{"refused": "option -n over 16 times"}])
        long = {"name": ["f1", "f2"], "not": ["a", "b" * 1_020]}
        self.assertEqual([self.server.find("alpha", **long)[0][key] for key in ("refused", "in")], ["pattern too long", "not"])

    def test_revisions(self) -> None:
        """Those that have it answer, and the others are named."""
        rows = self.server.find("alpha", revision="main")
        self.assertEqual(set(hits_by_repository(rows)), {"r1", "r3"})
        self.assertEqual(rows[-1]["missing"], ["r0", "r2", "r4", "files", "with space"])


class Parts(unittest.TestCase):
    def test_the_parts_of_an_answer(self) -> None:
        """Each is the answer of a search in its documents alone."""
        with tsearch.Session() as session:
            documents = {b"%d:%s:%s" % (number, revision, name): body for number, revision in ((2, b"main"), (10, b""), (1, b"a b")) for name, body in Model(number).documents.items()}
            for name, body in documents.items():
                session.put(name, body)
            session.publish()
            starts = [b"2:main:", b"3:none:", b"10::", b"1:a%20b:"]
            for pattern in Model.PATTERNS:
                for options in {}, {"spans": True}, {"spans": True, "limit": 25}:
                    whole = session.find(pattern, context=1, **options)
                    for start, part in zip(starts, parted(whole, starts)):
                        alone = session.find(pattern, context=1, names="^" + start.decode(), **{**options, "limit": None})
                        if whole.more:
                            # a line behind the limit may be shown as one around another
                            self.assertEqual((part.hits(), part.count), (alone.hits()[: part.count], len(part.hits())))
                        else:
                            self.assertEqual((list(part.rows()), part.count), (list(alone.rows()), alone.count), (pattern, options, start))
        none = Answer(1, 1, 0, False, View.CONTEXT, b"", spans_data=None)
        self.assertEqual(parted(none, [b"1::"]), [none])

    def test_many_repositories_at_once(self) -> None:
        """A search takes so many, and finds what is in these alone, under the paths that it is for."""
        from tsearch.web.searching import _fitting, _in, _Part

        source = random.Random(3)
        revisions = ["main", "", "release/" + "1." * 40, "v+(2)|3^$", "caf\udce9"]
        parts = []
        for number in range(1, 2_001):
            start = b"%d:%s:" % (number, tsearch.names.to_bytes(source.choice(revisions)))
            parts.append(_Part(number, None, "", start, tsearch.names.quote(start)))
        query = tsearch.query.Query.of("x", names_only=True)
        with tsearch.Session() as session:
            for part in parts:
                for name in part.start + b"a:b", part.start + b"c", b"1" + part.start + b"a":
                    session.put(name, b"x\n")
            session.publish()
            for under, not_under in ((), ()), ((b"a", b"d", b"e"), ()), ((), (b"a", b"d")):
                asked = dataclasses.replace(query, under=under, not_under=not_under)
                some = list(_fitting(asked, parts[::2]))
                self.assertEqual([part.at for fitting in some for part in fitting], list(range(1, 2_001, 2)))
                self.assertEqual(len(some), 1)
                found = session.find_query(_in(asked, some[0])).names()
                paths = [path for path in (b"a:b", b"c") if (not under or path.startswith(under)) and not path.startswith(not_under)]
                starts = {part.start for part in parts[::2]}
                wanted = {start + path for start in starts for path in paths}
                wanted |= {name for part in parts for name in [b"1" + part.start + b"a"] if name[:-1] in starts and b"a:b" in paths}
                self.assertEqual(set(found), wanted)
        for word in "under", "not_under":
            for count, searches in (2, 1), (3, 2), (4_096, 2_000):
                self.assertEqual(len(list(_fitting(dataclasses.replace(query, **{word: (b"a",) * count}), parts))), searches, (word, count))


class Marking(unittest.TestCase):
    def test_the_matches_of_simple_patterns(self) -> None:
        """They are those that the program tells."""
        from tsearch.web.marks import marks_of

        source = random.Random(5)
        simple = ["foo", "return NULL", "a", "fo*", "o+", "[a-c]x", "while *\\(1\\)", "x{2,3}", "(ab)(c)", "a.c", "[^a]", "b?a", "ab*c?d", "\\.", "caf\u00e9", "x{2}", "_", "a_1"]
        others = ["a|b", "^foo", "foo$", "(ab)*", "a*", "a*ab", "a?(ab)?", "x*", "(a|b)c", "a+a", "", "[a-z]{65}", "(", "[", "*a", "[[:x:]]", "a?b?ab", "a{5,2}", "(" * 500 + "a" + ")" * 500, "(" * 9_000, "x" * 1_025]
        letters = ["a", "b", "ab", "abc", "foo", "o", "x", "xx", "_", " ", "while (1)", "while(1)", "return NULL", ".", "caf\u00e9", "A", "FOO", "a_1", "\t", "d"]
        lines = ["".join(source.choices(letters, k=source.randint(0, 14))) for _ in range(400)]
        with tsearch.Session() as session:
            session.put("x", "\n".join(lines))
            session.publish()
            count = 0
            for pattern in simple:
                for options in {}, {"ignore_case": True}, {"whole_words": True}, {"whole_lines": True}, {"literal": True}:
                    query = Query.of(pattern, context=0, spans=True, **options)
                    marks = marks_of(query)
                    self.assertIsNotNone(marks, (pattern, options))
                    for hit in session.find(pattern, context=0, spans=True, **options):
                        self.assertEqual(marks.pattern.split(hit.text), hit.parts(), (pattern, options, hit.text))
                        count += len(hit.spans)
            self.assertGreater(count, 10_000)
        for pattern in others:
            self.assertIsNone(marks_of(Query.of(pattern, context=0, spans=True)), pattern)
        for options in {"invert": True, "context": 0}, {"spans": True}:
            self.assertIsNone(marks_of(Query.of("foo", **options)))
        marks = marks_of(Query.of("ab*c", context=0, spans=True))
        self.assertEqual([marks.can_mark(b"a\n" + b"x" * length + b"\n") for length in (1_000, 1_001)], [True, False])


def steps_of(parts: list, line: bytes) -> int:
    """How many steps a search for all matches of a row of sets takes, each set as often as it can be and then less often: one for each byte that
    is compared with a set, and one for each place."""
    count = 0

    def end_of(number: int, at: int) -> int | None:
        nonlocal count
        if number == len(parts):
            return at
        part, taken = parts[number], 0
        while part.most is None or taken < part.most:
            count += 1
            if at + taken >= len(line) or line[at + taken] not in part.values:
                break
            taken += 1
        for times in range(taken, part.least - 1, -1):
            if (end := end_of(number + 1, at + times)) is not None:
                return end
        return None

    at = 0
    while at <= len(line):
        count += 1
        end = end_of(0, at)
        at = end if end is not None and end > at else at + 1
    return count


class Work(unittest.TestCase):
    def marks(self, pattern: str, **options: bool):
        from tsearch.web.marks import marks_of

        return marks_of(Query.of(pattern, context=0, spans=True, **options))

    def test_no_row_takes_more_than_is_counted(self) -> None:
        from tsearch.tgrep import ere
        from tsearch.web.marks import _parts_of

        source, most, rows = random.Random(7), 0.0, 0
        pieces = ["a", "b", "[ab]", "c", "[cd]", "e", "1", "[12]", "a+", "b*", "c?", "[ab]+", "[cd]*", "1{2,5}", "e{0,3}", "d{1,64}", "[^a]*", "x?", "y*", "a{3}"]
        chains = ["a+" + "".join(f"{letter}{sign}" for letter in "bcdefghijklm") + "z" for sign in "*?"] + ["b?c?d?e?a", "a{1,64}c", "[ab]{30}c"]
        for pattern in chains + ["".join(source.choices(pieces, k=source.randint(1, 6))) for _ in range(4_000)]:
            marks = self.marks(pattern)
            if marks is None or marks.is_text:
                continue
            parts = _parts_of(ere.read(pattern.encode(), False))
            for letters in b"a", b"ab", b"abcde12":
                line = bytes(source.choices(letters, k=source.choice([0, 5, 40, 120])))
                steps, work = steps_of(parts, line), marks.work(b"name\0001:%s\n" % line)
                self.assertLessEqual(steps, work, (pattern, line))
                most, rows = max(most, steps / work), rows + 1
        # it is not far too much either
        self.assertGreater(most, 0.5)
        self.assertGreater(rows, 1_000)

    def test_what_takes_too_much_is_left_to_the_program(self) -> None:
        from tsearch.web.marks import MOST_WORK

        long = b"a" * 900 + b" a1\n"
        rows = lambda text, count: b"".join(b"some/name.c\0%d:%s" % (number, text) for number in range(count))  # noqa: E731
        for pattern, text, count, can in (
            ("[a-z]+1", long, 1, True), ("[a-z]+1", long, 30, False), ("[a-z]+1", b"some words of a line\n", 500, True),
            ("return", b"    return NULL; /* as most lines are */\n" * 1, 500, True), ("return", b"x" * 2_000 + b"\n", 500, True),
            ("return", b"x" * 9_000 + b"\n", 500, False), ("a+" + "b*c*d*e*f*g*h*i*j*k*l*m*n*o*p*q*r*s*t*u*v*w*x*y*" + "1", long, 1, False),
            ("[ab]{60}c", b"a" * 1_500 + b"\n", 500, False), ("[rR]eturn", b"    return NULL; /* as most lines are */\n", 500, True),
        ):  # fmt: skip
            marks, data = self.marks(pattern), rows(text, count)
            self.assertEqual(marks.can_mark(data), can, (pattern, len(text), count))
            self.assertEqual(marks.work(data) <= MOST_WORK, can, (pattern, len(text), count))
        # lines around those that were found take none
        marks = self.marks("[a-z]+1")
        self.assertEqual(marks.work(b"n\0001-%s" % long + b"n\0002:a1\n"), marks.work(b"n\0002:a1\n"))


@unittest.skipUnless(NO_REASON, REASON)
class Changes(Host):
    def head_of(self, server: Server, repository: str) -> dict:
        return next((row for row in server.find("int") if row.get("repository") == repository), {})

    def test_a_program_that_ends(self) -> None:
        """Each repository is named until all of it is there again: no answer has a part of one."""
        other = Made(self.top / "other.git")
        other.commit("main", {b"%d.c" % number: b"int main;\n" for number in range(2_000)})
        server = self.serve("--look", "1000", "--most-lines", "100000", str(self.made.path), str(other.path), count=2)
        os.kill(server.programs()[0], signal.SIGKILL)
        seen = set()
        while True:
            rows = server.find("int main")
            counts = {row["repository"]: row["lines"] for row in rows if "lines" in row and "life" in row}
            self.assertLessEqual(counts.items(), {"made": 1, "other": 2_000}.items())
            missing = {name for row in rows[-1:] for name in row.get("missing", ())}
            if "refused" not in rows[0]:
                self.assertEqual(missing | counts.keys(), {"made", "other"})
                self.assertTrue(all(row["again"] for row in rows if "fault" in row))
            seen.add(len(counts))
            if len(counts) == 2:
                break
        self.assertIn(0, seen)
        self.assertEqual(self.metric(server, "tsearch_restarts_total"), 1)

    def test_revisions_that_come_and_go(self) -> None:
        """The repository answers all the time, and what is no longer served is not found."""
        made = self.made
        for number in range(3):
            made.commit(f"topic{number}", {b"topic.c": b"int topic%d;\n" % number}, start="main")
        file = self.top / "host.toml"
        text = lambda *revisions: file.write_text(f'[[repository]]\npath = "made.git"\nrevisions = {json.dumps(revisions)}\n')  # noqa: E731
        text("main")
        server = self.serve("--settings", str(file), "--look", "1000")
        with concurrent.futures.ThreadPoolExecutor(1) as pool:
            done = False

            def ask() -> int:
                count = 0
                while not done:
                    self.assertEqual(server.find("int main", revision="main")[-1].get("lines"), 1)
                    count += 1
                return count

            asking = pool.submit(ask)
            for revisions in (["main", "topic0", "topic1"], ["topic2", "main"], ["main", "topic*"], ["main"]):
                text(*revisions)
                os.kill(server.pid, signal.SIGHUP)
                wanted = {f"topic{number}" for number in range(3) if {f"topic{number}", "topic*"} & set(revisions)}
                until(lambda wanted=wanted: {f"topic{number}" for number in range(3) if server.hits("int topic", revision=f"topic{number}")} == wanted)
            done = True
            self.assertGreater(asking.result(), 5)
        until(lambda: self.metric(server, "tsearch_documents") == 4)
        self.assertEqual(len(server.programs()), 1)

    def test_another_path(self) -> None:
        """The one before is not found, and nothing of it stays in the session."""
        other = Made(self.top / "other.git")
        other.commit("main", {b"a.c": b"int other;\n"})
        file = self.top / "host.toml"
        file.write_text('[[repository]]\npath = "made.git"\nname = "one"\n')
        server = self.serve("--settings", str(file))
        accepted = self.metric(server, "tsearch_accepted")
        file.write_text('[[repository]]\npath = "other.git"\nname = "one"\n')
        os.kill(server.pid, signal.SIGHUP)
        until(lambda: server.hits("int") == [("one", "a.c", 1, "int other;")])
        # all of it in one change
        until(lambda: self.metric(server, "tsearch_accepted") == accepted + 1 + 1)
        until(lambda: json.loads(server.get("/api/status")[1])["version"] == accepted + 1 + 1)
        self.assertEqual(server.hits("int"), [("one", "a.c", 1, "int other;")])

    def test_more_reviews_at_once_than_are_kept(self) -> None:
        """None ends while a search is in it, and only the last ones stay in the session."""
        commits = [self.first] + [self.made.commit("main", {b"n.c": b"int n%d;\n" % number}) for number in range(8)]
        server = self.serve("--proxy", "127.0.0.1", str(self.made.path))
        accepted = self.metric(server, "tsearch_accepted")
        pairs = [(before, after) for before in commits[1:] for after in commits[1:] if before != after]

        def review(number: int) -> None:
            before, after = pairs[number % len(pairs)]
            words = f"repository=made&before={before}&after={after}&q=int%20n"
            rows = [json.loads(row) for row in server.get(f"/api/review?{words}", {"X-Forwarded-For": f"198.51.100.{number}"})[1].splitlines()]
            self.assertEqual({key: rows[-1].get(key) for key in ("removed", "added", "left")}, {"removed": 1, "added": 1, "left": 0}, rows)

        with concurrent.futures.ThreadPoolExecutor(12) as pool:
            list(pool.map(review, range(60)))
        # two puts for each, and one change that removes them but for the four that are kept
        until(lambda: (self.metric(server, "tsearch_accepted") - accepted + 4) % 3 == 0)
        self.assertGreater(self.metric(server, "tsearch_accepted"), accepted + 3 * 52)

    def test_one_that_cannot_be_read(self) -> None:
        """It is named with the reason, and is not asked for again and again; the other answers."""
        broken = Made(self.top / "broken.git")
        broken.commit("main", {b"a.c": b"int main;\n"})
        tree = broken.git("rev-parse", "main^{tree}")
        (broken.path / "objects" / tree[:2] / tree[2:]).unlink()
        server = self.enterContext(serving_in(self.top, str(self.made.path), str(broken.path), count=2, loaded=1))
        until(lambda: "broken" in server.log)
        rows = server.find("int main")
        fault = next(row for row in rows if "fault" in row)
        self.assertEqual((rows[-1]["lines"], rows[-1]["missing"], fault["repository"]), (1, ["broken"], "broken"))
        self.assertEqual(server.get("/health")[0], 503)


@unittest.skipUnless(NO_REASON, REASON)
class Sharing(unittest.IsolatedAsyncioTestCase):
    async def asyncSetUp(self) -> None:
        from tsearch.web.repositories import Shared

        self.top = pathlib.Path(self.enterContext(tempfile.TemporaryDirectory()))
        self.session = await self.enterAsyncContext(aio.Session.started())
        self.shared = Shared(self.session, self.fail)

    async def test_an_answer_of_a_program_that_had_not_all(self) -> None:
        from tsearch.web.repositories import Files, Served, Unread

        (self.top / "x").write_text("in\n")
        files = Files(Served("x", os.fsencode(self.top)), self.shared)
        with self.assertRaises(Unread):
            files.start("")
        await files._look(self.fail)
        answer = await self.session.find("in", context=0)
        self.assertEqual((await files.found(answer, *files.start(""))).answer, answer)
        for life, version in (2, 9), (1, 0), (0, 9):
            with self.assertRaises(Unread):
                await files.found(dataclasses.replace(answer, life=life, version=version), *files.start(""))

    async def searched(self, texts: dict[str, str], most: int, milliseconds: int = 60_000, **options: object) -> tuple[dict[str, object], dict[str, object]]:
        """What a search for x answers in folders with a text each: how many lines, or why there are none; and how many there are in all."""
        from tsearch.bounds import Bounds
        from tsearch.web.repositories import Files, Filter, Served, Shared
        from tsearch.web.searching import Search

        session = await self.enterAsyncContext(aio.Session.started(max_answer=most))
        shared, chosen = Shared(session, self.fail), []
        for name, text in texts.items():
            (self.top / name).mkdir(exist_ok=True)
            (self.top / name / "text").write_text(text)
            chosen.append((Files(Served(name, os.fsencode(self.top / name), bounds=Bounds()), shared), Filter()))
            await chosen[-1][0]._look(self.fail)
        query = Query.of(**{"pattern": "x", "context": 0, "limit": 101, "spans": True, **options})
        search = lambda: Search(shared, chosen, query, "", milliseconds, most)  # noqa: E731
        found = [getattr(one, "answer", one) for one in await search().find()]
        lines = [[(hit.text, hit.spans and len(hit.spans)) for hit in one] if isinstance(one, Answer) else str(one) for one in found]
        return dict(zip(texts, lines)), dict(zip(texts, await search().count()))

    async def test_an_answer_that_is_too_long(self) -> None:
        """It takes no lines from the others; each is asked by itself, and what they have together is not too long either."""
        texts = {"a": "x one\n", "long": "x" + "y" * 200_000 + "\n", "b": "x two\nno\nx three\n", "none": "y\n"}
        lines, counts = await self.searched(texts, 100_000)
        self.assertEqual({name: [text for text, _ in found] if isinstance(found, list) else found for name, found in lines.items()}, {
            "a": [b"x one"], "long": "answer too long", "b": [b"x two", b"x three"], "none": [],
        })  # fmt: skip
        self.assertEqual(counts, {"a": 1, "long": 1, "b": 2, "none": 0})
        lines, counts = await self.searched({name: "x" + "y" * length for name, length in (("a", 40_000), ("b", 40_001), ("c", 50_000), ("d", 0))}, 100_000)
        # of the three long ones it is that whose answer comes last
        self.assertEqual(sorted(found if isinstance(found, str) else f"{len(found)} line" for found in lines.values()), ["1 line"] * 3 + ["answer too long"])
        self.assertEqual(len(lines["d"]), 1)
        self.assertEqual(set(counts.values()), {1})

    async def test_marks_that_would_take_too_much(self) -> None:
        """Nothing is matched here then, and each line has the marks of the program."""
        from tsearch.web import marks

        texts = {"a": ("x" * 900 + " x1\n") * 100, "b": "x1 and x2\n"}
        pattern = "x+y*z*u*v*w*1"
        found = {}
        for most in 0, 1 << 60:
            with unittest.mock.patch.object(marks, "MOST_WORK", most):
                marked = marks.marks_of(Query.of(pattern, context=0, spans=True))
                lines, _ = await self.searched(texts, 1 << 20, pattern=pattern)
                self.assertEqual([one for each in lines.values() for _, one in each], [1 if most == 0 else None] * 101)
                found[most] = {name: [text for text, _ in each] for name, each in lines.items()}
        self.assertEqual(found[0], found[1 << 60])
        self.assertFalse(marked.can_mark(b"".join(b"a\0%d:%s\n" % (number, text) for number, text in enumerate(found[0]["a"]))))

    async def test_the_time_of_a_search(self) -> None:
        """If one search over all takes more than half of it, each has the other half."""
        from tsearch.web import searching
        from tsearch.web.repositories import Shared

        find = Shared.find

        async def slow(shared: Shared, query: Query) -> Answer:
            if len(query.under) > 1:
                await asyncio.sleep(SECONDS)
            return await find(shared, query)

        with unittest.mock.patch.object(Shared, "find", slow), unittest.mock.patch.object(searching, "GRACE", SECONDS / 2):
            lines, counts = await self.searched({"a": "x one\n", "b": "x two\n"}, 1 << 20, milliseconds=200)
        self.assertEqual({name: [text for text, _ in found] for name, found in lines.items()}, {"a": [b"x one"], "b": [b"x two"]})
        self.assertEqual(counts, {"a": 1, "b": 1})

    async def test_paths_that_may_be_seen(self) -> None:
        """Those of which the host's patterns find the names, as a session writes them."""
        from tsearch.web.repositories import Files, Filter, Served

        files = Files(Served("x", os.fsencode(self.top)), self.shared)
        paths = [b"a b/x", b"a%20b/x", b"a/x", b"c\xe9"]
        for own, wanted in (
            (Filter(), [0, 1, 2, 3]), (Filter(("^a%20b/",)), [0]), (Filter(("^a%2520b/",)), [1]), (Filter((), ("%20",)), [1, 2, 3]), (Filter(("/x$", "^a"), ("^a/",)), [0, 1]),
            (Filter(under=("a b/", "a/")), [0, 2]), (Filter(not_under=("a b", "a%")), [2, 3]), (Filter(("x$",), (), ("a",), ("a/",)), [0, 1]), (Filter(under=("c\udce9",)), [3]),
        ):  # fmt: skip
            seen = [at for at, path in enumerate(paths) if await files.admits(own, path, b"visitor")]
            self.assertEqual(seen, wanted, own)

    async def test_all_look_at_a_new_program(self) -> None:
        """Once one of them has found that the program has ended, though nobody searches."""
        from tsearch.web.repositories import Files, Served, Shared

        shared, repositories = Shared(self.session, lambda text: None), []
        for name in "abc":
            (self.top / name).mkdir()
            (self.top / name / "text").write_text("in\n")
            repositories.append(Files(Served(name, os.fsencode(self.top / name)), shared))
        keeping = [asyncio.create_task(one.keep(100 * SECONDS, self.fail)) for one in repositories]
        async with asyncio.timeout(SECONDS):
            for life in 1, 2:
                while not all(one.is_loaded for one in repositories) or shared.session.life != life:
                    await asyncio.sleep(0.01)
                self.assertEqual(len(await self.session.find("in")), 3)
                if life == 1:
                    self.session.kill()
                    repositories[1].hint()
            self.assertEqual(shared.repositories, set(repositories))
            for one, task in zip(repositories, keeping):
                await one.leave(task)
        self.assertEqual((shared.repositories, (await self.session.status()).documents), (set(), 0))

    async def test_reviews_of_what_is_served_no_longer(self) -> None:
        """They go with it."""
        from tsearch.web.repositories import Objects, Served

        made = Made(self.top / "made.git")
        commits = [made.commit("main", {b"n.c": b"int n%d;\n" % number}) for number in range(3)]
        objects = Objects(Served("made", os.fsencode(made.path), ("main",)), self.shared)
        keeping = asyncio.create_task(objects.keep(SECONDS, self.fail))
        for pair in itertools.pairwise(commits):
            async with objects.review(*pair) as review:
                self.assertEqual((await review.find("int")).count("+"), 1)
        await self.expect(1 + 2 * 2)
        await objects.leave(keeping)
        await self.expect(0)

    async def test_the_limits_of_the_program(self) -> None:
        """It has those that no visitor can lift."""
        from tsearch.web.server import Server as Application
        from tsearch.web.settings import Limits, Settings

        for limits, pattern, wanted in (Limits(search_ms=60_000, answer=1_000), "xxx", "answer too long"), (Limits(search_ms=50), SLOW, "too slow"):
            async with contextlib.AsyncExitStack() as stack:
                session = await Application(Settings(served=(), limits=limits, readers=1), self.fail)._session(stack)
                stack.push_async_callback(session.close)
                await session.put("long", "x" * 2_000)
                for name, body in slow_documents().items():
                    await session.put(name, body)
                await session.publish()
                with self.assertRaises(tsearch.Error) as refused:
                    await session.find(pattern)
                self.assertEqual(refused.exception.reason, wanted)

    async def test_the_commit_of_an_answer(self) -> None:
        """It is that of the version that the answer is of, though the branch has moved since."""
        from tsearch.web.repositories import Objects, Served

        made = Made(self.top / "made.git")
        objects = Objects(Served("made", os.fsencode(made.path), ("main", "topic")), self.shared)
        commits, answers, said = [], [], []
        for number in range(3):
            commits.append(made.commit("main", {b"n.c": b"int n%d;\n" % number}))
            await objects._look(said.append)
            answers.append(await self.session.find("int"))
        found = [(await objects.found(answer, *objects.start("main"))).commit for answer in answers]
        self.assertEqual(found, commits)
        self.assertEqual(said, ["made: there is no revision topic"])
        # another branch with the same files is no publish
        made.commit("topic", {}, start="main")
        await objects._look(self.fail)
        self.assertEqual(objects._commit_at("main", answers[0].version), commits[0])
        self.assertEqual(objects._commit_at("topic", answers[0].version), "")
        self.assertEqual(objects._commit_at("main", answers[0].version - 1), "")

    async def expect(self, documents: int) -> None:
        """Waits until the session has so many."""
        async with asyncio.timeout(SECONDS):
            while (await self.session.status()).documents != documents:
                await asyncio.sleep(0.01)

    async def test_reviews_in_use(self) -> None:
        """None of them ends. Then they stay, until there is to be room for others: the one goes in which nobody has searched for the longest time."""
        from tsearch.web.repositories import Objects, Served

        made = Made(self.top / "made.git")
        commits = [made.commit("main", {b"n.c": b"int n%d;\n" % number}) for number in range(8)]
        objects = Objects(Served("made", os.fsencode(made.path), ("main",)), self.shared)
        await objects._look(self.fail)
        async with contextlib.AsyncExitStack() as stack:
            reviews = [await stack.enter_async_context(objects.review(*pair)) for pair in itertools.pairwise(commits)]
            again = await stack.enter_async_context(objects.review(*commits[:2]))
            async with objects.review(commits[0], commits[2]):
                pass
            await asyncio.sleep(0.2)
            self.assertIs(again, reviews[0])
            self.assertEqual([(await review.find("int")).count("+") for review in reviews], [1] * 7)
        await self.expect(1 + 8 * 2)
        with self.assertRaises(tsearch.Error):
            async with objects.review("0" * 40, commits[0]):
                pass
        await self.expect(1 + 7 * 2)
        self.assertEqual(self.shared.reviews.count, 7)
        async with objects.review(*commits[:2]) as review:
            self.assertEqual((await review.find("int")).count("-"), 1)


@unittest.skipUnless(NO_REASON, REASON)
class Ending(unittest.IsolatedAsyncioTestCase):
    async def test_repositories_that_are_being_removed(self) -> None:
        """They do not hold up the end."""
        from tsearch.web.server import Server as Application
        from tsearch.web.settings import Settings

        application = Application(Settings(served=()), self.fail)
        for _ in range(3):
            leaving = asyncio.create_task(asyncio.sleep(SECONDS))
            application._leaving.add(leaving)
            leaving.add_done_callback(application._leaving.discard)
        await asyncio.sleep(0)
        await application._end()
        self.assertEqual(application._leaving, set())


@unittest.skipUnless(NO_REASON, REASON)
class Unforeseen(unittest.IsolatedAsyncioTestCase):
    async def test_a_fault_that_nobody_has_foreseen(self) -> None:
        """It is logged, the repository is named and goes on, and so do the others; once it is mended, all is as before."""
        from tsearch.web import repositories
        from tsearch.web.repositories import Served, Shared
        from tsearch.web.server import Server as Application
        from tsearch.web.settings import Settings

        top, said, broken = pathlib.Path(self.enterContext(tempfile.TemporaryDirectory())), [], False
        for name in "ab":
            (top / name).mkdir()
            (top / name / "text").write_text("x old\n")
        self.enterContext(unittest.mock.patch.multiple(repositories, _FIRST_REST=0.02, _LONGEST_REST=0.05))
        application = Application(Settings(served=(), look=0.02, log=str(top / "log")), said.append)
        session = await self.enterAsyncContext(aio.Session.started())
        application._shared = Shared(session, said.append)
        refresh, looks = aio.Folder.refresh, []

        async def refreshed(folder: aio.Folder) -> object:
            looks.append(folder.root)
            if broken and folder.root.endswith(b"/a"):
                raise KeyError("out of nowhere")
            return await refresh(folder)

        async def until_told(status: int, fault: str) -> dict:
            async with asyncio.timeout(SECONDS):
                while True:
                    health = await application._health(None)
                    told = json.loads((await application._status(None)).text)["repositories"]
                    if health.status == status and [one.get("fault", "") for one in told] == [fault, ""]:
                        return json.loads(health.text)
                    await asyncio.sleep(0.01)

        self.enterContext(unittest.mock.patch.object(aio.Folder, "refresh", refreshed))
        for name in "ab":
            application._add(Served(name, os.fsencode(top / name)))
        self.assertEqual(await until_told(200, ""), {"ok": True, "not_served": 0})
        broken = True
        fault = "a fault that was not foreseen; it is tried again"
        self.assertEqual(await until_told(503, fault), {"ok": False, "not_served": 1, "repositories": ["a"]})
        # it is looked at again and again, and the other one is
        looks.clear()
        for name in "ab":
            (top / name / "text").write_text("x new\n")
        async with asyncio.timeout(SECONDS):
            while min(looks.count(os.fsencode(top / name)) for name in "ab") < 3:
                await asyncio.sleep(0.01)
        async with asyncio.timeout(SECONDS):
            while [hit.text for hit in await session.find("x")] != [b"x old", b"x new"]:
                await asyncio.sleep(0.01)
        broken = False
        await until_told(200, "")
        self.assertEqual([hit.text for hit in await session.find("x")], [b"x new"] * 2)
        rows = [json.loads(row) for row in (top / "log").read_text().splitlines()]
        self.assertGreater(len(rows), 2)
        self.assertEqual({(row["repository"], row["fault"]) for row in rows}, {("a", "KeyError('out of nowhere')")})
        self.assertTrue(all("in refreshed" in row["traceback"] and row["time"] for row in rows))
        self.assertEqual(said, [f"a: {fault}: KeyError('out of nowhere')"])
        # while it rests it can be left
        broken = True
        await until_told(503, fault)
        unittest.mock.patch.object(repositories, "_LONGEST_REST", SECONDS * 100).start()
        self.addCleanup(unittest.mock.patch.stopall)
        async with asyncio.timeout(SECONDS):
            application._leave(application._kept.pop("a"))
            await asyncio.gather(*application._leaving)
            self.assertEqual((await session.status()).documents, 1)
            # whose documents cannot be removed
            with unittest.mock.patch.object(aio.Folder, "drop", side_effect=KeyError("drop")):
                application._leave(application._kept.pop("b"))
                await asyncio.gather(*application._leaving, return_exceptions=True)
        self.assertEqual(said[-1], "b: its documents were not removed: KeyError('drop')")


class Told:
    """In place of a session: it notes what it is told."""

    life = 1

    def __init__(self) -> None:
        self.feeding = Feeding()
        self.documents: dict[bytes, bytes] = {}

    async def put(self, name: bytes, body: bytes) -> None:
        self.documents[name] = body

    async def publish(self, *, tells: bool = True) -> Published:
        return Published(1, 1, len(self.documents), 0, 0, 0, 0)

    def changes(self, refusals: list) -> Told:
        return self


class Keeping(unittest.IsolatedAsyncioTestCase):
    async def test_a_call_that_fails_between_two_changes(self) -> None:
        """What was not sent then is sent at the next look."""
        top = pathlib.Path(self.enterContext(tempfile.TemporaryDirectory()))
        faults = [tsearch.TooSlow("too slow")]

        async def before_change(name: bytes) -> None:
            if name == b"b" and faults:
                raise faults.pop()

        session = Told()
        kept = aio.Folder(session, top, before_change=before_change)
        for text in "old", "newer":
            for name in "abcd":
                (top / name).write_text(text)
            if text == "old":
                await kept.refresh()
        with self.assertRaises(tsearch.TooSlow):
            await kept.refresh()
        (top / "c").write_text("newest")
        await kept.refresh()
        self.assertEqual(session.documents, {b"a": b"newer", b"b": b"newer", b"c": b"newest", b"d": b"newer"})

    async def test_refusals_of_a_look_that_fails(self) -> None:
        """They are told to the source whose they are, though another one publishes them, and not to that one."""
        top = pathlib.Path(self.enterContext(tempfile.TemporaryDirectory()))
        for folder in "ab":
            (top / folder).mkdir()
        long, fails = "x" * 20_000 + "\n", False

        def progress(done: int, of: int) -> None:
            if fails and done >= 2:
                raise RuntimeError

        for text in "long", "mended", "gone":
            async with aio.Session.started(max_line=None) as session:
                kept = aio.Folder(session, top / "a", prefix="a/", progress=progress)
                other = aio.Folder(session, top / "b", prefix="b/")
                for name in "12345":
                    (top / "a" / name).write_text("old\n")
                await kept.refresh()
                # the first one is known, and the second is new
                (top / "a/1").write_text(long)
                (top / "a/15").write_text(long)
                (top / "a/3").write_text("old, changed\n")
                (top / "b/1").write_text(f"{text}\n")
                fails = True
                with self.assertRaises(RuntimeError):
                    await kept.refresh()
                refreshed = await other.refresh()
                self.assertEqual((refreshed.put, refreshed.left_out, refreshed.published.refused), (1, [], ()))
                fails = False
                if text == "mended":
                    (top / "a/1").write_text("new\n")
                elif text == "gone":
                    (top / "a/1").unlink()
                refreshed = await kept.refresh()
                wanted = {b"15": "line too long", **({b"1": "line too long"} if text == "long" else {})}
                self.assertEqual(({one.removeprefix(b"a/"): kept.left_out[one] for one in kept.left_out}, dict(refreshed.left_out)), (wanted, wanted))
                names = [b"a/2", b"a/3", b"a/4", b"a/5"]
                self.assertEqual((await session.find("old", names="^a/", names_only=True)).names(), names)
                self.assertEqual(kept.totals[0], len(names) + (text == "mended"))
                self.assertEqual((await session.status()).documents, kept.totals[0] + 1)
                # changes of others are told too, also where it takes two publishes
                await session.put("bad", b"\0")
                (top / "a/2").write_text(long)
                refreshed = await kept.refresh()
                self.assertEqual([one.name for one in refreshed.published.refused], [b"a/2", b"bad"])
                self.assertEqual((await session.find("old", names="^a/", names_only=True)).names(), names[1:])
                # and left to those who ask for them where a source goes
                await session.put("bad", b"\0")
                await other.drop()
                self.assertEqual([one.name for one in (await session.publish()).refused], [b"bad"])
                # what was refused is tried again once it has changed
                (top / "a/15").write_text("old\n")
                await kept.refresh()
                self.assertEqual(len(await session.find("old", names="^a/15$")), 1)
                (top / "a/15").unlink()

    def test_the_same_refusals_with_threads(self) -> None:
        top = pathlib.Path(self.enterContext(tempfile.TemporaryDirectory()))
        for folder in "ab":
            (top / folder).mkdir()
            (top / folder / "1").write_text("old\n")
            (top / folder / "2").write_text("old\n")
        fails = False

        def progress(done: int, of: int) -> None:
            if fails and done == 1:
                raise RuntimeError

        with tsearch.Session(max_line=None) as session:
            kept = tsearch.Folder(session, top / "a", prefix="a/", progress=progress)
            other = tsearch.Folder(session, top / "b", prefix="b/")
            kept.refresh()
            (top / "a/1").write_text("x" * 20_000)
            (top / "a/2").write_text("newer\n")
            fails = True
            with self.assertRaises(RuntimeError):
                kept.refresh()
            self.assertEqual(other.refresh().published.refused, ())
            fails = False
            self.assertEqual(kept.refresh().left_out, [(b"1", "line too long")])
            self.assertEqual([hit.name for hit in session.find("")], [b"a/2", b"b/1", b"b/2"])
            # what a restart refuses is told to each, too, and changes of others as before
            session.kill()
            (top / "a/1").write_text("y" * 20_000)
            session.restart(kept.feed)
            session.put("bad", b"\0")
            refreshed = kept.refresh()
            self.assertEqual([(one.name, one.reason) for one in refreshed.published.refused], [(b"bad", "byte 0 in body")])
            self.assertEqual((kept.left_out, len(session.find("", names="^a/"))), ({b"1": "line too long"}, 1))
            # also where it takes two publishes
            session.put("bad", b"\0")
            (top / "a/2").write_text("z" * 20_000)
            refreshed = kept.refresh()
            self.assertEqual([(one.name, one.reason) for one in refreshed.published.refused], [(b"a/2", "line too long"), (b"bad", "byte 0 in body")])
            self.assertEqual([hit.name for hit in session.find("")], [])

    async def test_a_session_that_another_one_has_started_again(self) -> None:
        """Each source sends all that it has at its next look. What is dropped is removed."""
        top = pathlib.Path(self.enterContext(tempfile.TemporaryDirectory()))
        for folder in "ab":
            (top / folder).mkdir()
            (top / folder / "x").write_text(f"in {folder}\n")
        async with aio.Session.started() as session:
            kept = [aio.Folder(session, top / folder, prefix=f"{folder}:") for folder in "ab"]
            for one in kept:
                await one.refresh()
            session.kill()
            with self.assertRaises(tsearch.Ended):
                await kept[0].refresh()
            await session.restart(lambda changes: asyncio.sleep(0))
            self.assertEqual((await kept[0].refresh()).put, 1)
            self.assertEqual([hit.text for hit in await session.find("in")], [b"in a"])
            self.assertEqual((await kept[1].refresh()).put, 1)
            self.assertEqual([hit.text for hit in await session.find("in")], [b"in a", b"in b"])
            self.assertEqual([one.totals for one in kept], [(1, 5), (1, 5)])
            await kept[0].drop()
            self.assertEqual([hit.text for hit in await session.find("in")], [b"in b"])
            self.assertEqual(kept[0].totals, (0, 0))

    def test_the_same_with_threads(self) -> None:
        top = pathlib.Path(self.enterContext(tempfile.TemporaryDirectory()))
        (top / "x").write_text("in\n")
        with tsearch.Session() as session:
            folder = tsearch.Folder(session, top)
            folder.refresh()
            session.kill()
            session.restart(lambda changes: None)
            self.assertEqual(len(session.find("in")), 0)
            self.assertEqual(folder.refresh().put, 1)
            self.assertEqual(len(session.find("in")), 1)


if __name__ == "__main__":
    unittest.main()
