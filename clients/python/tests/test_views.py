"""Files by windows of lines, on the server and in a browser."""

import importlib.util
import json
import pathlib
import random
import shutil
import tempfile
import threading
import unittest
import unittest.mock

from browsing import Browsing, reason_to_skip
from made import Made
from serving import Server, serving_in

HAS_PAGE = importlib.util.find_spec("aiohttp")
LONG = 20_000


@unittest.skipUnless(HAS_PAGE, "the library aiohttp (python3-aiohttp) is missing")
class Windows(unittest.TestCase):
    def test_any_window(self) -> None:
        """Whatever the pieces are by which lines are counted; of a text, and of the rows of an answer."""
        from tsearch.web import views

        source = random.Random(1)
        for _ in range(300):
            lines = [bytes(source.choices(b"ab:\0"[:3], k=source.choice([0, 1, 5]))) for _ in range(source.randint(1, 30))]
            rows = b"".join(b"n\0%d:%s\n" % (at, line) for at, line in enumerate(lines, 1))
            with unittest.mock.patch.object(views, "_PIECE", source.randint(1, 40)):
                texts = [views.Text(b"\n".join(lines) + b"\n"), views.Text(rows, True)]
                texts += [views.Text(b"\n".join(lines))] if lines[-1] else []
                for text in texts:
                    self.assertEqual(text.lines, len(lines))
                    first, last = sorted(source.choices(range(1, len(lines) + 4), k=2))
                    window = text.window(views.Wanted(first, last, False))
                    self.assertEqual((window.lines, window.first, window.of, window.is_cut), (lines[first - 1 : last], first, len(lines), False))
        self.assertEqual(views.Text(b"").lines, 0)

    def test_a_window_is_small(self) -> None:
        """Many lines, and long ones, which are cut; one line in any case."""
        from tsearch.web import views

        wanted = lambda first, is_whole=False: views.Wanted.of({"from": str(first), **({"whole": "1"} if is_whole else {})})  # noqa: E731
        text = views.Text(b"\n" * 1_000_000)
        self.assertEqual((len(text.window(wanted(999_000)).lines), len(text.window(wanted(5)).lines)), (1_001, views.MOST_LINES))
        text = views.Text(b"x" * 3_000_000 + b"\n" + b"y" * 200_000 + b"\n" + b"z" * 200_000)
        window = text.window(wanted(1))
        self.assertEqual((window.is_cut, len(window.lines)), (True, 3))
        self.assertLess(sum(map(len, window.lines)), 3_000)
        self.assertEqual(window.lines[0], b"x" * 200 + b" [... 2,999,800 bytes ...] ")
        window = text.window(wanted(1, is_whole=True))
        self.assertLess(sum(map(len, window.lines)), 2 * views.MOST_BYTES)
        self.assertEqual(text.window(wanted(2, is_whole=True)).lines, [b"y" * 200_000])
        for words in {"from": "x"}, {"to": "-1"}, {"from": "1" * 20}:
            with self.assertRaises(ValueError):
                views.Wanted.of(words)

    def test_what_is_kept(self) -> None:
        """The texts that were looked at last, up to so many bytes."""
        from tsearch.web import views

        texts, read = views.Texts(100), []

        def of(number: int, size: int) -> int:
            return len(texts.of((b"", "", b"%d" % number), lambda: read.append(number) or b"x" * size).data)

        for number, size in (1, 40), (2, 40), (1, 40), (3, 40), (1, 40), (2, 40), (4, 101), (4, 101), (2, 40):
            self.assertEqual(of(number, size), size)
        self.assertEqual(read, [1, 2, 3, 2, 4, 4])


@unittest.skipUnless(HAS_PAGE and shutil.which("git"), "the library aiohttp (python3-aiohttp) or the command git is missing")
class Served(unittest.TestCase):
    def serve(self, files: dict[bytes, bytes], *words: str, is_bare: bool = True) -> tuple[Server, str]:
        top = pathlib.Path(self.enterContext(tempfile.TemporaryDirectory()))
        if is_bare:
            made = Made(top / "made.git")
            commit = made.commit("main", files)
            return self.enterContext(serving_in(top, *words, str(made.path), count=1)), commit
        for name, body in files.items():
            (top / "made").mkdir(exist_ok=True)
            (top / "made" / name.decode()).write_bytes(body)
        return self.enterContext(serving_in(top, *words, str(top / "made"), count=1)), ""

    def view(self, server: Server, place: str, words: str = "") -> tuple[int, dict, int]:
        status, body, _ = server.get(f"/api/file?repository=made&{place}{words}")
        return status, json.loads(body), len(body)

    def test_a_file_of_line_feeds(self) -> None:
        """Millions of them: only the window is made, whichever it is, of a commit and of a working tree."""
        for is_bare in True, False:
            server, commit = self.serve({b"lf": b"\n" * 4_000_000}, "--max-body", "4000000", is_bare=is_bare)
            place = "name=lf" + (f"&commit={commit}" if is_bare else "")
            if not is_bare:
                head = server.find("nothing")[0]
                place += f"&life={head['life']}&version={head['version']}"
            for words, first, count in ("", 1, 2_000), ("&from=3999999", 3_999_999, 2), ("&from=5&to=7", 5, 3), ("&from=5000000", 5_000_000, 0):
                status, told, length = self.view(server, place, words)
                self.assertEqual((status, told["from"], told["of"], told["lines"]), (200, first, 4_000_000, [""] * count))
                self.assertLess(length, 20_000)
            self.assertEqual(server.get(f"/api/file?repository=made&{place}&from=x")[0], 400)

    def test_it_is_made_in_a_thread(self) -> None:
        """So others are answered meanwhile: here until `/health` has been."""
        import asyncio

        from tsearch.web import views
        from tsearch.web.server import Server as Application
        from tsearch.web.settings import Settings as PageSettings, served_of
        from aiohttp.test_utils import TestClient, TestServer

        top = pathlib.Path(self.enterContext(tempfile.TemporaryDirectory()))
        made = Made(top / "made.git")
        commit = made.commit("main", {b"a": b"one\ntwo\n"})
        answered, begun = threading.Event(), threading.Event()
        whole = views.Text.__init__

        def slow(text: views.Text, *words: object) -> None:
            begun.set()
            assert answered.wait(60)
            whole(text, *words)

        async def run() -> None:
            application = Application(PageSettings(tuple(served_of([str(made.path)]))), lambda text: None).application()
            async with TestClient(TestServer(application)) as client:
                while (await client.get("/health")).status != 200:
                    await asyncio.sleep(0.01)
                with unittest.mock.patch.object(views.Text, "__init__", slow):
                    viewing = asyncio.create_task(client.get(f"/api/file?name=a&commit={commit}"))
                    await asyncio.to_thread(begun.wait, 60)
                    self.assertEqual((await client.get("/health")).status, 200)
                    answered.set()
                    self.assertEqual((await (await viewing).json())["lines"], ["one", "two"])

        asyncio.run(run())


@unittest.skipIf(reason_to_skip(), reason_to_skip())
class Scrolled(Browsing):
    @classmethod
    def serve(cls):
        top = pathlib.Path(cls.enterClassContext(tempfile.TemporaryDirectory()))
        made = Made(top / "made.git")
        cls.first = made.commit("main", {b"long": b"".join(b"line %d\n" % at for at in range(1, LONG + 1)), b"short": b"one\ntwo\n"})
        return cls.enterClassContext(serving_in(top, str(made.path), count=1))

    def numbers(self) -> list[int]:
        """The numbers of the lines that are shown, each with its own text."""
        script = "return [...document.querySelectorAll('#file-lines .row')].map(row => [row.querySelector('.number').textContent, row.querySelector('.text').textContent])"
        rows = self.browser.execute_script(script)
        numbers = [int(number) for number, _ in rows]
        self.assertEqual([text for _, text in rows], [f"line {number}" for number in numbers])
        self.assertEqual(numbers, list(range(numbers[0], numbers[0] + len(numbers))) if numbers else [])
        return numbers

    def is_in_view(self, number: int) -> bool:
        script = """const row = [...document.querySelectorAll('#file-lines .row')].find(row => row.querySelector('.number').textContent === arguments[0]);
            const box = document.querySelector('#file-lines').getBoundingClientRect(), own = row?.getBoundingClientRect();
            return Boolean(own) && own.top >= box.top && own.bottom <= box.bottom"""
        return bool(self.browser.execute_script(script, str(number)))

    def scroll(self, side: int) -> None:
        self.browser.execute_script("const lines = document.querySelector('#file-lines'); lines.scrollTop = arguments[0] < 0 ? 0 : lines.scrollHeight", side)

    def test_lines_come_as_one_scrolls_and_jumps(self) -> None:
        self.open(f"/?of=made&file=long&commit={self.first}&lines=15000")
        self.wait(lambda: self.is_in_view(15_000))
        self.assertLess(len(self.numbers()), 6_001)
        self.assertEqual(self.one("#file-lines .target .number").text, "15000")
        self.assertEqual(self.one("#file-of").text, "of 20,000")
        before = self.numbers()
        self.scroll(-1)
        self.wait(lambda: self.numbers()[0] < before[0])
        # what was looked at stays where it is
        self.wait(lambda: self.is_in_view(before[0]))
        while self.numbers()[-1] < LONG:
            last = self.numbers()[-1]
            self.scroll(1)
            self.wait(lambda last=last: self.numbers()[-1] > last)
        self.assertLess(len(self.numbers()), 6_001)
        self.scroll(1)
        self.wait(lambda: self.is_in_view(LONG))
        field = self.one("#file-line")
        field.send_keys("7\n")
        self.wait(lambda: self.is_in_view(7))
        self.assertEqual(self.numbers()[0], 1)
        self.assertIn("lines=7", self.browser.current_url)
        field.clear()
        field.send_keys("99,999\n")
        self.wait(lambda: self.is_in_view(LONG))
        self.open(f"/?of=made&file=short&commit={self.first}")
        self.wait(lambda: len(self.all("#file-lines .row")) == 2)
        self.assertFalse(self.one("#file-jump").is_displayed())


if __name__ == "__main__":
    unittest.main()
