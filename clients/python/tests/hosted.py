"""A page over repositories of git in a browser, for tests."""

from __future__ import annotations

import pathlib
import tempfile
import urllib.parse

from browsing import Browsing
from helpers import slow_file
from made import Made
from serving import serving_in

FILES = {
    b"src/main.c": b"int main(void)\n{\n    return call(1);\n}\n",
    b"src/util.c": b"int call(int x)\n{\n    return x + 1;\n}\n",
    b"caf\xe9 \xff/a b.txt": b"bytes here\n",
    b"doc/a b.txt": b"spaced path\n",
    b"doc/ab.txt": b"spaced not\n",
    b"turning.txt": "turning \u202egnihton\u202c end\n".encode(),
    b"many.txt": b"".join(b"many lines %d\n" % number for number in range(1_000)),
}
LINK = "https://git.example/{repository}/blob/{commit}/{path}#L{line}"


class Hosted(Browsing):
    """Tests of a page over two repositories, one of them with two branches."""

    @classmethod
    def serve(cls):
        top = pathlib.Path(cls.enterClassContext(tempfile.TemporaryDirectory()))
        cls.made = Made(top / "made.git")
        cls.first = cls.made.commit("main", FILES | {b"slow/%d" % number: slow_file(number) for number in range(1_000)})
        cls.made.commit("topic/x", {b"src/util.c": b"int call(int x)\n{\n    int more;\n    return x + more;\n}\n", b"src/new.c": b"int more;\n"}, start="main")
        cls.other = Made(top / "other.git")
        cls.other.commit("main", {b"many.txt": FILES[b"many.txt"], b"few.txt": b"int few;\n"})
        words = ["--revisions", "main", "--revisions", "topic/*", "--link", LINK, "--most-lines", "100", "--search-ms", "6000", "--readers", "1"]
        return cls.enterClassContext(serving_in(top, *words, str(cls.made.path), str(cls.other.path), count=2))

    def words(self) -> dict[str, str]:
        """The words of the address."""
        return dict(urllib.parse.parse_qsl(urllib.parse.urlsplit(self.browser.current_url).query))

    def lines(self) -> list[str]:
        return self.browser.execute_script("return [...document.querySelectorAll('#file-lines .text')].map(text => text.textContent)")

    def targets(self) -> list[str]:
        return self.browser.execute_script("return [...document.querySelectorAll('#file-lines .target .number')].map(text => text.textContent)")

    def is_open(self) -> bool:
        return self.one("#file").is_displayed() and bool(self.lines())
