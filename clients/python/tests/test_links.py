"""The page over repositories of git, in a browser: links to lines, branches, reviews, shares, and one that gives no answer."""

import os
import shutil
import signal
import unittest
import urllib.parse

from browsing import reason_to_skip
from helpers import SLOW
from hosted import FILES, Hosted


@unittest.skipIf(reason_to_skip() or not shutil.which("git"), reason_to_skip() or "the command git is missing")
class Links(Hosted):
    def test_a_link_to_a_line(self) -> None:
        """It survives a reload, Back, Forward and a push, and opens elsewhere."""
        self.type("return x")
        row = self.one("#results .row:not(.around)")
        link = row.get_attribute("href")
        row.click()
        self.wait(self.is_open)
        commit = self.made.git("rev-parse", "main")
        self.assertEqual({key: self.words().get(key) for key in ("q", "of", "file", "commit", "lines")}, {
            "q": "return x", "of": "made", "file": "src/util.c", "commit": commit, "lines": "3",
        })  # fmt: skip
        self.assertEqual((self.browser.current_url, self.one("#file-link").get_attribute("href")), (link, link))
        self.assertEqual(self.one("#file-host").get_attribute("href"), f"https://git.example/made/blob/{commit}/src/util.c#L3")
        before = self.lines()
        self.browser.refresh()
        self.wait(lambda: self.is_open() and self.done() == "return x" and self.all("#file-lines mark"))
        self.assertEqual((self.lines(), self.targets()), (before, ["3"]))
        self.assertEqual(self.one("#file-lines mark").text, "return x")
        self.browser.back()
        self.wait(lambda: not self.one("#file").is_displayed())
        self.assertEqual((self.words().get("file"), len(self.shown())), (None, 1))
        self.browser.forward()
        self.wait(self.is_open)
        # lines of it
        numbers = self.all("#file-lines .number")
        numbers[1].click()
        self.assertEqual(self.targets(), ["2"])
        from selenium.webdriver.common.action_chains import ActionChains
        from selenium.webdriver.common.keys import Keys

        ActionChains(self.browser).key_down(Keys.SHIFT).click(numbers[3]).key_up(Keys.SHIFT).perform()
        self.assertEqual((self.targets(), self.words()["lines"]), (["2", "3", "4"], "2-4"))
        link = self.browser.current_url
        pushed = self.made.commit("main", {b"src/util.c": b"int pushed;\n"})
        try:
            self.wait(lambda: self.server.hits("pushed"))
            self.browser.get("about:blank")
            self.browser.get(link)
            self.wait(lambda: self.is_open() and self.done() is not None)
            self.assertEqual((self.lines(), self.targets()), (before, ["2", "3", "4"]))
            self.assertEqual(self.shown(), [])
            # a push by force, and that commit is of no branch any more
            self.browser.get("about:blank")
            self.open(f"/?of=made&file=src/util.c&commit={pushed}")
            self.wait(self.is_open)
            self.assertTrue(self.one("#file-host").is_displayed())
            self.made.commit("main", {b"src/util.c": b"int rewritten;\n"}, start=None)
            self.wait(lambda: self.server.hits("rewritten"))
            self.browser.refresh()
            self.wait(lambda: self.all("#file-lines .note"))
            self.assertIn("this commit is not, or no longer, served", self.one("#file-lines").text)
            self.assertFalse(self.one("#file-host").is_displayed())
        finally:
            self.made.git("update-ref", "refs/heads/main", self.first)
            self.made.files["main"] = dict(FILES)
            self.wait(lambda: self.server.hits("return x", repository="made"))

    def test_paths_of_any_bytes(self) -> None:
        self.type("bytes here")
        self.one("#results .row").click()
        self.wait(self.is_open)
        self.browser.refresh()
        self.wait(self.is_open)
        self.assertEqual(self.lines(), ["bytes here"])
        self.assertIn("caf\ufffd \ufffd/a b.txt", self.one("#file-name").text)

    def test_a_space_in_a_filter(self) -> None:
        self.type("spaced")
        self.assertEqual(len(self.shown()), 2)
        self.type("a b", "#name")
        self.wait(lambda: [row[0] for row in self.shown()] == ["doc/a b.txt"])
        self.one("#name").clear()
        self.type("^doc/a ?b", "#name")
        self.wait(lambda: [row[0] for row in self.shown()] == ["doc/a b.txt", "doc/ab.txt"])
        # a name of the repository or of the branch is no path
        self.one("#name").clear()
        self.type("main", "#name")
        self.wait(lambda: self.one("#status").text == "No line matches.")

    def test_the_choice_of_a_branch(self) -> None:
        self.assertFalse(self.one("#of-revisions").is_displayed())
        self.one("#repositories label:nth-child(1)").click()
        self.assertEqual([option.get_attribute("value") for option in self.all("#revisions option")], ["main", "topic/x"])
        self.type("int more")
        self.assertEqual(self.shown(), [])
        self.type("topic/x", "#revision")
        self.wait(lambda: [row[0] for row in self.shown()] == ["src/new.c", "src/util.c"])
        self.assertEqual(self.words()["revision"], "topic/x")
        self.browser.refresh()
        self.wait(lambda: len(self.shown()) == 2)
        self.one("#results .row:not(.around)").click()
        self.wait(self.is_open)
        self.assertEqual(self.words()["commit"], self.made.git("rev-parse", "topic/x"))
        self.one("#revision").send_keys("y")
        self.wait(lambda: "there is no revision topic/xy" in self.one("#status").text)

    def test_a_review(self) -> None:
        self.one("#repositories label:nth-child(1)").click()
        self.type("topic/x", "#revision")
        self.type("main", "#before")
        self.type("x|more")
        self.wait(lambda: len(self.all("#results .row")) == 5)
        rows = [[part.text.strip() for part in row.find_elements("css selector", "span")] for row in self.all("#results .row")]
        self.assertEqual([row[:4] for row in rows], [
            ["", "1", "+", "int more;"], ["1", "1", "", "int call(int x)"], ["3", "", "-", "return x + 1;"],
            ["", "3", "+", "int more;"], ["", "4", "+", "return x + more;"],
        ])  # fmt: skip
        self.assertEqual(self.one("#status").text, "1 removed, 3 added, 1 left, in 2 files of the patch.")
        # each line opens on its side, with the matches that the review has found there
        def marks() -> list[str]:
            return [mark.text for mark in self.all("#file-lines mark")]

        for number, commit, wanted in (2, "main", ["x", "x"]), (3, "topic/x", ["x", "more", "x", "more"]):
            self.all("#results .row")[number].click()
            self.wait(lambda commit=commit: self.is_open() and self.words().get("commit") == self.made.git("rev-parse", commit))
            self.assertEqual((self.targets(), marks()), (["3"], wanted))
        self.browser.refresh()
        self.wait(lambda: len(self.all("#results .row")) == 5)
        self.wait(lambda: marks() == wanted)
        self.type("[", "#pattern")
        self.assertIn("bracket not closed", self.one("#fault").get_attribute("textContent"))

    def test_each_repository_has_its_share(self) -> None:
        self.type("many lines|int few")
        heads = [head.text.replace("\n", " ") for head in self.all("#results h2")]
        self.assertEqual(len(self.shown()), 100)
        self.assertEqual([head.split()[0] for head in heads], ["made", "other"])
        self.wait(lambda: "the first 100 of 2,001 lines" in self.one("#status").text)
        self.assertIn("50 of 1,000 lines", self.all("#results h2")[0].text)
        self.assertIn("50 of 1,001 lines", self.all("#results h2")[1].text)
        self.all("#results .only")[1].click()
        self.wait(lambda: "the first 100 of 1,001 lines" in self.one("#status").text)
        self.assertEqual(self.words()["repository"], "other")

    def test_one_that_gives_no_answer(self) -> None:
        """It is named beside the answer of the other. After the program has ended all are asked again."""
        self.one("#pattern").send_keys(f"int few|{SLOW}")
        self.wait(lambda: self.all("#results .missing") and [row[0] for row in self.shown()] == ["few.txt"])
        # the other does not wait for it, and it has its own time then
        said = "return [...document.querySelectorAll('#results .missing')].map(one => one.textContent)"
        self.wait(lambda: self.browser.execute_script(said) == ["made gives no answer: too slow after 6000 ms; try a narrower one."])
        self.assertIn("No answer from made.", self.one("#status").text)
        self.one("#pattern").clear()
        os.kill(self.server.programs()[0], signal.SIGKILL)
        self.one("#pattern").send_keys("int call|int few")
        self.wait(lambda: [row[0] for row in self.shown()] == ["src/util.c", "few.txt"])

    def test_an_address_that_somebody_made_up(self) -> None:
        """It leads to no page of the host that the server does not know."""
        commit = self.made.git("rev-parse", "main")
        for file, at in (
            ("x", "../../../evil/phish%3F"), ("x", "%23"), ("src/util.c", "HEAD"), ("src/util.c", commit + "/../../evil"), ("../../../evil/phish", commit),
            ("src/util.c/../../../../../evil", commit), ("src/util.c%3F", commit), ("x", ""),
        ):  # fmt: skip
            self.browser.get("about:blank")
            self.open(f"/?of=made&file={file}&commit={at}&lines=1")
            self.wait(lambda: self.all("#file-lines .note"))
            host = self.one("#file-host")
            self.assertEqual((host.is_displayed(), host.get_attribute("href")), (False, None), (file, at))
        # what it leads to is the file that is shown, in whatever way it is written
        for of, file, lines, line in ("made", "src%252Futil.c", "2-3", 2), ("made", "src/util.c", "/../../evil", 1), ("other", "few.txt", "1#x", 1):
            self.browser.get("about:blank")
            self.open(f"/?of={of}&file={file}&lines={urllib.parse.quote(lines)}")
            self.wait(self.is_open)
            path, tip = urllib.parse.unquote(urllib.parse.unquote(file)), self.made.git("rev-parse", "main") if of == "made" else self.other.git("rev-parse", "main")
            self.assertEqual(self.one("#file-host").get_attribute("href"), f"https://git.example/{of}/blob/{tip}/{path}#L{line}")

    def test_one_that_is_late(self) -> None:
        """It is asked by itself, and shown in its place."""
        self.browser.execute_script("""
            const ask = window.fetch;
            window.fetch = async (path, options) => {
              if (!String(path).startsWith("api/find") || String(path).includes("repository=")) return ask(path, options);
              const rows = (await (await ask(path, options)).text()).trim().split("\\n").map((row) => JSON.parse(row));
              const total = rows.pop(), own = rows.filter((row) => row.repository !== "made");
              const lines = own.reduce((sum, row) => sum + (row.hits ? row.hits.length : 0), 0);
              const answer = [{ repository: "made", fault: "too slow", alone: true }, ...own, { ...total, lines, missing: ["made"] }];
              return new Response(answer.map((row) => JSON.stringify(row) + "\\n").join(""));
            };
        """)
        self.addCleanup(self.browser.refresh)
        self.one("#pattern").send_keys("int call|int few")
        self.wait(lambda: [row[0] for row in self.shown()] == ["src/util.c", "few.txt"])
        self.wait(lambda: self.one("#status").text.startswith("2 lines in 2 files"))
        self.assertEqual(self.all("#results .missing"), [])
        self.assertNotIn("No answer", self.one("#status").text)
        self.all("#results .row")[0].click()
        self.wait(self.is_open)

    def test_letters_that_turn_others_around(self) -> None:
        self.type("turning")
        self.assertEqual(self.shown()[0][2], "turning U+202EgnihtonU+202C end")
        self.one("#results .row").click()
        self.wait(self.is_open)
        self.assertEqual([turned.text for turned in self.all("#file-lines .turning")], ["U+202E", "U+202C"])


if __name__ == "__main__":
    unittest.main()
