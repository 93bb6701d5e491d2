"""The page in a browser: typing, results, refusals, files, and hostile names and bodies."""

import os
import signal
import unittest

from browsing import Browsing, reason_to_skip
from helpers import SLOW
from serving import serving


@unittest.skipIf(reason_to_skip(), reason_to_skip())
class Page(Browsing):
    @classmethod
    def serve(cls):
        return cls.enterClassContext(serving("--search-ms", "6000", "--most-lines", "100", "--readers", "1"))

    def test_typing(self) -> None:
        """A search for each letter, of which the last one stands, however quickly they come."""
        for pause in 0, 0.03:
            self.open("/")
            self.type("int main", pause=pause)
            wanted = [("src/main.c", "1", "int main(void)"), ("src/main.c", "1", "int main(int count)")]
            self.assertEqual(self.shown(), wanted)
            self.assertEqual(self.marks(), ["int main"] * 2)
            self.assertIn("2 lines in 2 files", self.one("#status").text)
        self.one("#pattern").clear()
        self.type("call")
        self.assertEqual(len(self.shown()), 3)
        self.assertEqual(self.done(), "call")

    def test_options_and_filters(self) -> None:
        self.type("MAIN")
        self.assertEqual((self.shown(), self.one("#status").text), ([], "No line matches."))
        self.one("#ignore-case + span").click()
        self.wait(lambda: len(self.shown()) == 2)
        self.one("#repositories label:nth-child(2)").click()
        self.wait(lambda: len(self.shown()) == 1)
        self.assertEqual(self.one("#results .repository").text, "two")
        self.one("#repositories label:nth-child(2)").click()
        self.one("#pattern").clear()
        self.type("call")
        self.wait(lambda: len(self.shown()) == 3)
        self.one("#word + span").click()
        self.wait(lambda: len(self.shown()) == 2)
        self.type("util", "#name")
        self.wait(lambda: [row[0] for row in self.shown()] == ["src/util.c"])
        self.one("#name").clear()
        self.type("util", "#not")
        self.wait(lambda: [row[0] for row in self.shown()] == ["src/main.c"])
        self.one("#not").clear()
        self.one("#word + span").click()
        self.one("#pattern").clear()
        self.one("#literal + span").click()
        self.type("call(1)")
        self.wait(lambda: [row[2] for row in self.shown()] == ["    return call(1);"])
        # the address keeps it all
        address = self.browser.current_url
        self.browser.get(address)
        self.wait(lambda: [row[2] for row in self.shown()] == ["    return call(1);"])
        self.assertTrue(self.one("#literal").is_selected())

    def test_a_repository_that_is_not_there(self) -> None:
        """An address may name one. It is left out once something else is asked for."""
        self.open("/?q=int+main&repository=none")
        self.wait(lambda: self.one("#status").text == "The search is given up: there is no repository none.")
        self.open("/?q=int+main&repository=none&repository=one")
        self.wait(lambda: len(self.shown()) == 1)
        self.assertIn("No answer from none.", self.one("#status").text)
        self.one("#repositories label:nth-child(1)").click()
        self.wait(lambda: len(self.shown()) == 2)
        self.assertNotIn("none", self.one("#status").text + self.browser.current_url)

    def test_context(self) -> None:
        """One line around each hit, or as many as are chosen; gaps between what does not touch."""
        self.type("many lines 1?7$")

        def rows() -> list[list]:
            script = """return [...document.querySelectorAll('#results section > :not(h3)')].map(row =>
                row.className === 'gap' ? ['gap'] : [row.querySelector('.text').textContent, row.classList.contains('around')])"""
            return self.browser.execute_script(script)

        def wanted(around: int) -> list[list]:
            def lines(found: int) -> list[list]:
                return [[f"many lines {at}", at != found] for at in range(found - around, found + around + 1)]

            return [*lines(7), ["gap"], *lines(17)]

        self.assertEqual(rows(), wanted(1))
        self.one("#context option:nth-child(4)").click()
        self.wait(lambda: rows() == wanted(3))
        self.browser.get(self.browser.current_url)
        self.wait(lambda: rows() == wanted(3))
        self.one("#context option:nth-child(1)").click()
        self.wait(lambda: rows() == wanted(0))
        self.assertEqual(self.marks(), ["many lines 7", "many lines 17"])

    def test_a_refused_pattern(self) -> None:
        self.type("call(1")
        self.assertEqual(self.one("#fault").get_attribute("textContent"), "    ^ group not closed")
        self.assertEqual(self.shown(), [])
        self.type(")")
        self.wait(lambda: not self.one("#fault").is_displayed())
        self.assertEqual(self.one("#status").text, "No line matches.")
        self.one("#pattern").clear()
        self.type("é[z-a]")
        self.assertEqual(self.one("#fault").get_attribute("textContent"), "   ^ bad range")
        self.one("#pattern").clear()
        self.type("call")
        self.type("x[", "#name")
        self.wait(lambda: self.one("#fault").text == "in: bracket not closed at 1")

    def test_files(self) -> None:
        self.type("return x")
        self.one("#results .row:not(.around)").click()
        self.wait(lambda: self.one("#file").is_displayed() and self.all("#file-lines .row"))
        self.assertEqual([row.text for row in self.all("#file-lines .text")], ["int call(int x)", "{", "    return x + 1; // <b>caller</b>", "}"])
        self.assertEqual(self.one("#file-lines .target .number").text, "3")
        self.assertEqual(self.one("#file-lines mark").text, "return x")
        # as it was when it was found
        path = self.server.top / "one/src/util.c"
        before = path.read_bytes()
        path.write_bytes(b"changed\n")
        try:
            self.wait(lambda: self.server.hits("^changed$"))
            self.one("#close").click()
            self.assertFalse(self.one("#file").is_displayed())
            self.one("#results .row:not(.around)").click()
            self.wait(lambda: len(self.all("#file-lines .row")) == 4 and self.one("#file").is_displayed())
            self.assertEqual(self.one("#file-lines .text").text, "int call(int x)")
        finally:
            path.write_bytes(before)
            self.wait(lambda: not self.server.hits("^changed$"))

    def test_a_slow_search_does_not_hold_up_another_visitor(self) -> None:
        self.server.make_slow("two", 3)
        for _ in range(5):
            self.one("#pattern").send_keys(SLOW)
            self.wait(lambda: b"\ntsearch_open_searches 0\n" not in self.server.get("/metrics")[1])
            self.assertEqual(len(self.server.hits("int main", repository="one")), 1)
            # that one came first, unless this test had no processor for as long as the other one took
            if is_first := self.done() == "":
                break
            self.one("#pattern").clear()
        self.assertTrue(is_first)
        # nor the same one, who searches where it is not slow
        self.one("#repositories label:nth-child(1)").click()
        self.wait(lambda: self.done() == SLOW)
        self.assertEqual(self.one("#status").text, "No line matches.")

    def test_many_and_long_lines(self) -> None:
        self.type("many")
        self.assertEqual(len(self.shown()), 100)
        # all of them are counted once nothing is typed
        self.wait(lambda: "the first 100 of 2,000 lines in 1 file, in " in self.one("#status").text)
        self.one("#pattern").clear()
        self.type("needle")
        self.assertEqual(self.marks(), ["needle"])
        self.assertRegex(self.shown()[0][2], r"^ \[\.\.\. [\d,]+ bytes \.\.\.\] .{50,200}needle.{50,200} \[\.\.\. [\d,]+ bytes \.\.\.\] $")
        self.all("#results .row")[0].click()
        self.wait(lambda: self.all("#file-lines button"))
        self.assertEqual([mark.text for mark in self.all("#file-lines mark")], ["needle"])
        self.one("#file-lines button").click()
        self.wait(lambda: not self.all("#file-lines button"))
        self.assertGreater(len(self.one("#file-lines .text").text), 5_000)

    def test_hostile_names_and_bodies(self) -> None:
        self.type("hostile")
        texts = [row[2] for row in self.shown()]
        self.assertIn("<script>document.title = 'taken over'</script> hostile body", texts)
        self.assertIn("bytes \ufffd\ufffd hostile", texts)
        self.assertIn("<img src=x onerror=document.title='taken over'>.txt", {row[0] for row in self.shown()})
        for row in self.all("#results .row"):
            row.click()
            self.wait(lambda: "shown" in row.get_attribute("class") and self.one("#file").is_displayed())
        self.one("#pattern").clear()
        self.type("<img src=x onerror=\"document.title='taken over'\">")
        self.browser.get(self.server.address + "/?q=%3Cscript%3Edocument.title%3D%27taken%20over%27%3C/script%3E(&name=%3Cimg%20src=x%3E")
        self.wait(lambda: self.done())
        self.assertEqual(self.browser.title, "tsearch")
        self.assertEqual(self.all("#results img, #results script, #file script, #fault *"), [])
        told = [entry["message"] for entry in self.browser.get_log("browser")]
        self.assertEqual([message for message in told if "Content Security Policy" in message or "Uncaught" in message], [])

    def test_when_the_program_is_killed(self) -> None:
        """The page asks again until all is there."""
        os.kill(self.server.programs()[0], signal.SIGKILL)
        self.one("#pattern").send_keys("int main")
        self.wait(lambda: len(self.shown()) == 2)


if __name__ == "__main__":
    unittest.main()
