"""The page for operators: what it shows is run, with other paths and ports."""

import dataclasses
import importlib.util
import json
import os
import pathlib
import re
import shlex
import shutil
import signal
import socket
import subprocess
import sys
import tempfile
import tomllib
import unittest

from browsing import ARGUMENTS, CHROMIUM, DRIVER, reason_to_skip
from helpers import PACKAGE, SECONDS, TOP, until
from made import Made
from serving import free_port, serving_in

import tsearch

PAGE = TOP / "docs/HOST.md"
NAME = "search.example.org"
FILES = {b"src/a.c": b"int main;\n", b"src/secret/key.c": b"int key;\n"}


def blocks(kind: str) -> list[str]:
    """The blocks of the page of a kind."""
    return re.findall(rf"^```{kind}\n(.*?)^```$", PAGE.read_text(encoding="utf-8"), re.MULTILINE | re.DOTALL)


@unittest.skipUnless(PAGE.exists() and importlib.util.find_spec("aiohttp") and shutil.which("git"), "the page, aiohttp or git is missing")
def has_venv() -> bool:
    """Whether the system's Python makes environments: on Debian that is a package of its own."""
    try:
        return subprocess.run(["/usr/bin/python3", "-c", "import ensurepip"], capture_output=True, check=False).returncode == 0
    except FileNotFoundError:
        return False


class Operators(unittest.TestCase):
    def setUp(self) -> None:
        self.top = pathlib.Path(self.enterContext(tempfile.TemporaryDirectory()))
        (self.top / "git").mkdir()
        self.made = Made(self.top / "git/one.git")
        self.made.commit("main", FILES)
        self.made.commit("release/1", {b"src/a.c": b"int release;\n"}, start="main")
        Made(self.top / "git/two.git").commit("main", {b"b.c": b"int other;\n"})

    def here(self, text: str, port: int = 0) -> str:
        """A block with the paths and the ports of this test."""
        for path, own in ("/srv/git", "git"), ("/etc/tsearch", ""), ("/var/log/tsearch", ""), ("/etc/ssl", ""), ("/opt/tsearch", "venv"):
            text = text.replace(path, str(self.top / own).rstrip("/"))
        return text.replace("127.0.0.1:8080", f"127.0.0.1:{port}") if port else text

    def serve(self, *more: str):
        """A server with the words of the unit and the settings of the page."""
        (self.top / "host.toml").write_text(self.here(blocks("toml")[0]))
        words = shlex.split(self.here(re.search(r"^ExecStart=(.*)$", blocks("ini")[0], re.MULTILINE)[1]))
        self.assertEqual(words[0], f"{self.top}/venv/bin/tsearch-web")
        return self.enterContext(serving_in(self.top, *words[1:], *more, count=2))

    def curl(self, *words: str) -> tuple[int, str]:
        """The status and the body of an answer."""
        done = subprocess.run(["curl", "-s", "-w", "\n%{http_code}", *words], capture_output=True, timeout=SECONDS, check=False, text=True)
        body, _, status = done.stdout.rpartition("\n")
        return int(status), body

    def shell(self, block: str, port: int) -> str:
        done = subprocess.run(["sh", "-e", "-c", self.here(block, port)], capture_output=True, timeout=SECONDS, check=False, text=True)
        self.assertEqual((done.returncode, done.stderr), (0, ""), block)
        return done.stdout

    @unittest.skipUnless(shutil.which("curl"), "the command curl is missing")
    def test_settings_hook_and_watching(self) -> None:
        server = self.serve("--look", "1000")
        port = int(server.address.rpartition(":")[2])
        _, hook, _, watching = blocks("sh")
        self.assertEqual([row[:2] for row in server.hits("int")], [("one", "src/a.c"), ("one", "src/secret/key.c"), ("second", "b.c")])
        self.assertEqual(len(server.hits("int release", revision="release/1", repository="one")), 1)
        self.shell(hook, port)
        self.made.git("clone", "-q", str(self.made.path), str(self.top / "clone"))
        clone = Made(self.top / "clone", is_bare=False)
        clone.commit("main", {b"pushed.c": b"int pushed;\n"})
        clone.git("push", "-q", "origin", "main")
        until(lambda: len(server.hits("int pushed")) == 1)
        shown = self.shell(watching, port)
        self.assertIn('"ok": true', shown)
        self.assertIn('"repository": "second"', shown)
        for name in re.findall(r"`(tsearch_[a-z_]+)`", PAGE.read_text(encoding="utf-8")):
            if "workers" not in name:
                self.assertIn(name, shown)
        # the signal of ExecReload
        reload = re.search(r"^ExecReload=(.*)$", blocks("ini")[0], re.MULTILINE)[1].replace("$MAINPID", str(server.pid))
        (self.top / "host.toml").write_text(self.here(blocks("toml")[0]).split("\n\n")[0])
        subprocess.run(shlex.split(reload), check=True)
        until(lambda: [row[0] for row in server.hits("int main|int other")] == ["one"])
        rows = [json.loads(line) for line in (self.top / "requests.jsonl").read_text().splitlines()]
        self.assertLessEqual({"time", "address", "method", "path", "status", "bytes", "seconds"}, rows[0].keys())

    @unittest.skipUnless(shutil.which("curl"), "the command curl is missing")
    def test_a_push_does_not_wait_for_the_hook(self) -> None:
        """Though the page takes the connection and never answers."""
        silent = self.enterContext(socket.create_server(("127.0.0.1", 0)))
        self.shell(blocks("sh")[1], silent.getsockname()[1])
        self.made.git("clone", "-q", str(self.made.path), str(self.top / "clone"))
        clone = Made(self.top / "clone", is_bare=False)
        clone.commit("main", {b"pushed.c": b"int pushed;\n"})
        push = subprocess.Popen(["git", "-C", str(clone.path), "push", "-q", "origin", "main"], stdout=subprocess.PIPE, stderr=subprocess.STDOUT)
        silent.settimeout(SECONDS)
        asking = self.enterContext(silent.accept()[0])
        asked = b""
        while b"\r\n\r\n" not in asked:
            asked += asking.recv(1 << 16)
        self.assertTrue(asked.startswith(b"POST /api/look "), asked)
        try:
            self.assertEqual(push.communicate(timeout=SECONDS / 3)[0], b"")
        finally:
            push.kill()
            push.wait()
        self.assertEqual(push.returncode, 0)
        # and nothing is left of the hook, though nobody has answered
        self.assertEqual(asking.recv(1), b"")

    @unittest.skipUnless(has_venv(), "/usr/bin/python3 or its venv is missing")
    def test_the_installation(self) -> None:
        """Without a network, and without the users of the machine."""
        block = re.sub(r"^useradd .*\n", "", blocks("sh")[0], flags=re.MULTILINE)
        environment = {**os.environ, "PIP_INDEX_URL": "http://127.0.0.1:9/", "PIP_DISABLE_PIP_VERSION_CHECK": "1"}
        done = subprocess.run(["sh", "-e", "-c", self.here(block)], cwd=TOP, env=environment, capture_output=True, timeout=2 * SECONDS, check=False, text=True)
        self.assertEqual(done.returncode, 0, done.stderr)
        command = self.here(re.search(r"^ExecStart=(\S+)", blocks("ini")[0], re.MULTILINE)[1])
        environment.pop("PYTHONPATH", None)
        done = subprocess.run([command, "--help"], cwd="/", env=environment, capture_output=True, timeout=SECONDS, check=False, text=True)
        self.assertIn("--settings FILE", done.stdout + done.stderr)

    @unittest.skipUnless(shutil.which("systemd-analyze"), "the command systemd-analyze is missing")
    def test_the_unit(self) -> None:
        unit = self.top / "tsearch.service"
        (self.top / "venv/bin").mkdir(parents=True)
        (self.top / "venv/bin/tsearch-web").symlink_to("/bin/true")
        unit.write_text(self.here(blocks("ini")[0]))
        done = subprocess.run(["systemd-analyze", "verify", "--man=no", str(unit)], capture_output=True, timeout=SECONDS, check=False, text=True)
        faults = [line for line in done.stderr.splitlines() if str(unit) in line or "tsearch.service" in line]
        self.assertEqual(faults, [])
        for setting in "LimitNOFILE", "MemoryMax", "TasksMax":
            self.assertRegex(blocks("ini")[0], rf"(?m)^{setting}=\d+%?$")

    def certificate(self) -> None:
        subprocess.run(
            ["openssl", "req", "-x509", "-newkey", "rsa:2048", "-nodes", "-days", "2", "-subj", f"/CN={NAME}", "-addext", f"subjectAltName=DNS:{NAME}",
             "-keyout", str(self.top / "search.key"), "-out", str(self.top / "search.pem")], capture_output=True, check=True,
        )  # fmt: skip

    def start(self, *words: str) -> None:
        """A proxy, until the end of the test."""
        process = subprocess.Popen(words, stdout=subprocess.DEVNULL, stderr=subprocess.DEVNULL, env={"PATH": "/usr/sbin:/usr/bin", "HOME": str(self.top)})

        def end() -> None:
            process.send_signal(signal.SIGTERM)
            process.wait(SECONDS)

        self.addCleanup(end)

    def nginx(self, page: int) -> int:
        """The port of nginx, with the block of the page."""
        self.certificate()
        port = self.enterContext(free_port())
        block = self.here(blocks("nginx")[0], page).replace("listen 443 ssl", f"listen 127.0.0.1:{port} ssl")
        temporary = "".join(f"{one}_temp_path {self.top}/{one};\n" for one in ("client_body", "proxy", "fastcgi", "uwsgi", "scgi"))
        (self.top / "nginx.conf").write_text(
            f"daemon off;\npid {self.top}/nginx.pid;\nerror_log {self.top}/error.log;\nevents {{}}\nhttp {{\naccess_log off;\n{temporary}{block}}}\n"
        )
        self.start("/usr/sbin/nginx", "-p", str(self.top), "-e", f"{self.top}/error.log", "-c", f"{self.top}/nginx.conf")
        return port

    def check_proxy(self, ask, server) -> None:
        """The page is below a path, what is for operators is not there, and who asks is known."""
        until(lambda: ask("/search/")[0] == 200)
        self.assertIn('src="page.js"', ask("/search/")[1])
        self.assertEqual([ask(f"/search/{path}")[0] for path in ("page.js", "page.css", "api/status")], [200, 200, 200])
        self.assertEqual([ask(f"/search/{path}")[0] for path in ("metrics", "health", "api/look")], [404, 404, 404])
        status, body = ask("/search/api/find?q=int%20main", "-H", "X-Forwarded-For: 198.51.100.9")
        self.assertEqual((status, body.count('"hits"')), (200, 1))
        until(lambda: '"path": "/api/find"' in (self.top / "requests.jsonl").read_text())

    @unittest.skipUnless(all(map(shutil.which, ("nginx", "openssl", "curl"))), "nginx, openssl or curl is missing")
    def test_nginx(self) -> None:
        server = self.serve("--look", "1000")
        port = self.nginx(int(server.address.rpartition(":")[2]))

        def ask(path: str, *more: str) -> tuple[int, str]:
            address = f"https://{NAME}:{port}{path}"
            return self.curl("--resolve", f"{NAME}:{port}:127.0.0.1", "--cacert", str(self.top / "search.pem"), *more, address)

        self.check_proxy(ask, server)
        rows = [json.loads(line) for line in (self.top / "requests.jsonl").read_text().splitlines()]
        self.assertIn(("198.51.100.9", "/api/find"), [(row["address"], row["path"]) for row in rows])
        if not reason_to_skip():
            self.check_browser(port)

    def check_browser(self, port: int) -> None:
        """The page works below a path."""
        from selenium import webdriver
        from selenium.webdriver.chrome.service import Service
        from selenium.webdriver.support.ui import WebDriverWait

        options = webdriver.ChromeOptions()
        options.binary_location = CHROMIUM
        rules = f"--host-resolver-rules=MAP {NAME} 127.0.0.1, MAP * ~NOTFOUND, EXCLUDE 127.0.0.1"
        for argument in [*ARGUMENTS[:-1], rules, "--ignore-certificate-errors", f"--user-data-dir={self.top}/browser"]:
            options.add_argument(argument)
        browser = webdriver.Chrome(service=Service(DRIVER), options=options)
        self.addCleanup(browser.quit)
        browser.get(f"https://{NAME}:{port}/search/?q=int+main")
        find = lambda selector: browser.find_elements("css selector", selector)  # noqa: E731
        WebDriverWait(browser, SECONDS, 0.05).until(lambda _: find("#results a.row"))
        find("#results a.row")[0].click()
        WebDriverWait(browser, SECONDS, 0.05).until(lambda _: find("#file-lines .row"))
        self.assertTrue(browser.current_url.startswith(f"https://{NAME}:{port}/search/?q=int+main"), browser.current_url)
        commit = self.made.git("rev-parse", "main")
        self.assertEqual(find("#file-host")[0].get_attribute("href"), f"https://git.example.org/one/blob/{commit}/src/a.c#L1")
        browser.refresh()
        WebDriverWait(browser, SECONDS, 0.05).until(lambda _: find("#file-lines .target"))

    @unittest.skipUnless(all(map(shutil.which, ("nginx", "openssl", "curl"))), "nginx, openssl or curl is missing")
    def test_filters_behind_nginx(self) -> None:
        """One that a visitor sends is dropped."""
        server = self.serve("--look", "1000", "--filter-header", "X-Filters")
        header = json.loads(blocks("json")[0])
        words = ("-H", "X-Filters: " + json.dumps(header))
        status, body = self.curl(*words, server.address + "/api/find?q=int")
        self.assertEqual((status, [json.loads(line)["name"] for line in body.splitlines() if '"hits"' in line]), (200, ["src/a.c", "b.c"]))
        port = self.nginx(int(server.address.rpartition(":")[2]))
        resolved = ("--resolve", f"{NAME}:{port}:127.0.0.1", "--cacert", str(self.top / "search.pem"))
        address = f"https://{NAME}:{port}/search/api/find?q=int"
        until(lambda: self.curl(*resolved, address)[0] == 200)
        self.assertEqual(json.loads(self.curl(*resolved, *words, address)[1])["lines"], 0)

    @unittest.skipUnless(all(map(shutil.which, ("caddy", "curl"))), "caddy or curl is missing")
    def test_caddy(self) -> None:
        server = self.serve("--look", "1000")
        port, page = self.enterContext(free_port()), int(server.address.rpartition(":")[2])
        block = self.here(blocks("caddy")[0], page).replace(f"{NAME} {{", f"http://{NAME}:{port} {{", 1)
        (self.top / "Caddyfile").write_text("{\n\tadmin off\n\tauto_https off\n}\n" + block)
        self.start("/usr/bin/caddy", "run", "--adapter", "caddyfile", "--config", str(self.top / "Caddyfile"))

        def ask(path: str, *more: str) -> tuple[int, str]:
            return self.curl("--resolve", f"{NAME}:{port}:127.0.0.1", *more, f"http://{NAME}:{port}{path}")

        self.check_proxy(ask, server)


@unittest.skipUnless(importlib.util.find_spec("aiohttp"), "the library aiohttp is missing (python3-aiohttp)")
class Options(unittest.TestCase):
    def test_words_that_it_cannot_take(self) -> None:
        """Each is named in one line, with what it may be."""
        with tempfile.TemporaryDirectory() as name:
            for words, said in {
                ("--readers", "17", name): "argument --readers: 17 is no number from 0 to 16",
                ("--port", "x", name): "argument --port: x is no number from 1 to 65535",
                ("--look", "often", name): "argument --look: often is no number of seconds",
                ("--proxy", "nginx", name): "argument --proxy: nginx is no address, and no network",
                ("--settings", f"{name}/none.toml"): f"{name}/none.toml: No such file or directory",
                ("--revisions", "main", name): f"{name} is not a git repository",
                (f"{name}/none",): f"{name}/none is not a folder",
                (): "give repositories, or --settings with a file that names them",
            }.items():
                with self.subTest(words=words):
                    done = subprocess.run([sys.executable, "-B", "-m", "tsearch.web", *words], cwd=PACKAGE, capture_output=True, text=True, timeout=SECONDS, check=False)
                    self.assertEqual(done.returncode, 2)
                    self.assertTrue(done.stderr.endswith(f"{said}\n"), done.stderr)
                    self.assertNotIn("Traceback", done.stderr)


class Package(unittest.TestCase):
    def test_the_numbers_of_visitors(self) -> None:
        """Those that the page names are the usual ones, and each can be set."""
        try:
            from tsearch.web.turns import Networks, networks_of
        except ImportError:
            self.skipTest("the library aiohttp is missing")
        told = tomllib.loads(next(block for block in blocks("toml") if "[visitors]" in block))
        self.assertEqual(told["visitors"], dataclasses.asdict(Networks()))
        self.assertEqual(networks_of({"visitors": {"ipv4": 24}}, Networks(ipv6=48), "x"), Networks(ipv4=24, ipv6=48))
        for row, said in (
            ({"ipv4": 33}, "x: ipv4 of [visitors] is a number from 8 to 32"), ({"ipv6": "64"}, "x: ipv6 of [visitors] is a number from 16 to 128"),
            ({"at_work": True}, "x: at_work of [visitors] is a number from 1 to 512"),
            ({"more": 1}, "x: the keys of [visitors] are ipv4, ipv6, at_work, waiting, all_waiting, connections"), (1, "x: the keys of [visitors] are ipv4, ipv6, at_work, waiting, all_waiting, connections"),
        ):  # fmt: skip
            with self.assertRaises(tsearch.Error) as raised:
                networks_of({"visitors": row}, Networks(), "x")
            self.assertEqual(str(raised.exception), said)

    def test_options_of_the_page(self) -> None:
        """Each that the page names is there."""
        done = subprocess.run([sys.executable, "-B", "-m", "tsearch.web", "--help"], cwd=PACKAGE, capture_output=True, text=True, timeout=SECONDS, check=False)
        if done.returncode or not PAGE.exists():
            self.skipTest("the page or the library aiohttp is missing")
        section = PAGE.read_text(encoding="utf-8")
        for option in set(re.findall(r"`(--[a-z][a-z-]*)", section)):
            self.assertIn(option, done.stdout)


if __name__ == "__main__":
    unittest.main()
