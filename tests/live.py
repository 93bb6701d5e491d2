#!/usr/bin/env python3
"""Talks to sessions of the built program (--live) as clients do, and checks what they write, and when.

A client here waits for each answer before it sends what follows. If an answer waited for a byte after its item, it
would never come, and the test would fail at its limit of time. The texts that must come are written by hand, or are
what a run writes for the same script, which tests/run.py and tests/judge/random_use.py check. Each test of WITH_EACH
is made with each number of readers of READERS, and as many tests at once as there are processors. The clients of
tests/sessions/ do not wait for each answer.

Usage: tests/live.py [NAME..]   The last line counts: N passed, M failed.
"""

import collections
import concurrent.futures
import fcntl
import functools
import os
import pathlib
import select
import struct
import subprocess
import sys
import tempfile
import termios
import threading
import time

from built import PROGRAM, TOP, put
from counted import Wrong, faults_of_call, run_tests
from judge import transcripts

CLIENT = TOP / "examples/live_folder.py"
EXAMPLES = sorted((TOP / "examples").glob("*.script"))
READERS = ["2", "0"]
# How long anything may take, also where other work has the processors. Nothing that goes well takes longer for it.
SECONDS = 180
# How many seconds a test waits before it concludes that nothing comes.
QUIET = 0.05
REPLACEMENTS = 20_000
MEBIBYTE = 1_048_576
# In bytes, without the line feed.
GREATEST_LINE = 67_108_864

# Items, each with the text that it causes.
TALK = [
    (b"put a.txt 11\nhello world\n", b""),
    (b"search o w\n", b"search 1 version 0 lines 0\n"),
    (b"publish\n", b""),
    (b"search o w\n", b"search 2 version 1 lines 1\na.txt:1:hello world\n"),
    (b"remove b.txt\n", b"line 6 refused: no such file\n"),
    (b"search (\n", b"search 3 refused: group not closed at 0\n"),
    (b"# a comment\n", b""),
    (b"\n", b""),
    (b"what\n", b"line 10 refused: bad line\n"),
    (b"put b.txt 3\nx\0y\n", b"line 11 refused: byte 0 in body\n"),
    (b"put b:1.txt 6\nx\ny\n:z\n", b""),
    (b"sync\n", b""),
    (b"publish\n", b""),
    (b"searchin ^b ^[^y]\n", b"search 4 version 2 lines 2\nb:1.txt:1:x\nb:1.txt:3::z\n"),
    (b"load c nothing/here\n", b"line 20 refused: cannot load\n"),
    (b"put c 0\n\n", b""),
    (b"remove a.txt\n", b""),
    (b"publish\n", b""),
    (b"search .\n", b"search 5 version 4 lines 3\nb:1.txt:1:x\nb:1.txt:2:y\nb:1.txt:3::z\n"),
    (b"searchin a (\n", b"search 6 refused: group not closed at 0\n"),
    (b"search\n", b"search 7 version 4 lines 3\nb:1.txt:1:x\nb:1.txt:2:y\nb:1.txt:3::z\n"),
    (b"cancel 7\n", b""),
    (b"cancel 8\n", b"line 29 refused: no such search\n"),
    (b"status\n", b"line 30 status version 4 documents 2 bytes 6 accepted 4 of 1000000 open 0\n"),
]
TALK_SCRIPT = b"".join(item for item, _ in TALK)


class Session:
    """A session of the program, whose output is read with a limit of time. It ends with the block that uses it."""

    def __init__(self, *words, program=None, output=subprocess.PIPE):
        pipe = subprocess.PIPE
        command = program or [str(PROGRAM), "--live"]
        self.process = subprocess.Popen([*command, *words], cwd=TOP, stdin=pipe, stdout=output, stderr=pipe, bufsize=0)
        self.pid = self.process.pid
        self.input, self.output = self.process.stdin.fileno(), self.process.stdout and self.process.stdout.fileno()
        os.set_blocking(self.input, False)
        self.lines, self.begun = collections.deque(), b""

    def __enter__(self):
        return self

    def __exit__(self, *_):
        self.process.kill()
        self.process.wait()
        for stream in (self.process.stdin, self.process.stdout, self.process.stderr):
            if stream:
                stream.close()

    def send(self, data):
        data = memoryview(data)
        while data:
            if not select.select([], [self.input], [], SECONDS)[1]:
                raise Wrong(f"no input was taken in {SECONDS} seconds")
            data = data[os.write(self.input, data) :]

    def send_byte(self, byte):
        """Sends a byte once the session has taken all that was sent before it."""
        self.send(byte)
        end = time.monotonic() + SECONDS
        while struct.unpack("i", fcntl.ioctl(self.input, termios.FIONREAD, b"\0" * 4))[0] and self.process.poll() is None:
            if time.monotonic() > end:
                raise Wrong(f"a byte was not taken in {SECONDS} seconds")

    def read(self, most=65_536):
        if not select.select([self.output], [], [], SECONDS)[0]:
            raise Wrong(f"nothing was written in {SECONDS} seconds")
        return os.read(self.output, most)

    def read_line(self):
        while not self.lines:
            text = self.read()
            if not text:
                raise Wrong(f"the output ended: {self.process.stderr.read()!r}")
            *whole, self.begun = (self.begun + text).split(b"\n")
            self.lines.extend(line + b"\n" for line in whole)
        return self.lines.popleft()

    def read_entry(self):
        """One whole entry: a refusal, or an answer with its lines."""
        first = self.read_line()
        words = first.split()
        lines = int(words[5]) if words[2] == b"version" else 0
        return first + b"".join(self.read_line() for _ in range(lines))

    def expect(self, wanted):
        """Reads as many lines as a text has. They must be the text."""
        same("the text", b"".join(self.read_line() for _ in range(wanted.count(b"\n"))), wanted)

    def expect_quiet(self):
        if self.lines or self.begun or select.select([self.output], [], [], QUIET)[0]:
            raise Wrong("text was written too early")

    def ask(self, item, wanted):
        self.send(item)
        self.expect(wanted)

    def end(self, status, messages=b"", close=True):
        """Closes the input, and compares what is left of the output, the messages and the status."""
        if close:
            self.process.stdin.close()
        try:
            got = self.process.wait(SECONDS)
        except subprocess.TimeoutExpired:
            raise Wrong(f"did not end in {SECONDS} seconds") from None
        left, output = b"".join(self.lines) + self.begun, self.process.stdout
        same("what is left of the output", left + output.read() if output and not output.closed else left, b"")
        same("standard error", self.process.stderr.read(), messages)
        same("the status", got, status)

    def memory(self, name):
        """The process's memory in bytes, as the system reports it: VmRSS is what it has, VmHWM the most it ever had."""
        words = pathlib.Path(f"/proc/{self.pid}/status").read_text().split(f"{name}:")[1].split()
        return int(words[0]) * 1024


def same(what, got, wanted):
    if got != wanted:
        raise Wrong(f"{what}: {str(got)[:2000]}, and should be {str(wanted)[:2000]}")


def run(words, script):
    done = subprocess.run([str(PROGRAM), *words], cwd=TOP, input=script, capture_output=True, check=False, timeout=SECONDS)
    return done.returncode, done.stdout, done.stderr


def client_that_waits_for_each_answer(start):
    with start() as session:
        for item, wanted in TALK:
            session.ask(item, wanted)
        session.end(2)
    with start("--stats") as session:
        session.ask(b"put a 3\nabc\npublish\nsearch b\n", b"search 1 version 1 lines 1 candidates 1 of 1\na:1:abc\n")
        session.ask(b"search abd\n", b"search 2 version 1 lines 0 candidates 0 of 1\n")
        session.end(0)
    with start("--max-commands", "1") as session:
        session.ask(b"put a 1\nx\nput b 1\nx\n", b"line 3 refused: full\n")
        session.end(2)
    with start() as session:
        session.ask(b"search x\n", b"search 1 version 0 lines 0\n")
        session.end(1)


def nothing_comes_before_an_item_is_whole(start):
    with start() as session:
        for begin, end, wanted in [
            (b"search x", b"\n", b"search 1 version 0 lines 0\n"),
            (b"put a 3\nx\0y", b"\n", b"line 2 refused: byte 0 in body\n"),
            (b"put a 7\nbox\n", b"boy\n", b""),
            (b"publish\nsearch bo[xy", b"]\n", b"search 2 version 1 lines 2\na:1:box\na:2:boy\n"),
        ]:
            session.send(begin)
            session.expect_quiet()
            session.ask(end, wanted)
        session.end(2)


def bytes_one_by_one(start):
    with start() as session:
        for item, wanted in TALK:
            for byte in item:
                session.send_byte(bytes([byte]))
            session.expect(wanted)
        body = b"".join(b"line %d\n" % number for number in range(300))
        for byte in b"put d %d\n%s\npublish\n" % (len(body), body):
            session.send_byte(bytes([byte]))
        session.ask(b"search ^line 2?7$\n", b"search 8 version 5 lines 2\nd:8:line 7\nd:28:line 27\n")
        session.end(2)


def faults_end_a_session_whose_input_is_open(start):
    for begin, last, wanted in [
        (b"put a 1", b"\n", None),
        (b"put", b"\n", b"line 2 refused: bad put\n"),
        (b"put a", b"\n", b"line 2 refused: bad put\n"),
        (b"put a 3\nabc", b"d", b"line 2 refused: body not closed\n"),
    ]:
        with start() as session:
            session.send(b"\n" + begin)
            session.expect_quiet()
            session.send(last)
            if wanted is None:
                session.expect_quiet()
                session.process.stdin.close()
                session.expect(b"line 2 refused: truncated\n")
                session.end(2)
            else:
                session.expect(wanted)
                session.end(2, close=False)


def check_cut(script, cut):
    """A session without readers over the beginning of a script must write what a run of it writes, and that must be legal. So must
    what a session with readers writes."""
    begin = script[:cut]
    alone = run(["--live", "--readers", "0"], begin)
    same(f"status and text, cut at {cut}", alone, run(["--readers", "0"], begin))
    for readers, (status, text, messages) in (0, alone), (2, run(["--live"], begin)):
        same(f"messages, cut at {cut}", messages, b"")
        fault = transcripts.fault_of(begin, text, status, session=True, readers=readers, files=transcripts.Files())
        if fault:
            raise Wrong(f"cut at {cut}, with {readers} readers: {fault}")


def input_cut_at_every_byte():
    scripts = [path.read_bytes() for path in EXAMPLES] + [TALK_SCRIPT]
    with concurrent.futures.ThreadPoolExecutor(os.cpu_count()) as pool:
        jobs = [pool.submit(check_cut, script, cut) for script in scripts for cut in range(len(script) + 1)]
        for job in jobs:
            job.result()


def replacements_leave_memory_level(start):
    with start() as session:
        filler = b"".join(b"of no use %d\n" % number for number in range(300))
        for number in range(1, REPLACEMENTS + 1):
            body = filler + b"text %d\n" % number
            session.ask(
                b"put f %d\n%s\npublish\nsearch ^text %d$\n" % (len(body), body, number),
                b"search %d version %d lines 1\nf:301:text %d\n" % (number, number, number),
            )
            if number == REPLACEMENTS // 10:
                early = session.memory("VmRSS")
        late = session.memory("VmRSS")
        if late - early > 2 * MEBIBYTE:
            raise Wrong(f"{early} bytes after {REPLACEMENTS // 10} replacements, and {late} after {REPLACEMENTS}")
        session.end(0)


def client_that_reads_slowly(start):
    lines = [b"%015d\n" % number for number in range(MEBIBYTE // 16)]
    wanted = b"search 1 version 1 lines %d\n" % len(lines) + b"".join(b"big:%d:%s" % pair for pair in enumerate(lines, 1))
    with start() as session:
        session.send(b"put big %d\n%s\npublish\nsearch .\n" % (MEBIBYTE, b"".join(lines)))
        time.sleep(0.3)
        text = b""
        while len(text) < len(wanted):
            more = session.read(2_000)
            if not more:
                raise Wrong(f"the output ended after {len(text)} bytes of {len(wanted)}")
            text += more
            if len(text) % 7 == 0:
                time.sleep(0.01)
        same("the slow answer", text, wanted)
        session.ask(b"search ^0*5$\n", b"search 2 version 1 lines 1\nbig:6:000000000000005\n")
        session.end(0)


def large_answer_leaves_memory_level(start):
    """The text of an answer of 20 MB is freed once it is written."""
    lines = b"\n" * MEBIBYTE
    with start() as session:
        session.send(b"put a %d\n%s\nput b %d\n%s\npublish\n" % (MEBIBYTE, lines, MEBIBYTE, lines))
        session.ask(b"search x\n", b"search 1 version 2 lines 0\n")
        early = session.memory("VmRSS")
        session.send(b"search ^\n")
        session.expect(b"search 2 version 2 lines %d\n" % (2 * MEBIBYTE))
        for name in b"a", b"b":
            session.expect(b"".join(b"%s:%d:\n" % (name, line) for line in range(1, MEBIBYTE + 1)))
        session.ask(b"search x\n", b"search 3 version 2 lines 0\n")
        late = session.memory("VmRSS")
        if late - early > 8 * MEBIBYTE:
            raise Wrong(f"{early} bytes before the answer, and {late} after the next item")
        session.end(0)


def slow_client_of_a_large_answer(start):
    """The text of an answer is formed as it is written: 21 MB of it, of 100,000 short lines with a long name, take a MiB or two at a
    time, and a MiB and a half for the places, also if the client reads slowly."""
    name, count = b"n" * 200, 100_000
    with start() as session:
        session.send(b"put %s %d\n%s\npublish\n" % (name, 2 * count, b"x\n" * count))
        session.ask(b"search y\n", b"search 1 version 1 lines 0\n")
        early = session.memory("VmHWM")
        session.send(b"search x\n")
        wanted = b"search 2 version 1 lines %d\n" % count + b"".join(b"%s:%d:x\n" % (name, line) for line in range(1, count + 1))
        text = b""
        for pause in [0.05] * 10 + [0] * len(wanted):
            time.sleep(pause)
            text += session.read()
            if len(text) >= len(wanted):
                break
        same("the large answer", text, wanted)
        session.ask(b"search y\n", b"search 3 version 1 lines 0\n")
        most = session.memory("VmHWM")
        if most - early > 8 * MEBIBYTE:
            raise Wrong(f"{early} bytes at most before the answer, and {most} after it")
        session.end(0)


def client_that_goes_away(start):
    with start() as session:
        session.send(b"put a 1\nx\npublish\n")
        session.process.stdout.close()
        session.send(b"search x\n")
        # the input is still open
        session.end(2, close=False)
    with start() as session:
        body = b"x\n" * 100_000
        session.send(b"put a %d\n%s\npublish\nsearch x\n" % (len(body), body))
        session.read(1_000)
        session.process.stdout.close()
        session.end(2, close=False)
    with start() as session:
        session.process.stdout.close()
        session.send(b"what\n")
        session.end(2, close=False)


def session_from_a_fifo(start):
    with tempfile.TemporaryDirectory() as folder:
        path = os.path.join(folder, "fifo")
        os.mkfifo(path)
        with start(path) as session:
            # Opening a FIFO for writing alone waits until something reads it. So this opens it for reading too.
            fifo = os.open(path, os.O_RDWR)
            session.process.stdin.close()
            try:
                for item, wanted in TALK:
                    os.write(fifo, item)
                    session.expect(wanted)
            finally:
                os.close(fifo)
            session.end(2)


def options_of_a_session():
    for words, begin in [
        (["--readers", "17"], b"error: invalid value '17' for '--readers <N>'"),
        (["--readers"], b"error: a value is required for '--readers <N>'"),
        (["--search-ms", "0"], b"error: invalid value '0' for '--search-ms <N>'"),
    ]:
        with Session(*words) as session:
            # nothing is sent: it ends without reading, and a write could find the pipe closed
            same("the status", session.process.wait(SECONDS), 2)
            same("the output", session.process.stdout.read(), b"")
            same("the message", session.process.stderr.read()[: len(begin)], begin)
    # a session with readers has a thread for each, one that starts more, one that reads, and the first; and soon a few more, so that
    # one is without a search
    for words, least in ([], 5), (["--readers", "0"], 1), (["--readers", "1"], 4), (["--readers", "2"], 5), (["--readers", "16"], 19):
        with Session(*words) as session:
            session.ask(b"search x\n", b"search 1 version 0 lines 0\n")
            expect_threads(session, range(least, least + (1 if least == 1 else 5)), f"with {words}")
            session.end(1)
        with Session(*words, "nothing/here") as session:
            session.end(2, b"tsearch: cannot read the script: nothing/here: No such file or directory\n")
        with Session(*words, ".") as session:
            session.end(2, b"tsearch: cannot read the script: .: Is a directory\n")


def expect_threads(session, wanted, how):
    """Waits until it has so many. Those that were started and have no search to wait for soon end."""
    end = time.monotonic() + SECONDS
    while (threads := len(list(pathlib.Path(f"/proc/{session.pid}/task").iterdir()))) not in wanted:
        if time.monotonic() > end:
            raise Wrong(f"{how} there are {threads} threads")
        time.sleep(QUIET)


def threads_that_cannot_be_started():
    """A session with readers has a thread for each, one that starts more, and one that reads. Where the system has no room for the
    stacks of all of them, fewer answer or none, and a client that waits for each answer sees no difference."""
    limited = ["bash", "-c", 'ulimit -s 100000 && ulimit -v "$0" && exec "$@"']
    for room, readers, wanted in [
        (10_000_000, 2, [5, 6, 7, 8, 9]),
        (350_000, 1, [1, 2, 3, 4]),
        (350_000, 2, [1, 2, 3, 4]),
        (250_000, 2, [1, 2, 3]),
        (150_000, 2, [1, 2]),
        (60_000, 2, [1]),
        (60_000, 0, [1]),
    ]:
        program = [*limited, str(room), str(PROGRAM), "--live", "--readers", str(readers)]
        with Session(program=program) as session:
            for item, text in TALK:
                session.ask(item, text)
            expect_threads(session, wanted, f"with {room} KB and {readers} readers")
            session.end(2)


def commands_behind_a_publish_are_not_shown(start):
    """A put that comes while the publish before it is at work is accepted, and stays so however long nothing else comes."""
    text = b"".join(b"line %d of a document\n" % number for number in range(20_000))
    with start() as session:
        for number in range(1, 6):
            session.send(put(b"a", text + b"%d" % number) + b"publish\n" + put(b"b", b"%d" % number))
            time.sleep(4 * QUIET)
            answer = b"search %d version %d lines %d\n" % (number, 2 * number - 1, min(number, 2))
            session.ask(b"search ^[0-9]$\n", answer + b"a:20001:%d\n" % number + (b"b:1:%d\n" % (number - 1) if number > 1 else b""))
        session.end(0)


def input_longer_than_a_script(start):
    """Comments, and bodies that are too long, are passed over and not kept. The lines are counted all the same."""
    with start() as session:
        comment = b"#" * (MEBIBYTE - 1) + b"\n"
        for _ in range(70):
            session.send(comment)
        session.send(b"put a 1\nx\npublish\n")
        session.ask(b"search x\n", b"search 1 version 1 lines 1\na:1:x\n")
        session.send(b"put a 100000000\n")
        for _ in range(100):
            session.send(b"y" * 999_999 + b"\n")
        session.ask(b"\n", b"line 75 refused: body too long\n")
        session.ask(b"what\n", b"line 177 refused: bad line\n")
        session.ask(b"publish\nsearch .\n", b"search 2 version 1 lines 1\na:1:x\n")
        most = session.memory("VmHWM")
        if most > 16 * MEBIBYTE:
            raise Wrong(f"the session has taken {most} bytes")
        session.end(2)


def send_line(session, begin, end, length):
    """Sends a line of this length with this beginning and end."""
    session.send(begin)
    left = length - len(begin + end)
    for at in range(0, left, MEBIBYTE):
        session.send(b"x" * min(MEBIBYTE, left - at))
    session.send(end + b"\n")


def line_of_the_greatest_length(start):
    """A line of the greatest length is an item like any other, and its memory is freed at the next item."""
    with start() as session:
        session.ask(b"put a 1\nx\npublish\nsearch x\n", b"search 1 version 1 lines 1\na:1:x\n")
        early = session.memory("VmRSS")
        for begin, end, wanted in [
            (b"what", b"", b"line 5 refused: bad line\n"),
            (b"remove ", b"", b"line 6 refused: name too long\n"),
            (b"put ", b" 3\nx\ny", b"line 7 refused: name too long\n"),
            (b"search ", b"", b"search 2 refused: pattern too long at 1024\n"),
            (b"isearchin a ", b"", b"search 3 refused: pattern too long at 1024\n"),
            (b"#", b"\nwhat", b"line 13 refused: bad line\n"),
        ]:
            head, _, rest = end.partition(b"\n")
            send_line(session, begin, head, GREATEST_LINE)
            if rest:
                session.expect_quiet()
                session.send(rest + b"\n")
            session.expect(wanted)
        session.ask(b"search x\n", b"search 4 version 1 lines 1\na:1:x\n")
        late = session.memory("VmRSS")
        if late - early > GREATEST_LINE // 2:
            raise Wrong(f"{early} bytes before the lines, and {late} after the next item")
        session.end(2)


def line_longer_than_any(start):
    with start() as session:
        session.ask(b"search x\n", b"search 1 version 0 lines 0\n")
        one_too_many = b"search " + b"x" * (GREATEST_LINE - len(b"search ") + 1)
        threading.Thread(target=send_all, args=(session, one_too_many), daemon=True).start()
        session.end(2, b"tsearch: line too long\n", close=False)


def send_all(session, data):
    try:
        session.send(data)
    except (OSError, ValueError, Wrong):
        pass  # the session ends before it takes all


def read_to_prompt(session):
    text = b""
    while not text.endswith(b"> "):
        more = session.read()
        if not more:
            raise Wrong(f"the client ended: {session.process.stderr.read()!r}")
        text += more
    return text[:-2]


def client_of_a_folder():
    with tempfile.TemporaryDirectory() as folder:
        top = pathlib.Path(folder)
        times = iter(range(1_000_000_000, 1_000_001_000))

        def write(name, body):
            path = top / os.fsdecode(name)
            path.parent.mkdir(exist_ok=True)
            path.write_bytes(body)
            moment = next(times)
            os.utime(path, (moment, moment))

        write("a.txt", b"hello world\nbye\n")
        write("sub/b c:d%.txt", b"say hello\n")
        write(".git/index", b"hello\n")
        write("feed\n.txt", b"one\nhello\n")
        write("binary", b"hello\0\n")
        write("long", b"Hullo 1\n" * 200_000 + b"Say hello\n")
        write("wide", b"hello " * 4_000)
        write("n" * 200 + " " * 50, b"hello 2\n")
        os.symlink("a.txt", top / "link")
        os.environ["TSEARCH"] = str(PROGRAM)
        with Session(folder, program=[sys.executable, str(CLIENT)]) as client:
            def ask(pattern, wanted):
                client.send(pattern + b"\n")
                same(f"the answer to {pattern!r}", sorted(read_to_prompt(client).splitlines(True)), sorted(wanted))

            same("what is shown first", read_to_prompt(client), b"")
            long = [b"long:200001:Say hello\n", b"wide:1:%s\n" % (b"hello " * 4_000), b"%s%s:1:hello 2\n" % (b"n" * 200, b" " * 50)]
            found = [b"a.txt:1:hello world\n", b"sub/b c:d%.txt:1:say hello\n", b"feed\n", b".txt:2:hello\n"]
            ask(b"hello", [b"left out: binary: binary\n"] + found + long)
            ask(b"^b", [b"a.txt:2:bye\n"])
            ask(b"(", [b"refused: group not closed at 0\n"])
            write("a.txt", b"hello again\n")
            (top / "feed\n.txt").unlink()
            write("binary", b"hello, text\n")
            ask(b"hello", [b"a.txt:1:hello again\n", b"binary:1:hello, text\n", b"sub/b c:d%.txt:1:say hello\n"] + long)
            # the old text is not found where the new one is left out
            write("a.txt", b"hello\0\n")
            ask(b"hello", [b"left out: a.txt: binary\n", b"binary:1:hello, text\n", b"sub/b c:d%.txt:1:say hello\n"] + long)
            write("a.txt", b"well\n")
            ask(b"^[a-z]*$", [b"a.txt:1:well\n"])
            # the same length and time of change
            moment = os.stat(top / "a.txt").st_mtime_ns
            (top / "a.txt").write_bytes(b"fell\n")
            os.utime(top / "a.txt", ns=(moment, moment))
            ask(b"^[a-z]*$", [b"a.txt:1:fell\n"])
            name = "\u6f22" * 80
            write(name, b"tell\n")
            ask(b"^[a-z]*$", [b"a.txt:1:fell\n", b"%s:1:tell\n" % name.encode()])
            client.end(0)
        missing = str(top / "missing")
        ended = subprocess.run([sys.executable, str(CLIENT), missing], stdin=subprocess.DEVNULL, capture_output=True, timeout=60)
        same("a folder that is not there", (ended.returncode, ended.stdout, ended.stderr), (1, b"", b"%s is not a folder\n" % missing.encode()))


WITH_EACH = [
    client_that_waits_for_each_answer,
    nothing_comes_before_an_item_is_whole,
    bytes_one_by_one,
    faults_end_a_session_whose_input_is_open,
    replacements_leave_memory_level,
    client_that_reads_slowly,
    large_answer_leaves_memory_level,
    slow_client_of_a_large_answer,
    client_that_goes_away,
    session_from_a_fifo,
    commands_behind_a_publish_are_not_shown,
    input_longer_than_a_script,
    line_of_the_greatest_length,
    line_longer_than_any,
]
ONCE = [input_cut_at_every_byte, options_of_a_session, threads_that_cannot_be_started, client_of_a_folder]


def faults_with_each(tests, numbers):
    """What finds what is wrong with a test, or None: for one of these tests, with each number of readers. Such a test is given what
    starts a session; any other test is made once."""

    def faults_of(test):
        if test not in tests:
            return faults_of_call(test)
        faults = []
        for readers in numbers:
            made = functools.partial(test, functools.partial(Session, "--readers", readers))
            made.__name__ = f"{test.__name__} with {readers} readers"
            faults += faults_of_call(made)
        return faults

    return faults_of


if __name__ == "__main__":
    run_tests(WITH_EACH + ONCE, faults_with_each(WITH_EACH, READERS), os.cpu_count())
