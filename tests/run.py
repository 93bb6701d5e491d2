#!/usr/bin/env python3
"""Runs the cases of tests/cases and the scripts of examples/ on the built program.

A case NAME is in one of the folders of tests/cases, which are by subject. No two cases have the same name. A case has
some of these files:

    NAME.script       the script, on standard input, or as FILE where an argument is {script}
    NAME.args         the arguments, one a line
    NAME.run          a bash script that is run instead, with the paths PROGRAM and SCRIPT, the top TOP of the repository, and READERS
    NAME.setup        a bash script that is run before, in the case's own new folder
    NAME.stdout       what must be written to standard output; no file: nothing
    NAME.stdout-has   instead, lines each of which must be somewhere in it
    NAME.stderr       what must be written to standard error; no file: nothing
    NAME.stderr-has   instead, lines each of which must be somewhere in it
    NAME.status       the status; no file: 0

Each case is run in a new folder with each of several numbers of readers, and must come out the same. Without a bash
script it is also run without such a number. The number comes before the arguments, or is READERS for a bash script. A
case whose arguments set the readers or ask for the help, or whose bash script does not use READERS, is run once. Each
other case, except those of WHOLE_SCRIPTS, is also run as a session, with each of these numbers: with --live before its
arguments, or for a bash script with a PROGRAM that puts --live before its own. An example NAME.script of examples/ is run
from the top of the repository, as FILE, and must write NAME.stdout and end with NAME.status. As many cases run at once as
there are processors.

A session without readers must come out as a run. With readers its answers may come in another order, so what it writes for
a script is judged (judge/transcripts.py): the entries must be those of NAME.stdout, in an order that a session may have. A
bash script of SEVERAL_ANSWERS compares its answers in their order itself, and is run as a session without readers only.

The case `architecture` runs nothing: it compares docs/ARCHITECTURE.md with the sources. Each line of an example must be in
the test that the document names. Each file that this document or another one of PAGES names must be there.

The case `README` runs each command that README.md shows after `$ `, at the top of a copy of what the repository shows there.
The command must write the lines below it, and nothing to standard error. The lines of a session up to its first answer are typed, and
not compared. There must be a command of each way: a folder at the terminal, and a session.

With --compiled, the cases run on the program that is compiled with checks, with no readers and as sessions, and nothing else runs.
With --again, each case and example runs N times with 16 readers, as a run and as a session, or 50 times without N; nothing else runs.

Usage: tests/run.py [--compiled] [--again [N]] [NAME..]   The last line counts: N passed, M failed.
"""

import argparse
import collections
import concurrent.futures
import os
import pathlib
import re
import shutil
import signal
import subprocess
import sys
import tempfile

from built import PROGRAM as PROVED
from built import TOP, need_program
from counted import Counted, Wrong
from judge import transcripts


def words_given():
    words = argparse.ArgumentParser(description="Runs the cases and the examples.")
    words.add_argument("--compiled", action="store_true")
    words.add_argument("--again", type=int, nargs="?", const=50, default=0)
    words.add_argument("names", nargs="*")
    return words.parse_args()


GIVEN = words_given()
PROGRAM = TOP / "out/compiled/tsearch" if GIVEN.compiled else PROVED
CASES = TOP / "tests/cases"
EXAMPLES = TOP / "examples"
CLIENTS = TOP / "clients"
ARCHITECTURE = TOP / "docs/architecture"
README = TOP / "README"
PAGES = ["README.md", "docs/ARCHITECTURE.md", "docs/GLOSSARY.md", "docs/LIMITS.md", "docs/PROVED.md", "docs/TESTING.md"]
EMBEDDING = "## Using the crates by themselves\n"
READERS = ["0"] if GIVEN.compiled else ["16"] if GIVEN.again else ["0", "1", "2", "16"]
SESSIONS = ["0", "2"] if GIVEN.compiled else READERS
SUFFIXES = {".script", ".args", ".run", ".setup", ".stdout", ".stdout-has", ".stderr", ".stderr-has", ".status"}
LIVE = "--live"
SECONDS = 300

# How a case is run: whether as a session, and with how many readers. None is without a number.
Way = collections.namedtuple("Way", "live readers")

# Cases of what holds for a script that is read whole, and not for a session.
WHOLE_SCRIPTS = {
    # a session has no limit of its script, and does not keep it
    "endless_script",
    "endless_standard_input",
    "memory_refused",
    "script_too_long",
    "script_too_long_on_standard_input",
    "standard_input_is_read_to_one_byte_over_the_limit",
}

# Cases whose bash scripts compare the answers of several searches in their order.
SEVERAL_ANSWERS = {
    "first_line_of_the_output_is_enough",
    "folder_step_by_step",
    "high_trees_and_long_lines",
    "last_of_many_texts",
    "load_of_a_file_that_grows_and_shrinks",
    "many_searches",
    "many_searches_of_a_large_body",
    "names_up_to_4096_bytes",
    "patterns_of_forty_branches",
    "patterns_on_the_page",
    "script_over_a_megabyte",
    "scripts_on_the_page",
    "searches_beside_publishes",
    "statuses_of_the_help",
}


def read_bytes(path):
    return path.read_bytes() if path.exists() else b""


def run(command, folder, stdin, env=None):
    """Runs a command in a folder, and returns its status, standard output and standard error."""
    pipe = subprocess.PIPE
    # in a session of its own, so that what a script started can be ended with it
    with subprocess.Popen(
        command, cwd=folder, stdin=pipe, stdout=pipe, stderr=pipe, env=env, start_new_session=True
    ) as process:
        try:
            stdout, stderr = process.communicate(stdin, timeout=SECONDS)
        except subprocess.TimeoutExpired:
            os.killpg(process.pid, signal.SIGKILL)
            process.communicate()
            raise Wrong(f"did not end in {SECONDS} seconds") from None
    return process.returncode, stdout, stderr


def compare_stream(base, stream, text):
    """Compares what was written to a stream with the case's file."""
    has = base.with_suffix(f".{stream}-has")
    if has.exists():
        for line in has.read_bytes().splitlines():
            if line not in text:
                raise Wrong(f"{stream} lacks {line!r}, and is {text[:2000]!r}")
        return
    wanted = read_bytes(base.with_suffix(f".{stream}"))
    if text != wanted:
        raise Wrong(f"{stream} is {text[:2000]!r}, and should be {wanted[:2000]!r}")


def compare_end(base, status, stderr):
    """Compares the status and what was written to standard error."""
    wanted = int(read_bytes(base.with_suffix(".status")) or b"0")
    compare_stream(base, "stderr", stderr)
    if status != wanted:
        raise Wrong(f"the status is {status}, and should be {wanted}")


def compare(base, result):
    status, stdout, stderr = result
    compare_stream(base, "stdout", stdout)
    compare_end(base, status, stderr)


def judge(base, way, folder, result):
    """Judges what a session with readers has written for the case's script."""
    status, stdout, stderr = result
    compare_end(base, status, stderr)
    words = words_of(base)
    numbers = {word: int(words[words.index(word) + 1]) for word in ("--max-commands", "--max-name", "--max-body", "--max-line") if word in words}
    options = {"max_commands": numbers["--max-commands"]} if "--max-commands" in numbers else {}
    options["lengths"] = transcripts.Lengths(*(numbers.get(f"--max-{what}", usual) for what, usual in transcripts.USUAL._asdict().items()))
    wanted, files = read_bytes(base.with_suffix(".stdout")), transcripts.Files(folder)
    options.update(readers=int(way.readers or 2), stats="--stats" in words, timed="--search-ms" in words, files=files, known=wanted)
    fault = transcripts.fault_of(base.with_suffix(".script").read_bytes(), stdout, status, session=True, **options)
    if fault:
        raise Wrong(f"{fault}; stdout is {stdout[:2000]!r}")


def is_judged(base, way):
    """Whether the entries may come in another order than in the case's file."""
    return way.live and way.readers != "0" and base.with_suffix(".script").exists() and base.with_suffix(".stdout").exists()


def words_of(base):
    """The case's arguments."""
    args = base.with_suffix(".args")
    return args.read_text().splitlines() if args.exists() else []


def write_command(path, text):
    """Writes a file that can be run. Another process writes it: a file that is open for writing cannot be run, and each
    process that a thread starts has, for a moment, all files open that the other threads have."""
    write = ["sh", "-c", 'cat >"$1" && chmod 755 "$1"', "sh", str(path)]
    subprocess.run(write, input=text.encode(), check=True)


def make_live_program(folder):
    """Makes a program that runs the built one as a session."""
    program = folder / "tsearch"
    write_command(program, f'#!/bin/sh\nexec "{PROGRAM}" {LIVE} "$@"\n')
    # so that a case can run the program as another user too
    folder.chmod(0o755)
    return program


def run_once(base, way):
    """Runs a case in one way."""
    script = base.with_suffix(".script")
    own_run = base.with_suffix(".run")
    setup = base.with_suffix(".setup")
    with tempfile.TemporaryDirectory() as folder, tempfile.TemporaryDirectory() as other:
        env = dict(os.environ, PROGRAM=str(PROGRAM), SCRIPT=str(script), TOP=str(TOP), READERS=way.readers or "", LC_ALL="C")
        if setup.exists():
            made = run(["bash", "-eu", str(setup)], folder, b"", env)
            if made[0] != 0:
                raise Wrong(f"its setup failed: {made[2]!r}")
        if own_run.exists():
            if way.live:
                env.update(PROGRAM=str(make_live_program(pathlib.Path(other))))
            compare(base, run(["bash", "-u", str(own_run)], folder, b"", env))
            return
        words = words_of(base)
        stdin = b"" if "{script}" in words else read_bytes(script)
        words = [str(script) if word == "{script}" else word for word in words]
        result = run([str(PROGRAM), *options_of(way), *words], folder, stdin, env)
        if is_judged(base, way):
            judge(base, way, folder, result)
        else:
            compare(base, result)


def options_of(way):
    return ([LIVE] if way.live else []) + (["--readers", way.readers] if way.readers else [])


def ways_to_run(base):
    """The ways in which a case is run."""
    own_run = base.with_suffix(".run")
    text = own_run.read_text() if own_run.exists() else ""
    fixed = "--help" in words_of(base) or any(word.startswith("--readers") for word in words_of(base))
    if fixed or (text and "$READERS" not in text):
        return [Way(False, None)]
    without_number = [] if text or GIVEN.again else [None]
    sessions = [] if base.name in WHOLE_SCRIPTS else SESSIONS + without_number
    if base.name in SEVERAL_ANSWERS:
        sessions = [number for number in sessions if number == "0"]
    return [Way(False, number) for number in without_number + READERS] + [Way(True, number) for number in sessions]


def words_on(way):
    """How a case was run, for the message that it failed."""
    words = (["as a session"] if way.live else []) + ([f"with {way.readers} readers"] if way.readers else [])
    return f"{' '.join(words)}: " if words else ""


def run_in_ways(ways, run_in_way):
    """Runs a case in each way. What is wrong has the way before it."""
    for way in ways:
        try:
            run_in_way(way)
        except Wrong as wrong:
            raise Wrong(f"{words_on(way)}{wrong}") from None


def run_case(base):
    run_in_ways(ways_to_run(base), lambda way: run_once(base, way))


def run_example_once(base, way):
    result = run([str(PROGRAM), *options_of(way), str(base.with_suffix(".script").relative_to(TOP))], TOP, b"")
    if is_judged(base, way):
        judge(base, way, TOP, result)
    else:
        compare(base, result)


def run_example(base):
    ways = [Way(False, number) for number in READERS] + [Way(True, number) for number in SESSIONS]
    run_in_ways(ways, lambda way: run_example_once(base, way))


def lines_of_function(path, name):
    """The lines of a function's body, without their indentation."""
    found = re.search(rf"^fn {name}\b.*?^{{\n(.*?)^}}\n", path.read_text(), re.DOTALL | re.MULTILINE)
    if not found:
        raise Wrong(f"{path.relative_to(TOP)} has no function {name}")
    return [line.strip() for line in found[1].splitlines()]


def compare_examples(text):
    """Compares each example of the section on embedding with the function that the next paragraph names first."""
    section = text.split(EMBEDDING)[1].split("\n## ")[0]
    examples = re.findall(r"\n\n((?:    .*\n)+)\n`(\w+)` in `([\w/.]+)`", section)
    if not examples or len(examples) != len(re.findall(r"\n\n    ", section)):
        raise Wrong("an example is not followed by the function that has its lines")
    for text, name, path in examples:
        lines = [line.strip() for line in text.splitlines()]
        body = lines_of_function(TOP / path, name)
        if not any(body[at : at + len(lines)] == lines for at in range(len(body))):
            raise Wrong(f"{name} in {path} does not have the lines {lines}")


def compare_files(pages):
    """Looks for each file that these pages name: by its path from the top, or by the end of it."""
    folders = ["bench", "building", "clients", "crates", "docs", "examples", "tests"]
    paths = [path.relative_to(TOP).parts for folder in folders for path in (TOP / folder).rglob("*.*")]
    ends = {"/".join(parts[at:]) for parts in paths if "out" not in parts for at in range(len(parts))}
    for page in pages:
        missing = set(re.findall(r"`([\w/]+\.(?:rt(?:\.txt)?|antt|py|md))`", (TOP / page).read_text())) - ends
        if missing:
            raise Wrong(f"{page}: there is no file {', '.join(sorted(missing))}")


def compare_architecture(base):
    text = base.with_name("ARCHITECTURE.md").read_text()
    compare_examples(text)
    compare_files(PAGES)


def commands_shown(text):
    """The commands that a page shows after `$ `, each with the lines below it."""
    for block in re.findall(r"(?:^    .*\n)+", text, re.MULTILINE):
        lines = [line[4:] for line in block.splitlines()]
        starts = [at for at, line in enumerate(lines) if line.startswith("$ ")]
        for start, end in zip(starts, starts[1:] + [len(lines)]):
            yield lines[start][2:], lines[start + 1 : end]


def typed_and_written(command, lines):
    """What is typed to a command and what it writes, by the lines that are shown below it."""
    answers = [at for at, line in enumerate(lines) if re.fullmatch(r"search \d+ version \d+ lines \d+", line)]
    start = answers[0] if "--live" in command.split() and answers else 0
    return "".join(line + "\n" for line in lines[:start]), "".join(line + "\n" for line in lines[start:])


def compare_command(folder, command, lines):
    typed, written = typed_and_written(command, lines)
    wanted = (written.encode(), b"")
    # a server that a command starts ends with the folder
    runtime = pathlib.Path(folder, "runtime")
    runtime.mkdir(mode=0o700, exist_ok=True)
    env = {name: value for name, value in os.environ.items() if name != "TSEARCH"} | {"XDG_RUNTIME_DIR": str(runtime)}
    _, *got = run(["bash", "-c", command], folder, typed.encode(), env)
    if tuple(got) != wanted:
        raise Wrong(f"{command!r} writes {got}, and should write {wanted}")


def compare_readme(base):
    shown = list(commands_shown(base.with_name("README.md").read_text()))
    for way in ("./tsearch --live", "./tgrep "):
        if not any(way in command for command, _ in shown):
            raise Wrong(f"no command has {way!r}")
    # a server that a command has started may leave something as it ends
    with tempfile.TemporaryDirectory(ignore_cleanup_errors=True) as folder:
        copy = pathlib.Path(folder)
        shutil.copytree(EXAMPLES, copy / "examples")
        shutil.copytree(CLIENTS, copy / "clients", ignore=shutil.ignore_patterns("__pycache__"))
        shutil.copy(TOP / "tgrep", copy)
        write_command(copy / "tsearch", f'#!/bin/sh\nexec "{PROGRAM}" "$@"\n')
        for command, lines in shown:
            compare_command(folder, command, lines)


def compare_failed_check(base):
    """The program that is compiled with checks takes a check that fails, which is an illegal instruction, as its end."""
    wanted = (2, "", "tsearch: a check failed, so the program ends here; this is a bug")
    with subprocess.Popen([str(PROGRAM), LIVE], stdin=subprocess.PIPE, stdout=subprocess.PIPE, stderr=subprocess.PIPE) as process:
        process.stdin.write(b"search x\n")
        process.stdin.flush()
        process.stdout.readline()
        process.send_signal(signal.SIGILL)
        stdout, stderr = process.communicate(timeout=SECONDS)
    got = (process.returncode, stdout.decode(), stderr.decode().partition(" (")[0])
    if got != wanted:
        raise Wrong(f"{base.name}: {got}, and should be {wanted}")


def cases_of_folders():
    """The cases of all folders, as paths without a suffix."""
    files = [path for path in CASES.rglob("*") if path.is_file()]
    strange = sorted(
        str(path.relative_to(CASES)) for path in files if path.suffix not in SUFFIXES or path.parent.parent != CASES
    )
    if strange:
        sys.exit(f"tests/run.py: not part of a case: {', '.join(strange)}")
    cases = sorted({path.with_suffix("") for path in files})
    names = [base.name for base in cases]
    twice = sorted({name for name in names if names.count(name) > 1})
    if twice:
        sys.exit(f"tests/run.py: in two folders: {', '.join(twice)}")
    return cases


def fault_of(job):
    """What is wrong with a case, if anything."""
    compare_case, base = job
    try:
        compare_case(base)
    except Wrong as wrong:
        return f"{base.relative_to(TOP)}: {wrong}"
    return None


def jobs_to_do():
    """What is run or compared, each with the path of its case."""
    examples = sorted(path.with_suffix("") for path in EXAMPLES.glob("*.script"))
    jobs = [(run_case, base) for base in cases_of_folders()] + [(run_example, base) for base in examples]
    if GIVEN.compiled:
        return jobs + [(compare_failed_check, CASES / "failed_check")]
    return jobs * GIVEN.again or jobs + [(compare_architecture, ARCHITECTURE), (compare_readme, README)]


def main():
    need_program(PROGRAM, f"./tsearch {'--help' if GIVEN.compiled else '--prove'}")
    jobs = jobs_to_do()
    missing = sorted(set(GIVEN.names) - {base.name for _, base in jobs})
    if missing:
        sys.exit(f"tests/run.py: no such case: {', '.join(missing)}")
    counted = Counted()
    with concurrent.futures.ThreadPoolExecutor(os.cpu_count()) as pool:
        counted.judge(pool.map(fault_of, [job for job in jobs if not GIVEN.names or job[1].name in GIVEN.names]))
    counted.end()


if __name__ == "__main__":
    main()
