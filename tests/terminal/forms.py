"""Forms of tgrep beside those of rg, byte by byte: colours, headings, JSON; what is refused, and what its refusals say; the pages; and the
package, which is installed without a network."""

import contextlib
import json
import os
import pty
import re
import select
import shutil
import subprocess
import sys
import tempfile

from built import TOP
from counted import Counted, Wrong
from terminal.trees import SECONDS, environment_in, make_trees, run, stop_all

RG = ["--sort=path", "--no-unicode", "--hidden"]
SAME = [
    ["-n", "--no-heading", "--color=always", "foo", "src"],
    ["-n", "--no-heading", "--color=always", "fo+|bar", "src/a.c", "README.md"],
    ["-n", "--no-heading", "--color=always", "-i", "foo", "README.md"],
    ["-n", "--no-heading", "--color=always", "-C1", "foo", "src"],
    ["-n", "--no-heading", "--color=always", "-o", "foo", "src"],
    ["-n", "--no-heading", "--color=always", "--column", "foo", "src"],
    ["-n", "--no-heading", "--color=always", "-v", "foo", "src"],
    ["-n", "--heading", "foo", "src"],
    ["-n", "--heading", "-C1", "foo", "src"],
    ["-p", "foo", "src"],
    ["-p", "-C2", "two|foo", "src"],
    ["-n", "--heading", "--column", "foo", "src"],
    ["--color=always", "-l", "foo", "src"],
    ["--color=always", "-c", "foo", "src"],
    ["-n", "--color=always", "--no-heading", "--colors=match:fg:red", "--colors=path:none", "--colors=line:fg:blue", "foo", "src"],
    ["--vimgrep", "foo", "src"],
    ["--vimgrep", "--color=always", "foo", "src"],
    ["-n", "--no-heading", "--column", "-C1", "foo", "src"],
    ["-n", "--no-heading", "-M", "10", "-C1", "foo", "src"],
    ["--files", "--color=always", "src"],
    ["-n", "--no-heading", "-0", "foo", "src"],
    ["-n", "--no-heading", "--context-separator=ab", "-A1", "foo", "src"],
    ["-n", "--no-heading", "-M", "9", "foo", "src"],
    ["-n", "--no-heading", "-M", "8", "foo", "src"],
    ["-n", "--no-heading", "--trim", "-C1", "foo", "x.py", "src", "../plain/sub"],
    ["-n", "--no-heading", "--trim", "--color=always", "-A1", "foo|  +re", "a.c"],
    ["-n", "--no-heading", "--trim", "--color=always", "-o", "--column", " +r|oo", "a.c", "src"],
    ["-n", "--no-heading", "-b", "foo", "src", "README.md"],
    ["-n", "--no-heading", "--passthru", "--color=always", "foo", "src", "a.c"],
    ["-n", "--heading", "--passthru", "-i", "FOO", "src"],
    ["-n", "--no-heading", "--passthru", "-v", "foo", "src"],
    ["-n", "--no-heading", "--passthru", "--column", "foo", "a.c"],
    ["-n", "--no-heading", "--passthru", "-o", "-b", "oo", "a.c"],
    ["-n", "--no-heading", "--passthru", "zebra", "src"],
    ["-n", "--no-heading", "-b", "-C1", "--column", "--color=always", "foo", "src", "a.c"],
    ["-n", "--no-heading", "-b", "-o", "oo", "src", "README.md", "../plain/no-end"],
    ["-N", "--heading", "-b", "-v", "foo", "src"],
    ["--trim", "--vimgrep", "--color=always", " +r|oo", "a.c"],
    "-n --no-heading --block-buffered --no-line-buffered --one-file-system --ignore --no-ignore-files --no-ignore-exclude foo src".split(),
    "-n --no-heading --regex-size-limit 1M --dfa-size-limit=1M --auto-hybrid-regex --no-auto-hybrid-regex --max-columns-preview foo src".split(),
    # what plugins of editors write: Telescope, deadgrep, consult, rg.el, fzf.vim, ack.vim
    "--color=never --no-heading --with-filename --line-number --column --smart-case foo src".split(),
    "--color=ansi --line-number --no-heading --no-column --with-filename --no-config --smart-case --fixed-strings -- foo src".split(),
    """--null --line-buffered --color=never --max-columns=1000 --path-separator / --smart-case --no-heading --with-filename --line-number
        --search-zip -e foo src""".split(),
    """--color=always --colors=match:fg:red --colors=path:fg:magenta --colors=line:none --colors=column:none -n --column --heading -i
        --type-add x:*.x -e foo src""".split(),
    "--column --line-number --no-heading --color=always --smart-case -- foo src".split(),
    "--vimgrep --no-heading --smart-case foo src".split(),
    # matches that are empty
    ["--vimgrep", "o*", "src"],
    ["--vimgrep", "^|o", "src"],
    ["--vimgrep", "$", "src/a.c"],
    ["--count-matches", "o*", "src"],
    ["--count-matches", "-x", "o*", "README.md", "src"],
    ["-n", "--no-heading", "--column", "o*", "src"],
    ["-n", "--no-heading", "--column", "-C1", "o*$", "src"],
    ["-n", "--no-heading", "--column", "-C1", "--color=always", "o*o|x", "src"],
]
JSON = """foo src | -i foo . | -C1 foo src | -v foo src/a.c | -v foo . | zebra . | -w foo|bar . | -m1 foo src | -m1 -v foo . | o* src | ^ src |
    $ . | ^$ . | o* ../plain/no-end | $ ../plain/no-end src | (a|o)*$ src | -x o* . | -C1 o* src | -F -e foo -e bar .""".replace("\n   ", "")
JSON = [words.split() for words in JSON.split(" | ")]
REFUSED = {
    ("-P", "x"): "docs/PATTERNS.md",
    ("-U", "x"): "rg -U",
    ("-z", "x"): "grep -z",
    ("--replace", "y", "x"): "sed -i",
    ("-G", "x"): r"without the \\",
    ("--encoding", "utf-16", "x"): "rg -E",
    ("--watch",): "each call sees the files",
    ("--nothing", "x"): "no option --nothing",
    ("-t", "nothing", "x"): "--type-list",
    ("-m", "x", "y"): "needs a number",
    ("-A",): "needs N",
    ("--sort", "modified", "x"): "--sort path",
    ("--heading=yes", "x"): "takes nothing",
    ("-g", "!a", "-g", "b", "x"): "with a ! last",
    ("-C", "1001", "x"): "at most 1000",
    (): "give a pattern",
    ("--limit", "0", "x"): "at least 1",
    ("--color", "x"): "write --color=auto",
    ("--max-filesize", "1X", "x"): "needs a size such as",
    ("--name", "x" * 1_100, "x"): "--name and --not-name take at most",
    ("--files", "--name", "("): "pattern of paths: group not closed",
    ("--no-context-separator", "x"): "--context-separator",
    ("--field-match-separator", ":", "x"): "-Z",
}
HINTS = {
    r"foo\b[,o]": r"no form for \b here at 3: write -w",
    r"[\W_]": r"\W in brackets at 1: POSIX has no class for it: write ([^[:alnum:]_]|[_])",
    r"a\nb": "bad escape at 1: write two patterns: a match lies within a line",
    r"(a)\1": "back-reference at 3: grep -E and rg -P have them",
    "o(?i)foo": "flag within a pattern at 1: write -i",
    "o(?=foo)": "look-ahead at 1",
    r"\p{L}": r"Unicode property \p{L} at 0: write a class",
    "fo++": "possessive ++ at 2: write +",
    r"\w(?P<n>b)": "named group at 2: write (",
    r"\d[z-a]": "bad range at 4",
    "*.txt": "-g GLOB",
    "+x": r"\+",
    "a(b": r"\(",
    "[a": r"\[",
    "a\\": "-F",
    r"\q": "write q",
    "x" * 1_100: "rg -f FILE",
}


# What is typed, and a word that is offered then.
COMPLETED = {
    "tgrep --context-sep": "--context-separator",
    "tgrep -t rus": "rust",
    "tgrep --type-no": "--type-not",
    "tgrep --color alw": "always",
    "tgrep foo --max-files": "--max-filesize",
    "tgrep --completion zs": "zsh",
}


def without_times(line):
    """A message of JSON without what differs from run to run, and how many bytes were printed."""
    message = json.loads(line)
    data = message["data"]
    for stats in [data.get("stats"), data]:
        for key in "elapsed", "elapsed_total", "bytes_printed", "bytes_searched":
            if stats:
                stats.pop(key, None)
    return message


def writes_what_rg_writes(folder, environment):
    """Each form."""
    tree = os.path.join(folder, "repo")
    for words in SAME:
        found = run(words, tree, environment)
        wanted = run([*RG, *words], tree, environment, command="rg")
        if found[:2] != wanted[:2]:
            raise Wrong(f"{words}: {found}, and rg: {wanted}")
    for words in JSON:
        status, shown, _ = run(["--json", *words], tree, environment)
        found = [without_times(line) for line in shown.splitlines()]
        # files of which nothing is shown are not named
        rg_status, rg_shown, _ = run([*RG, "-g!.git", "--json", *words], tree, environment, command="rg")
        wanted = [without_times(line) for line in rg_shown.splitlines()]
        if (status, found) != (rg_status, wanted):
            raise Wrong(f"{words}: {status} {found}, and rg: {rg_status} {wanted}")


def says_what_to_write(folder, environment):
    """What is refused."""
    tree = os.path.join(folder, "repo")
    for words, wanted in REFUSED.items():
        status, shown, said = run(words, tree, environment)
        if (status, shown) != (2, b"") or wanted.encode().replace(rb"\\", b"\\") not in said:
            raise Wrong(f"{words}: {status} {shown} {said}")
    for pattern, wanted in HINTS.items():
        status, shown, said = run(["-e", pattern], tree, environment)
        if (status, shown) != (2, b"") or wanted.encode() not in said:
            raise Wrong(f"{pattern}: {status} {shown} {said}")
    for words, wanted in (["--name", "*.txt", "x"], "-g takes globs"), (["--name", "a b", "x"], "%20"):
        if wanted.encode() not in run(words, tree, environment)[2]:
            raise Wrong(str(words))
    status, _, said = run(["foo", "src"], tree, environment, command=str(TOP / "tsearch"))
    if status != 2 or b"write ./tgrep PATTERN" not in said:
        raise Wrong(f"./tsearch foo src: {status} {said}")


def has_pages(folder, environment):
    """--help, the manual page and the completions have each option."""
    sys.path.insert(0, str(TOP / "clients/python"))
    from tsearch.tgrep.options import GROUPS

    options = [word for _, rows in GROUPS for words, *_ in rows for word in words]
    shells = [f"--completion={shell}" for shell in ("bash", "zsh", "fish")]
    pages = {words: run([words], folder, environment)[1].decode() for words in ("--help", "--manual", *shells)}
    for option in options:
        for words, page in pages.items():
            text = page.replace("\\-", "-")
            wanted = option if words != "--completion=fish" else f"-l {option[2:]}" if option.startswith("--") else f"-s {option[1]}"
            if not re.search(rf"(?<![\w-]){re.escape(wanted)}(?![\w-])", text) and not (words == "--completion=bash" and len(option) == 2):
                raise Wrong(f"{words}: no {option}")
    for shell in "bash", "zsh", "fish":
        if shutil.which(shell):
            done = subprocess.run([shell, "-n"], input=pages[f"--completion={shell}"], text=True, capture_output=True, check=False)
            if done.returncode or done.stderr:
                raise Wrong(f"{shell}: {done.stderr}")
    if shutil.which("groff"):
        done = subprocess.run(["groff", "-ww", "-z", "-man"], input=pages["--manual"], text=True, capture_output=True, check=False)
        if done.returncode or done.stderr:
            raise Wrong(f"groff: {done.stderr}")
    version = run(["--version"], folder, environment)[1]
    if version != b"tgrep 0.1.0\n":
        raise Wrong(str(version))


def shells_complete(folder, environment):
    """The completions, in each shell that there is."""
    for shell, complete in ("bash", completed_by_bash), ("zsh", completed_by_zsh), ("fish", completed_by_fish):
        if not shutil.which(shell):
            print(f"there is no command {shell}, so the completion for it is not run")
            continue
        page = run([f"--completion={shell}"], folder, environment)[1]
        path = os.path.join(folder, "_tgrep")
        with open(path, "wb") as file:
            file.write(page)
        for typed, wanted in COMPLETED.items():
            shown = complete(path, typed, folder, environment)
            if wanted not in [word.rstrip("=") for word in shown]:
                raise Wrong(f"{shell}: {typed}: {shown}")


def completed_by_bash(path, typed, folder, environment):
    """The words that bash offers."""
    code = f"source '{path}'; COMP_WORDS=({typed} ''); unset 'COMP_WORDS[-1]'; COMP_CWORD=$((${{#COMP_WORDS[@]}} - 1)); _tgrep; echo \"${{COMPREPLY[@]}}\""
    done = subprocess.run(["bash", "--norc", "-c", code], cwd=folder, env=environment, capture_output=True, text=True, check=True)
    return done.stdout.split()


def completed_by_fish(path, typed, folder, environment):
    """The words that fish offers."""
    done = subprocess.run(["fish", "-N", "-c", f"source '{path}'; complete -C '{typed}'"], cwd=folder, env=environment, capture_output=True, text=True, check=True)
    return [line.partition("\t")[0] for line in done.stdout.splitlines()]


def completed_by_zsh(path, typed, folder, environment):
    """The words of the line that zsh makes of what is typed and a tab."""
    process, terminal = pty.fork()
    if process == 0:
        os.chdir(folder)
        os.execvpe("zsh", ["zsh", "-f", "-i"], {**environment, "TERM": "dumb"})
    try:
        begin = f"PS1='> '; fpath=('{os.path.dirname(path)}' $fpath); autoload -U compinit; compinit -u -D; echo re''ady\n"
        os.write(terminal, begin.encode())
        read_until(terminal, b"ready\r\n")
        os.write(terminal, typed.encode() + b"\t")
        read_until(terminal, typed.encode())
        os.write(terminal, b"\x01echo '\x05' do''ne\n")
        return read_until(terminal, b"done\r\n").decode(errors="replace").split()
    finally:
        os.kill(process, 9)
        os.waitpid(process, 0)
        os.close(terminal)


def read_until(terminal, text):
    """What a terminal shows up to some text."""
    shown = b""
    while text not in shown:
        if not select.select([terminal], [], [], SECONDS)[0]:
            raise Wrong(f"not {text}: {shown}")
        with contextlib.suppress(OSError):
            shown += os.read(terminal, 1 << 16)
    return shown


def is_installed_without_a_network(folder, environment):
    """With pip, in an environment of its own. The program comes along if the repository has built it."""
    place = os.path.join(folder, "venv")
    if subprocess.run(["/usr/bin/python3", "-m", "venv", place], capture_output=True, check=False).returncode:
        print("there is no /usr/bin/python3 with venv and pip (python3-venv), so the installed package is not tested")
        return
    source = os.path.join(folder, "source")
    for name in "clients/python", "out/current":
        shutil.copytree(TOP / name, os.path.join(source, name), ignore=shutil.ignore_patterns("__pycache__"))
    # another place of packages is not asked
    index = ["--index-url=http://127.0.0.1:9/", "--disable-pip-version-check"]
    subprocess.run([f"{place}/bin/pip", "install", "-q", *index, os.path.join(source, "clients/python")], check=True, capture_output=True)
    shutil.rmtree(source)
    own = {name: value for name, value in environment.items() if name != "TSEARCH"}
    found = run(["foo", "src/a.h"], os.path.join(folder, "repo"), own, command=f"{place}/bin/tgrep")
    if found != (0, b"1:void foo(void);\n", b""):
        raise Wrong(str(found))
    if run(["-l", "foo", "src"], os.path.join(folder, "repo"), own, command=f"{place}/bin/tgrep")[:2] != (0, b"src/a.c\nsrc/a.h\nsrc/sub/b.c\n"):
        raise Wrong("not the same files")
    done = run([], folder, own, given=b"put a 1\nx\npublish\nsearch x\n", command=f"{place}/bin/tsearch")
    if done[:2] != (0, b"search 1 version 1 lines 1\na:1:x\n"):
        raise Wrong(str(done))
    for name in "man/man1/tgrep.1", "bash-completion/completions/tgrep", "zsh/site-functions/_tgrep", "fish/vendor_completions.d/tgrep.fish":
        if not os.path.getsize(f"{place}/share/{name}"):
            raise Wrong(name)


TESTS = [writes_what_rg_writes, says_what_to_write, has_pages, shells_complete, is_installed_without_a_network]


def check(program):
    """Runs all, and gives the counts."""
    counted = Counted()
    for test in TESTS:
        if test is writes_what_rg_writes and not shutil.which("rg"):
            print("there is no command rg, so the forms of tgrep are not compared with its forms")
            continue
        with tempfile.TemporaryDirectory(ignore_cleanup_errors=True) as folder:
            folder = os.path.realpath(folder)
            make_trees(folder)
            environment = environment_in(folder, program)
            try:
                test(folder, environment)
                counted.passes()
            except (Wrong, OSError, ValueError, subprocess.SubprocessError) as wrong:
                counted.fails(f"{test.__name__}: {wrong!r}")
            finally:
                stop_all(environment)
    return counted
