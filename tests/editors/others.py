"""Other programs that search through tgrep, set as docs/SERVER.md says: fzf, and Emacs."""

import contextlib
import os
import pathlib
import shutil
import subprocess
import tempfile
import time

from built import TOP
from counted import Counted, Wrong
from terminal.trees import SECONDS, environment_in, stop_all

FILES = {
    "a.c": "int one;\nint needle(void)\n",
    "sub/b c.c": "x\n\nneedle and Needle\n",
    "sub/c.h": "nothing\n",
}
# What the page says.
PAGE = (TOP / "docs/SERVER.md").read_text(encoding="utf-8")


class Left(Exception):
    """A program that is not there."""


def call(words, place, environment, **how):
    """What a program writes."""
    done = subprocess.run(words, cwd=place, env=environment, capture_output=True, timeout=SECONDS, check=False, **how)
    return done.returncode, done.stdout.decode(errors="replace"), done.stderr.decode(errors="replace")


def fzf_searches_anew_for_each_query(place, environment):
    """The words of the page, which reload for a query: fzf is left by a key of its own once it is ready, and shows what tgrep wrote."""
    if shutil.which("fzf") is None or shutil.which("tmux") is None:
        raise Left("fzf and tmux")
    session = f"tgrep-fzf-{os.getpid()}"
    tmux = ["tmux", "-L", session]
    line = next(row for row in PAGE.splitlines() if row.strip().startswith("fzf --disabled")).strip()
    try:
        subprocess.run([*tmux, "new-session", "-d", "-s", "t", "-x", "120", "-y", "30", f"{line} > {place.parent}/chosen"],
                       cwd=place, env=environment, check=True, timeout=SECONDS)  # fmt: skip

        def screen():
            done = subprocess.run([*tmux, "capture-pane", "-p", "-t", "t"], env=environment, capture_output=True, check=False, timeout=SECONDS)
            return done.stdout.decode(errors="replace")

        wait_until(lambda: ">" in screen(), screen)
        subprocess.run([*tmux, "send-keys", "-t", "t", "-l", "needle"], env=environment, check=True)
        wait_until(lambda: "a.c:2:5:int needle(void)" in screen() and "sub/b c.c:3:1:needle" in screen(), screen)
        subprocess.run([*tmux, "send-keys", "-t", "t", "-l", "\\("], env=environment, check=True)
        wait_until(lambda: "sub/b c.c" not in screen() and "a.c:2:5" in screen(), screen)
        subprocess.run([*tmux, "send-keys", "-t", "t", "Enter"], env=environment, check=True)
        chosen = place.parent / "chosen"
        wait_until(lambda: chosen.is_file() and chosen.read_text() == "./a.c:2:5:int needle(void)\n", lambda: chosen.read_text() if chosen.is_file() else "")
    finally:
        subprocess.run([*tmux, "kill-server"], env=environment, capture_output=True, check=False)


def wait_until(holds, shown):
    """Waits until something holds."""
    end = time.monotonic() + SECONDS
    while not holds():
        if time.monotonic() > end:
            raise Wrong(f"not in {SECONDS} seconds: {shown()}")
        time.sleep(0.02)


def emacs_lists_what_is_found(place, environment):
    """`M-x grep` with the command of the page: Emacs finds the places, and goes to them."""
    if shutil.which("emacs") is None:
        raise Left("emacs")
    setting = next(row for row in PAGE.splitlines() if row.strip().startswith("(setq grep-command")).strip()
    code = f"""
(progn
  (require 'grep)
  {setting}
  (setq compilation-ask-about-save nil)
  (let ((buffer (grep (concat grep-command "needle ."))))
    (while (get-buffer-process buffer) (accept-process-output nil 0.05))
    (with-current-buffer buffer
      (let ((next-error-last-buffer buffer) (found nil))
        (dotimes (_ 2)
          (next-error)
          (with-current-buffer (window-buffer (selected-window))
            (push (format "%s:%d" (file-name-nondirectory (buffer-file-name)) (line-number-at-pos)) found)))
        (princ (mapconcat 'identity (reverse found) "\\n"))))))
"""
    status, shown, said = call(["emacs", "-Q", "--batch", "--eval", code], place, environment)
    if (status, shown) != (0, "a.c:2\nb c.c:3"):
        raise Wrong(f"emacs: {status} {shown!r} {said!r}")


TESTS = [fzf_searches_anew_for_each_query, emacs_lists_what_is_found]


def check(program, wanted):
    """Runs all, or those that are named, and gives the counts."""
    counted = Counted()
    for test in TESTS:
        if wanted and test.__name__ not in wanted:
            continue
        with tempfile.TemporaryDirectory(ignore_cleanup_errors=True) as folder:
            place = pathlib.Path(os.path.realpath(folder), "tree")
            for name, text in FILES.items():
                (place / name).parent.mkdir(parents=True, exist_ok=True)
                (place / name).write_text(text, encoding="utf-8")
            environment = environment_in(str(place.parent), program, PATH=f"{TOP}:{os.environ['PATH']}", TERM="xterm", LC_ALL="C.UTF-8")
            try:
                test(place, environment)
                counted.passes()
            except Left as left:
                print(f"tests/editor.py: {left} is not on the PATH, so {test.__name__} is left out")
            except (Wrong, OSError, ValueError, StopIteration, subprocess.SubprocessError) as wrong:
                counted.fails(f"{test.__name__}: {wrong!r}")
            finally:
                with contextlib.suppress(OSError):
                    stop_all(environment)
    return counted
