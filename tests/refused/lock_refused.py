#!/usr/bin/env python3
"""Shows that a search cannot take a lock where it has no right to wait: a look at the published index with a lock around it does not
compile. The proved tests are what is compiled, with the crates below them.

A call that may wait for another thread takes a handle with the bound `Wait`. `Reading::look`, `counts`, `learn` and `seen` get no
such handle, and neither does `search::take`, which a search looks with. The compiler refuses the code before the prover sees it, so it cannot be an edit of must-fail.

Usage: tests/refused/lock_refused.py   The last line counts: N passed, M failed.
"""

import pathlib
import subprocess
import sys
import tempfile

sys.path.insert(0, str(pathlib.Path(__file__).resolve().parent.parent))

import copies  # noqa: E402
from built import script_name  # noqa: E402
from counted import Counted  # noqa: E402

OLD = "    match reading.look(|index| search::take(alloc, index, prepared)) {\n"
NEW = """    match reading.look(|index| {
        let lock = std::sync::Mutex::new(index);
        let held = lock.lock(&alloc);
        search::take(alloc, *held, prepared)
    }) {
"""
WANTED = "the trait bound `Global: Wait` is not satisfied"


def main():
    with tempfile.TemporaryDirectory() as folder:
        copies.copy_crates(folder, ["proved_tests"])
        crate = pathlib.Path(folder, "crates", "proved_tests")
        text = (crate / "src/fixtures.rt").read_text(encoding="utf-8")
        if text.count(OLD) != 1:
            sys.exit(f"{script_name()}: fixtures.rt does not have the line to replace")
        (crate / "src/fixtures.rt").write_text(text.replace(OLD, NEW), encoding="utf-8")
        done = subprocess.run(["rt", "try", "--test"], cwd=crate, capture_output=True, text=True, check=False)
    errors = [line for line in (done.stdout + done.stderr).splitlines() if ": error" in line]
    refused = done.returncode != 0 and len(errors) == 1 and WANTED in errors[0]
    what = "a lock around the index: %s" % ("; ".join(errors) or "NOT REFUSED")
    counted = Counted()
    if refused:
        print(what)
        counted.passes()
    else:
        counted.fails(what)
    counted.end()


if __name__ == "__main__":
    main()
