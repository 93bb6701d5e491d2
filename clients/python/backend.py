"""Makes the package for pip (PEP 517), with nothing but the standard library: so `pip install` needs no network.

It has the modules, the program that the repository has built, the manual page of tgrep and its completions. Without a built program the
package brings none along, and says so where it is installed (`pip -v`) and when it is used.
"""

import base64
import hashlib
import os
import pathlib
import sys
import tomllib
import zipfile

HERE = pathlib.Path(__file__).resolve().parent
PACKAGE = "tsearch"
BUILT = HERE.parent.parent / "out/current/tsearch"
# What the folder is called in which a program is, and what `--version` says of it, as `./tsearch --version` does.
KINDS = {"proved": "proved", "compiled": "compiled with checks"}
SUFFIXES = {".py", ".typed", ".html", ".css", ".js", ".svg"}
RUNNABLE = 0o100755
PLAIN = 0o100644


class Wheel:
    """A wheel that is written."""

    def __init__(self, folder, tag):
        with open(HERE / "pyproject.toml", "rb") as file:
            self.project = tomllib.load(file)["project"]
        self.base = f"{self.project['name']}-{self.project['version']}"
        self.name = f"{self.base}-py3-none-{tag}.whl"
        self.tag = tag
        self.records = []
        self.archive = zipfile.ZipFile(os.path.join(folder, self.name), "w", zipfile.ZIP_DEFLATED)

    def add(self, name, data, mode=PLAIN):
        """Adds a file."""
        about = zipfile.ZipInfo(name)
        about.external_attr = mode << 16
        about.compress_type = zipfile.ZIP_DEFLATED
        self.archive.writestr(about, data)
        digest = base64.urlsafe_b64encode(hashlib.sha256(data).digest()).rstrip(b"=").decode()
        self.records.append(f"{name},sha256={digest},{len(data)}")

    def add_scripts(self):
        """Adds the commands. They import nothing but what they call, so that tgrep starts quickly."""
        for command, called in self.project["scripts"].items():
            module, _, function = called.partition(":")
            code = f"#!python\nimport sys\n\nfrom {module} import {function}\n\nsys.exit({function}())\n"
            self.add(f"{self.base}.data/scripts/{command}", code.encode(), RUNNABLE)

    def end(self):
        """Adds what says what the wheel is, and closes it. Its name."""
        info = f"{self.base}.dist-info"
        self.add(f"{info}/METADATA", self.metadata().encode())
        is_pure = str(self.tag == "any").lower()
        about = f"Wheel-Version: 1.0\nGenerator: tsearch\nRoot-Is-Purelib: {is_pure}\nTag: py3-none-{self.tag}\n"
        self.add(f"{info}/WHEEL", about.encode())
        record = "".join(row + "\n" for row in [*self.records, f"{info}/RECORD,,"])
        self.archive.writestr(f"{info}/RECORD", record)
        self.archive.close()
        return self.name

    def metadata(self):
        """The core metadata, with the README as the description."""
        project = self.project
        rows = [f"Name: {project['name']}", f"Version: {project['version']}", f"Summary: {project['description']}"]
        rows += [f"Requires-Python: {project['requires-python']}", *(f"Classifier: {one}" for one in project["classifiers"])]
        for extra, needed in project["optional-dependencies"].items():
            rows += [f"Provides-Extra: {extra}", *(f'Requires-Dist: {one}; extra == "{extra}"' for one in needed)]
        text = (HERE / project["readme"]).read_text(encoding="utf-8")
        return "\n".join(["Metadata-Version: 2.1", *rows, "Description-Content-Type: text/markdown", "", text])


def add_pages(wheel):
    """Adds the manual page of tgrep, and its completions."""
    sys.path.insert(0, str(HERE))
    from tsearch.tgrep import pages

    for place, text in (
        ("man/man1/tgrep.1", pages.manual()),
        ("bash-completion/completions/tgrep", pages.bash()),
        ("zsh/site-functions/_tgrep", pages.zsh()),
        ("fish/vendor_completions.d/tgrep.fish", pages.fish()),
    ):
        wheel.add(f"{wheel.base}.data/data/share/{place}", text.encode())


def build_wheel(wheel_directory, config_settings=None, metadata_directory=None):
    """The package, for pip."""
    wheel = Wheel(wheel_directory, f"linux_{os.uname().machine}" if BUILT.exists() else "any")
    for path in sorted((HERE / PACKAGE).rglob("*")):
        if path.is_file() and path.suffix in SUFFIXES:
            wheel.add(str(path.relative_to(HERE)), path.read_bytes())
    if BUILT.exists():
        wheel.add(f"{PACKAGE}/built/tsearch", BUILT.read_bytes(), RUNNABLE)
        wheel.add(f"{PACKAGE}/built/kind", KINDS.get(BUILT.resolve().parent.name, "not known to be proved").encode() + b"\n")
    else:
        print("tsearch: no program is built (./tsearch --path builds one), so the package brings none along", file=sys.stderr)
    add_pages(wheel)
    wheel.add_scripts()
    return wheel.end()


def build_editable(wheel_directory, config_settings=None, metadata_directory=None):
    """The package as it lies in the repository, for `pip install --editable`. It uses the program of the repository."""
    wheel = Wheel(wheel_directory, "any")
    wheel.add(f"{PACKAGE}.pth", str(HERE).encode() + b"\n")
    add_pages(wheel)
    wheel.add_scripts()
    return wheel.end()
