"""The sources of the program: which crates it uses, and a checksum of all their files."""

import hashlib
import pathlib

TOP = pathlib.Path(__file__).resolve().parent.parent
CRATES = TOP / "crates"
LIST = TOP / "crates.txt"
BUILDING = TOP / "building"
PROGRAM = "program"
PARTS = ("src", "specs", "proofs")


def uses():
    """For each crate of crates.txt the crates that it uses, of this repository and of the toolchain."""
    found = {}
    for line in LIST.read_text().splitlines():
        name, colon, used = line.partition("#")[0].partition(":")
        if colon:
            found[name.split()[0]] = used.split()
    return found


def crates_of_program():
    """The crates of this repository that the program uses, and itself, each after those that it uses. Each comes with
    those of this repository that it uses itself."""
    listed = uses()
    ordered = {}

    def take(crate):
        own = [used for used in listed[crate] if used in listed]
        for used in own:
            if used not in ordered:
                take(used)
        ordered[crate] = own

    take(PROGRAM)
    return ordered


def files_in(folders):
    """All files in these folders, without what Python keeps."""
    found = [path for folder in folders if folder.is_dir() for path in folder.rglob("*") if path.is_file()]
    return [path for path in found if "__pycache__" not in path.parts]


def files_of(crate):
    """The files of a crate that are proved or compiled."""
    return files_in(CRATES / crate / part for part in PARTS)


def files():
    """All files that decide which program is built, in a fixed order."""
    return [LIST] + sorted(files_in([BUILDING]) + [path for crate in crates_of_program() for path in files_of(crate)])


def checksum():
    """A text that changes whenever a source of the program changes, appears or goes."""
    all_files = hashlib.sha256()
    for path in files():
        content = path.read_bytes()
        all_files.update(f"{path.relative_to(TOP)}\0{len(content)}\0".encode())
        all_files.update(content)
    return all_files.hexdigest()
