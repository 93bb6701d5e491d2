"""Where a call finds its server: the tree of a path, and the socket of its server in a folder of the user alone. Imported at each
call, so it imports little."""

import os

from . import VERSION
from .arguments import Refused

try:
    from _blake2 import blake2b  # what hashlib gives out, which is slow to import
except ImportError:
    from hashlib import blake2b

_TEMPORARY = "/tmp"
_PACKAGE = os.path.dirname(os.path.dirname(os.path.abspath(__file__)))


def top_of(folder):
    """The top of the git repository that a folder is in, or None."""
    while True:
        if os.path.lexists(os.path.join(folder, ".git")):
            return folder
        above = os.path.dirname(folder)
        if above == folder:
            return None
        folder = above


def is_below(path, folder):
    """Whether an absolute path is that of a folder or of something in it."""
    return path == folder or path.startswith(folder.rstrip("/") + "/")


def folder_of_user():
    """The folder of the sockets, which nobody else may enter; it is made if it is not there. `Refused` if it is somebody else's."""
    runtime, home = os.environ.get("XDG_RUNTIME_DIR"), os.environ.get("HOME")
    if _is_own(runtime):
        return _alone(os.path.join(runtime, "tgrep"))
    try:
        return _alone(os.path.join(_TEMPORARY, f"tgrep-{os.getuid()}"))
    except Refused:
        # anybody can make that one first; a home may be on another machine, where sockets are of no use
        if not _is_own(home):
            raise
        try:
            os.makedirs(os.path.join(home, ".cache"), 0o700, exist_ok=True)
        except OSError as error:
            raise Refused(f"{home}/.cache: {error.strerror}") from None
        return _alone(os.path.join(home, ".cache", "tgrep"))


def _is_own(folder):
    try:
        return bool(folder) and os.stat(folder).st_uid == os.getuid()
    except OSError:
        return False


def _alone(folder):
    """The folder, which is made if it is not there. `Refused` if it is not this user's alone."""
    try:
        os.mkdir(folder, 0o700)
    except FileExistsError:
        pass
    except OSError as error:
        raise Refused(f"{folder}: {error.strerror}") from None
    state = os.lstat(folder)
    if state.st_mode & 0o170000 != 0o040000 or state.st_uid != os.getuid() or state.st_mode & 0o077:
        raise Refused(f"{folder} is not a folder of this user alone, so no server is used: chmod 700 it, or remove it")
    return folder


def socket_of(folder, root, mode):
    """The path of the socket of a tree's server, which holds the tree in one of its modes."""
    key = blake2b(os.fsencode(f"{mode}:{root}"), digest_size=12).hexdigest()
    return os.path.join(folder, key)


def program_words():
    """The program, if its place is known without a search: that of TSEARCH, as it is from the working folder, that which the package
    brings along, or that of the repository. It is found again where it is started (`tsearch.program`)."""
    beside = os.path.dirname(os.path.dirname(os.path.dirname(_PACKAGE)))
    named = os.environ.get("TSEARCH")
    if named and os.sep in named:
        return os.path.abspath(named)
    if named:
        import shutil  # which is slow to import

        return shutil.which(named) or named
    brought = os.path.join(_PACKAGE, "built", "tsearch")
    return brought if os.path.exists(brought) else os.path.join(beside, "out", "current", "tsearch")


def token():
    """What tells that a server is the one for this call: the versions of the package and of the program."""
    program = program_words()
    try:
        state = os.stat(program)
        built = f"{state.st_mtime_ns} {state.st_size}"
    except OSError:
        built = "none"
    return f"{VERSION} {_PACKAGE} {program} {built}"
