"""One call of `tgrep`. It asks the server of the tree, which is started if need be, and passes on what that writes. It imports only
what is quick to import: a call takes some milliseconds more than the start of Python."""

import _signal as signal
import _socket as socket
import errno
import os
import sys

from . import arguments, places

_BLOCK = 1 << 18
# What a server writes is frames: a letter, the length in four bytes, and so many bytes.
HEAD = 5
OUTPUT, ERROR, PROGRESS, STATUS, DIFFERS, ELSEWHERE = b"o", b"e", b"p", b"s", b"x", b"w"
_TRIES = 5
STANDARD_INPUT = "-"
# The options that search in what git has.
PAST = ("at", "changed", "diff")


class Lost(Exception):
    """The server has ended before its answer. `has_output` tells whether a part of it was written."""

    def __init__(self, has_output):
        super().__init__(has_output)
        self.has_output = has_output


class Elsewhere(Exception):
    """Folders that the tree has not, since its rules name them: each is a tree of its own. The text is their list."""


class Terminal:
    """Standard output and standard error."""

    def __init__(self):
        self.closed = _fill_closed()
        self.is_terminal = os.isatty(1)
        self.shows_progress = os.isatty(2)
        self.width = 0
        self.has_output = False
        # what the answers for other trees leave to the next one, as they write it
        self.carried = ""

    def output(self, data):
        """Writes to standard output."""
        self.end_progress()
        self.has_output = True
        if 1 in self.closed:
            raise OSError(errno.EBADF, os.strerror(errno.EBADF), "standard output")
        while data:
            data = data[os.write(1, data) :]

    def error(self, data):
        """Writes to standard error."""
        self.end_progress()
        try:
            os.write(2, data)
        except OSError:
            pass

    def say(self, text):
        """Writes a message."""
        text = "".join(f"^{chr(ord(one) ^ 64)}" if one < " " and one != "\t" or one == "\x7f" else one for one in str(text))
        self.error(f"tgrep: {text}\n".encode(errors="surrogateescape"))

    def progress(self, text):
        """Shows how far the work is, at a terminal."""
        if self.shows_progress:
            os.write(2, b"\r" + text.ljust(self.width))
            self.width = len(text)

    def end_progress(self):
        """Takes the line of progress away."""
        if self.width:
            os.write(2, b"\r" + b" " * self.width + b"\r")
            self.width = 0


def _fill_closed():
    """Opens what is closed of standard input, output and error, so that nothing else takes its place. Which these are."""
    closed = []
    for number in range(3):
        try:
            os.fstat(number)
        except OSError:
            closed.append(number)
            os.open(os.devnull, os.O_RDWR)
    return closed


def main(words=None):
    """Runs the command with these words, by default those of the command line, and returns its status: 0 if a line was found, 1 if none
    was, and 2 after an error. Ctrl-C ends it by that signal, and an output that nobody reads by SIGPIPE."""
    words = sys.argv[1:] if words is None else words
    signal.signal(signal.SIGPIPE, signal.SIG_DFL)
    terminal = Terminal()
    try:
        return _run(arguments.read(words), terminal)
    except arguments.Refused as refused:
        terminal.say(refused)
    except OSError as error:
        terminal.say(f"{error.filename}: {error.strerror}" if error.filename else error.strerror or error)
    except KeyboardInterrupt:
        terminal.end_progress()
        signal.signal(signal.SIGINT, signal.SIG_DFL)
        os.kill(os.getpid(), signal.SIGINT)
    return 2


def _run(given, terminal):
    if any(given.get(key) for key in ("help", "version", "manual", "completion", "type_list")):
        from . import pages

        terminal.output(pages.page(given).encode())
        return 0
    paths = given.pop("paths")
    if given.get("mcp"):
        from .mcp import service

        return service.main(given)
    if 0 in terminal.closed and STANDARD_INPUT in (*paths, *given.get("pattern_files", ())):
        raise OSError(errno.EBADF, os.strerror(errno.EBADF), "standard input")
    if "pattern_files" in given:
        _read_patterns(given)
    if os.environ.get("NO_COLOR") and given.get("color", "auto") == "auto":
        given["color"] = "never"
    is_past = any(key in given for key in PAST)
    if not paths and not is_past and not given.get("recursive") and not given.get("files") and not given.get("order") and _is_readable():
        paths = [STANDARD_INPUT]
    statuses = []
    groups = _past(given, paths) if is_past else _groups(given, paths, statuses, terminal)
    is_single = len(paths) == 1 and bool(groups) and not groups[0][1][0][2]
    while groups:
        root, group = groups.pop(0)
        try:
            statuses.append(_ask(given, root, group, terminal, is_single, not groups))
        except Elsewhere as elsewhere:
            groups[:0] = [(path[1] if ascii(path[1]) in str(elsewhere) else root, [path]) for path in group]
    if given.get("quiet") and 0 in statuses:
        return 0
    return 2 if 2 in statuses else min(statuses, default=2)


def _past(given, paths):
    """The paths as one group of the repository that the working folder is in. They need not be there now."""
    here = os.getcwd()
    start = os.path.realpath(given["root"]) if "root" in given else here
    top = places.top_of(start)
    if top is None and all(os.path.exists(os.path.join(start, part)) for part in ("HEAD", "objects", "refs")):
        top, given["no_server"] = start, True  # a repository without files that could be kept
    if top is None:
        raise arguments.Refused(f"{start} is not in a git repository, which --at, --changed and --diff need")
    return [(top, [(typed, os.path.abspath(os.path.join(here, typed)), True) for typed in paths or [""]])]


def _read_patterns(given):
    """The patterns of files, one a line."""
    for name in given.pop("pattern_files"):
        with open(0 if name == STANDARD_INPUT else name, "rb", closefd=name != STANDARD_INPUT) as file:
            lines = file.read().split(b"\n")
        given.setdefault("patterns", []).extend(os.fsdecode(line.removesuffix(b"\r")) for line in lines[: -1 if lines[-1] == b"" else None])
    given.setdefault("patterns", [])


def _is_readable():
    """Whether standard input has something to search: a file, a pipe or a socket, as for rg."""
    try:
        return os.fstat(0).st_mode & 0o170000 in (0o100000, 0o010000, 0o140000)
    except OSError:
        return False


def _groups(given, paths, statuses, terminal):
    """The paths in their order, as they were typed and as they are, with the tree of each; those that follow one another in the same
    tree are one group. A path that is not there is named, and is an error."""
    here = os.getcwd()
    root = os.path.realpath(given["root"]) if "root" in given else places.top_of(here) or here
    if "root" in given and not os.path.isdir(root):
        raise arguments.Refused(f"--root {given['root']}: there is no such folder")
    groups = []
    nothing = [None] if "root" not in given or places.is_below(here, root) else [given["root"]]
    for typed in paths or nothing:
        if typed == STANDARD_INPUT:
            groups.append((None, [(typed, typed, False)]))
            continue
        is_there = typed is None or bool(typed) and os.path.exists(typed)
        path = here if typed is None else os.path.join(here, typed)
        typed = typed or ""
        real = os.path.realpath(path)
        if not is_there:
            statuses.append(2)
            if not given.get("no_messages"):
                terminal.say(f"{typed}: No such file or directory")
            continue
        is_folder = os.path.isdir(path)
        if not is_folder and not os.path.isfile(path):
            # a pipe of this process, such as <(command)
            groups.append((None, [(typed, typed, False)]))
            continue
        if "root" in given and is_folder and not places.is_below(real, root):
            raise arguments.Refused(f"{typed} is not below {given['root']}, which --root says: leave out one of them")
        if is_folder and given.get("apart"):
            tree = real
        else:
            tree = root if places.is_below(real, root) or not is_folder else places.top_of(real) or real
        if not groups or groups[-1][0] != tree:
            groups.append((tree, []))
        groups[-1][1].append((typed, real, is_folder))
    return groups


def _ask(given, root, group, terminal, is_single, is_last):
    """Asks the server of a tree, and gives the status. What the call has found so far goes from one tree to the next."""
    is_apart = bool(given.get("apart")) and any(is_folder for _, _, is_folder in group)
    request = {
        "given": given,
        "token": places.token(),
        "root": root,
        "mode": "all" * bool(given.get("no_ignore")) + "follow" * bool(given.get("follow")) + "apart" * is_apart,
        "paths": group,
        "here": os.getcwd(),
        "is_single": is_single,
        "is_last": is_last,
        "carried": terminal.carried,
        "terminal": terminal.is_terminal,
        "progress": terminal.shows_progress,
    }
    if given.get("order") == "socket":
        from . import announcing

        return announcing.announce(root, request["mode"], terminal)
    if root is None or given.get("no_server"):
        return _alone(request, terminal)
    try:
        return _ask_at(places.socket_of(places.folder_of_user(), root, request["mode"]), request, terminal)
    except arguments.Refused as refused:
        terminal.say(refused)
    return _alone(request, terminal)


def _ask_at(path, request, terminal):
    """Asks the server with this socket, which is started if need be."""
    given, root = request["given"], request["root"]
    line = ascii(request).encode() + b"\n"
    for _ in range(_TRIES):
        connection = connect(path) or (None if given.get("order") else start(path, root, request["mode"], terminal))
        if connection is None:
            break
        try:
            status = _talk(connection, line, terminal)
        except Lost as lost:
            if lost.has_output:
                terminal.say("the server has ended, and the answer is not whole")
                return 2
            status = None
        finally:
            connection.close()
        if status is not None:
            return status
    if given.get("order"):
        terminal.say(f"no server keeps {root}")
        return 1
    return _alone(request, terminal)


def connect(path):
    """A connection to the server, or None if there is none."""
    connection = socket.socket(socket.AF_UNIX, socket.SOCK_STREAM)
    try:
        connection.connect(path)
        return connection
    except (FileNotFoundError, ConnectionRefusedError):
        connection.close()
        return None
    except OSError as error:
        connection.close()
        if "too long" in str(error):
            raise arguments.Refused(f"{path} is too long for a socket, so no server is used: shorten XDG_RUNTIME_DIR") from None
        raise


def start(path, root, mode, terminal):
    """A connection to a new server, or None if none starts: then the call goes on without, and says why."""
    from . import starting

    reason = starting.start(path, root, mode)
    connection = connect(path)
    if connection is None:
        terminal.say(f"there is no server, so the files are read for this call alone: {reason or 'it has ended at once'}")
    return connection


def _alone(request, terminal):
    """Answers without a server."""
    from . import alone

    return alone.answer(request, terminal)


def _talk(connection, line, terminal):
    """Sends a request, and passes on what comes. The status; None if the server is one for another version."""
    began = terminal.has_output
    terminal.has_output = False
    try:
        return _frames(connection, line, terminal)
    except (BrokenPipeError, ConnectionResetError, EOFError):
        raise Lost(terminal.has_output) from None
    finally:
        terminal.has_output |= began


def _frames(connection, line, terminal):
    connection.sendall(line, socket.MSG_NOSIGNAL)
    kind, left, data = b"", 0, b""
    while True:
        while left == 0 and len(data) >= HEAD:
            kind, left = data[:1], int.from_bytes(data[1:HEAD], "big")
            data = data[HEAD:]
        if kind == OUTPUT and left and data:
            # what is there, without waiting for the rest of the frame
            terminal.output(data[:left])
            data, left = data[left:], max(left - len(data), 0)
            continue
        if kind and kind != OUTPUT and len(data) >= left:
            part, data, left = data[:left], data[left:], 0
            if kind == STATUS:
                terminal.end_progress()
                status, _, carried = part.partition(b" ")
                terminal.carried = carried.decode() or terminal.carried
                return int(status)
            if kind == DIFFERS:
                return None
            if kind == ELSEWHERE:
                raise Elsewhere(part.decode())
            (terminal.error if kind == ERROR else terminal.progress)(part)
            kind = b""
            continue
        more = connection.recv(_BLOCK)
        if not more:
            raise EOFError
        data += more
