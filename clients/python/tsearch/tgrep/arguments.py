"""Reads the words of a call by the table of options. `client` imports this at each call, so it imports nothing that is slow."""

from .options import REFUSED, by_word


class Refused(Exception):
    """A word is refused. The text says why, and what to write instead."""


def read(words):
    """What is given: a dictionary with the value of each key of the table that is set, with the patterns in `patterns` and the paths
    in `paths`. Options may come after paths, and `--` ends them. `Refused` for an option that is not known, lacks what follows it, or
    has something wrong there."""
    table, given, others = by_word(), {}, []
    at = 0
    while at < len(words):
        word = words[at]
        at += 1
        if word == "--":
            others += words[at:]
            break
        if word.startswith("--"):
            at = _long(table, given, word, words, at)
        elif word.startswith("-") and word != "-":
            at = _short(table, given, word, words, at)
        else:
            others.append(word)
    has_patterns = any(key in given for key in ("patterns", "pattern_files"))
    if not (has_patterns or others or _needs_none(given)):
        raise Refused("give a pattern (tgrep --help)")
    if not has_patterns and others and not _needs_none(given):
        given["patterns"] = [others.pop(0)]
    given["paths"] = others
    _settle(given)
    return given


def _needs_none(given):
    """Whether no pattern is among the words."""
    return any(given.get(key) for key in ("files", "type_list", "order", "mcp", "completion", "manual", "version", "help"))


def _long(table, given, word, words, at):
    name, is_joined, joined = word.partition("=")
    if name not in table:
        raise Refused(_unknown(name))
    key, metavar, value = table[name]
    if metavar and metavar[0] == "[":
        # what follows may be left out, and is never a word of its own
        given[key] = joined if is_joined else value
        return at
    if metavar is None:
        if is_joined:
            raise Refused(f"{name} takes nothing behind a =")
        _set(given, table[name], name, None)
        return at
    if not is_joined:
        if at == len(words):
            raise Refused(f"{name} needs {metavar}")
        joined, at = words[at], at + 1
    _set(given, table[name], name, joined)
    return at


def _short(table, given, word, words, at):
    """Reads letters that share a -, of which the last may be followed by what it needs; `-3` is `-C 3`."""
    if word[1:].isdecimal() and word != "-0":
        given["context"] = int(word[1:])
        return at
    letters = word[1:]
    while letters:
        name, letters = "-" + letters[0], letters[1:]
        if name not in table:
            raise Refused(_unknown(name))
        _, metavar, _ = table[name]
        if metavar is None:
            _set(given, table[name], name, None)
            continue
        if not letters:
            if at == len(words):
                raise Refused(f"{name} needs {metavar}")
            letters, at = words[at], at + 1
        _set(given, table[name], name, letters)
        letters = ""
    return at


def _set(given, row, name, text):
    key, metavar, value = row
    if metavar is None:
        text = value
    elif value == "number":
        if not (text.isascii() and text.isdecimal()):
            raise Refused(f"{name} needs a number, and {text} is not one")
        text = int(text)
    elif value == "size":
        text = _size(name, text)
    elif isinstance(value, tuple) and text not in value:
        if name.startswith("--colo"):
            raise Refused(f"{name} {text}: write {name}=auto, {name}=always or {name}=never")
        raise Refused(f"{name} {text}: write {' or '.join(name + ' ' + one for one in value)}")
    if key is None:
        return
    if value == "list":
        given.setdefault(key, []).append(text)
    else:
        given[key] = text
    if key in ("globs", "iglobs"):
        given.setdefault("all_globs", []).append((text, key == "iglobs"))


def _size(name, text):
    digits, shift = text.rstrip("KMG"), "KMG".find(text[-1:]) + 1 if text else 0
    if not (digits.isascii() and digits.isdecimal() and len(digits) >= len(text) - 1):
        raise Refused(f"{name} needs a size such as 5000, 50K, 80M or 1G, and {text} is not one")
    return int(digits) << 10 * shift


def _unknown(name):
    instead = REFUSED.get(name)
    return f"{name} is refused: {instead}" if instead else f"there is no option {name} (tgrep --help)"


def _settle(given):
    """What one option means for others."""
    if sum(key in given for key in ("at", "changed", "diff")) > 1:
        raise Refused("give one of --at, --changed and --diff")
    if given.get("run_filters") and "changed" not in given:
        raise Refused("--run-filters goes with --changed")
    if given.get("mcp") and given["paths"]:
        raise Refused("--mcp takes no PATH: the client says what is searched, or --root")
    if given.get("pretty"):
        given.update({"color": "always", "heading": True, "line_number": True})
    if given.get("color") == "ansi":
        given["color"] = "always"
    if given.get("vimgrep"):
        given.update({"heading": False, "column": True})
    if given.get("passthru"):
        for key in ("after", "before", "context", "max_count"):
            given.pop(key, None)
    if given.get("limit") == 0:
        raise Refused("--limit is at least 1; -q shows nothing, and its status tells")
    for option, key in ("-A", "after"), ("-B", "before"), ("-C", "context"):
        if given.get(key, 0) > 1000:
            raise Refused(f"{option} is at most 1000")
