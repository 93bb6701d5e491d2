"""Judges by plain conditions whether the program may write a text for a script, for some timing of its readers.

The conditions are those of docs/SCRIPT.md, written by hand and apart from the program's own definitions: every item is accepted,
or refused with the first reason that fits, in its place; each search has one entry. It is an answer at a version that was published
in the run, no older than what its reader knew, and with exactly the lines that match, in order of names and lines; or the search is
refused, `cancelled` by a cancel that finds it open, and `too slow` only where searches have a limit of time. A status shows what is so
in its place.

What a search asks for, and its answer for some documents, is in searches.py, and what a pattern matches is in trees.py. A caller that knows
a text of the script gives it: its searches must then have the same entries, and only the order of the entries is judged. A pattern that takes
too long here can be in a table, with another that finds the same lines.
"""

import collections
import os
import re

from built import TOP
from judge import searches

# How long names, bodies and lines may be, and what this is if nothing is asked for.
Lengths = collections.namedtuple("Lengths", "name body line")
USUAL = Lengths(255, 1_048_576, 16_384)
# While so many searches are open, no item is taken.
MOST_OPEN = 1_024

HEAD = re.compile(rb"search (\d+) version (\d+) (?:lines|names) (\d+)(?: and more)?(?: rows (\d+))?( candidates (\d+) of (\d+))?( waited \d+ worked \d+ by [a-z]+)?\n")
# What an answer says of its times and its way, where it must.
TIMES = re.compile(rb" waited (0|[1-9]\d*) worked (0|[1-9]\d*) by (engine|simulation|matcher)")
REFUSED = re.compile(rb"(search|line) (0|[1-9]\d*) refused: ([^\n]*)\n")
STATUS = re.compile(rb"line (\d+) status version \d+ documents \d+ bytes \d+ accepted \d+ of \d+ open (\d+)\n")

# The refusals that a search may have once it is open, and not for its patterns.
GIVEN_UP = ("cancelled", "too slow", "out of memory")


# An entry of a text: what it is for, its number, the reason if it is a refusal, the version if it is an answer, and all its bytes. Only that
# of a status is for a line and has no reason.
Entry = collections.namedtuple("Entry", "what number reason version text")


class Illegal(Exception):
    """Why the program may not write a text."""


class Files:
    """The files that a load may find from a folder."""

    def __init__(self, folder=TOP):
        self.folder = folder

    def __contains__(self, path):
        return self.get(path) is not None

    def get(self, path):
        try:
            path = os.path.join(self.folder, path.decode())
            if not os.path.isfile(path):
                return None
            with open(path, "rb") as file:
                return file.read()
        except (OSError, ValueError):
            return None


class Item:
    """A line of a script that asks for something, with its words. A search has its number, and its line as its word; anything else has the
    number of its line. A cancel has the number of a search, and whether one of that number was asked before it."""

    def __init__(self, kind, number, **words):
        self.kind, self.number, self.words = kind, number, words
        self.known = None  # the entry of a search, where a text of the script is known

    def is_search(self):
        return self.kind == "search"

    def cancels(self, number):
        return self.kind == "cancel" and self.words["search"] == number


def number_of(digits):
    """The number that digits spell, or some number above all searches if there are very many digits."""
    return int(digits.lstrip(b"0")[:20] or b"0")


def items_of(script):
    """The items of a script."""
    items, at, counted, line_number, asked = [], 0, 0, 1, 0
    while at < len(script):
        line_number += script.count(b"\n", counted, at)
        counted, end = at, script.find(b"\n", at)
        line, feed = (script[at:end], b"\n") if end >= 0 else (script[at:], b"")
        at += len(line) + len(feed)
        word, space, rest = line.partition(b" ")
        if line == b"" or line.startswith(b"#"):
            continue
        if line in (b"publish", b"sync", b"status"):
            items.append(Item(line.decode(), line_number))
        elif word == b"cancel" and re.fullmatch(rb"[0-9]+", rest):
            number = number_of(rest)
            items.append(Item("cancel", line_number, search=number, is_asked=0 < number <= asked))
        elif searches.is_search(line):
            asked += 1
            items.append(Item("search", asked, line=line))
        elif word == b"load" and re.fullmatch(rb"[^ ]* .+", rest):
            name, _, path = rest.partition(b" ")
            items.append(Item("load", line_number, name=name, path=path))
        elif word == b"remove" and space:
            items.append(Item("remove", line_number, name=rest))
        elif word == b"removeunder" and space:
            items.append(Item("removeunder", line_number, name=rest))
        elif word == b"copyunder" and b" " in rest:
            name, _, other = rest.partition(b" ")
            items.append(Item("copyunder", line_number, name=name, other=other))
        elif word == b"put":
            form = re.fullmatch(rb"(.*) ([0-9]{1,9})", rest)
            reason, end = "bad put", at
            if form:
                end = at + int(form[2])
                reason = "truncated" if not feed or end > len(script) else None if script[end : end + 1] in (b"", b"\n") else "body not closed"
            items.append(Item("bad", line_number, reason=reason) if reason else Item("put", line_number, name=form[1], body=script[at:end]))
            if reason:
                break
            at = end + 1
        else:
            items.append(Item("bad", line_number, reason="bad line"))
    return items


def copies_under(documents, beginning, other):
    """What a copyunder puts: the documents whose names have this beginning, with the other one in its place."""
    return {other + name[len(beginning) :]: body for name, body in documents.items() if name.startswith(beginning)}


def rows_of(head, asked):
    """How many lines follow the header of an answer. That of a `find` with -q counts lines that are not shown."""
    item = asked.get(int(head[1]))
    if item and not fault_of_search(item) and searches.read(item.words["line"]).view == b"-q":
        return 0
    return int(head[4] or head[3])


def entries_of(text, items):
    """The entries of a text in order. The items are those of its script."""
    return list(each_entry(text, items))


def each_entry(text, items):
    """The same, one after the other."""
    at, asked = 0, {item.number: item for item in items if item.is_search()}
    while at < len(text):
        refused, head, status = REFUSED.match(text, at), HEAD.match(text, at), STATUS.match(text, at)
        if status:
            end = status.end()
            yield Entry("line", int(status[1]), None, None, text[at:end])
        elif refused:
            end = refused.end()
            yield Entry(refused[1].decode(), int(refused[2]), refused[3].decode("latin-1"), None, text[at:end])
        elif head:
            end = head.end()
            for _ in range(rows_of(head, asked)):
                end = text.find(b"\n", end) + 1
                if end == 0:
                    raise Illegal("an answer ends before its last line")
            yield Entry("search", int(head[1]), None, int(head[2]), text[at:end])
        else:
            raise Illegal("no entry begins as %r" % text[at : at + 60])
        at = end


def is_hit(entry):
    """Whether an entry is an answer that found something."""
    return entry.version is not None and int(HEAD.match(entry.text)[3]) > 0


def fault_of_name(name, most):
    if not 1 <= len(name) <= most:
        return "name too long" if name else "name empty"
    return None if all(33 <= byte <= 126 or byte >= 128 for byte in name) else "bad byte in name"


def fault_of_body(body, lengths):
    if len(body) > lengths.body:
        return "body too long"
    if 0 in body:
        return "byte 0 in body"
    return "line too long" if any(len(line) > lengths.line for line in body.split(b"\n")) else None


class Run:
    """What is known of a run at one of its items: what is accepted so far, and which versions were published and where."""

    def __init__(self, files, max_commands, scarce, timed, lengths):
        self.files, self.max_commands, self.scarce, self.timed, self.lengths = files, max_commands, scarce, timed, lengths
        self.states = [{}]  # the documents after each number of accepted commands
        self.published = []  # pairs of a place among the items and a version
        self.answers = {}  # what searches find, by their lines and versions

    def reasons(self, item):
        """The reasons of which this item, which is not a search, must have one; None means that it is not refused."""
        kind, words, now = item.kind, item.words, self.states[-1]
        if kind in ("bad", "sync", "status"):
            return [words.get("reason")]
        if kind == "cancel":
            return [None if words["is_asked"] else "no such search"]
        fault = None if kind == "publish" else fault_of_name(words["name"], self.lengths.name)
        scarce = ["out of memory"] if self.scarce and not fault else []
        if kind == "copyunder":
            fault = fault or fault_of_name(words["other"], self.lengths.name)
        if kind == "load":
            fault = fault or (None if words["path"] in self.files else "cannot load")
            words["body"] = self.files.get(words["path"])
        if kind in ("put", "load"):
            fault = fault or fault_of_body(words["body"], self.lengths)
        if kind == "remove" and not fault and words["name"] not in now:
            fault = "no such file"
        if kind == "removeunder" and not fault and not any(name.startswith(words["name"]) for name in now):
            fault = "no such file"
        if kind == "copyunder" and not fault:
            copies = copies_under(now, words["name"], words["other"])
            if not copies:
                fault = "no such file"
            elif any(fault_of_name(name, self.lengths.name) for name in copies):
                fault = "name too long"
        if kind != "publish" and not fault and len(self.states) > self.max_commands:
            fault = "full"
        return [fault] + scarce

    def carry_out(self, place, item):
        """What an accepted item changes."""
        if item.kind == "publish":
            self.published.append((place, len(self.states) - 1))
        elif item.kind in ("put", "load", "remove"):
            after = dict(self.states[-1])
            after.pop(item.words["name"], None)
            if item.kind != "remove":
                after[item.words["name"]] = item.words["body"]
            self.states.append(after)
        elif item.kind == "removeunder":
            self.states.append({name: body for name, body in self.states[-1].items() if not name.startswith(item.words["name"])})
        elif item.kind == "copyunder":
            before = self.states[-1]
            self.states.append({**before, **copies_under(before, item.words["name"], item.words["other"])})

    def last_published(self, place):
        """The version that the last publish before a place published."""
        return max((version for at, version in self.published if at < place), default=0)

    def versions(self, place, end):
        """The versions that a search at this place may be answered at, if its answer comes before the place `end`."""
        least, greatest = self.last_published(place), self.last_published(end)
        return {version for version in [0] + [version for _, version in self.published] if least <= version <= greatest}

    def first_published(self, version):
        """The place of the first publish of a version, or -1 for version 0, which needs none."""
        return min(at for at, published in self.published if published == version) if version else -1

    def answer(self, line, version):
        """What a search finds at a version: the words of its header, and its rows."""
        if (line, version) not in self.answers:
            self.answers[line, version] = searches.read(line).answer(self.states[version])
        return self.answers[line, version]

    def may_give_up(self, item, reason):
        """Whether a search whose patterns have no fault may be refused for this reason, if no cancel refuses it."""
        is_known = bool(item.known) and item.known.reason == reason
        if reason == "too slow":
            return self.timed and (is_known or not item.known)
        return reason == "out of memory" and (self.scarce or is_known)

    def shown_open(self, place, item, entry):
        """How many searches the entry of a status shows as open. It must show what is so in all else: the version that was published last,
        its documents and their bytes, and the commands, published or not."""
        version = self.last_published(place)
        documents = self.states[version].values()
        counts = version, len(documents), sum(map(len, documents)), len(self.states) - 1, self.max_commands
        begin = b"line %d status version %d documents %d bytes %d accepted %d of %d open " % (item.number, *counts)
        found = entry and STATUS.fullmatch(entry.text)
        if not found or entry.text != begin + b"%d\n" % int(found[2]):
            raise Illegal("line %d, a status, has %r, and should have %r" % (item.number, entry and entry.text, begin))
        return int(found[2])


def fault_of_search(item):
    """The reason for which a search must be refused for its words or its patterns, or None."""
    try:
        searches.read(item.words["line"])
    except searches.Refused as refused:
        return str(refused)
    return None


def check_answer(item, entry, run, stats, times):
    if item.known:
        if entry.text != item.known.text:
            raise Illegal("search %d is answered by %r, and should be by %r" % (item.number, entry.text[:300], item.known.text[:300]))
        return
    found, rows = run.answer(item.words["line"], entry.version)
    counts = HEAD.match(entry.text)
    candidates = counts[5] if stats else b""
    if stats and not (counts[5] and are_candidates(item, run.states[entry.version], int(counts[6]), int(counts[7]))):
        raise Illegal("search %d counts other documents" % item.number)
    took = counts[8] if times else b""
    if times and not (counts[8] and TIMES.fullmatch(counts[8])):
        raise Illegal("search %d has no times" % item.number)
    wanted = b"search %d version %d %s%s%s\n%s" % (item.number, entry.version, found, candidates, took, rows)
    if entry.text != wanted:
        begin = os.path.commonprefix([entry.text, wanted]).rfind(b"\n") + 1
        line = entry.text.count(b"\n", 0, begin) + 1
        shown = line, entry.text[begin : begin + 300], wanted[begin : begin + 300]
        raise Illegal("search %d is answered at version %d, and from line %d by %r, and should be by %r" % (item.number, entry.version, *shown))


def are_candidates(item, documents, candidates, count):
    """Whether an answer may count so many candidates of so many documents. Each document with a match is one, whatever its name; and where
    lines without a match are looked for, all are."""
    search = searches.read(item.words["line"])
    matching = [name for name in documents if search.test.lines_with_match(documents[name])]
    return count == len(documents) and (count if search.inverts else len(matching)) <= candidates <= count


def reason_of_search(item):
    """The reason for which a search must be refused when it is asked, or None."""
    if item.known:
        return item.known.reason if item.known.reason not in GIVEN_UP else None
    return fault_of_search(item)


def items_with_entries(script, known, table):
    """The items of a script, and their places by what entries name them by. If a text is known, each search has its entry."""
    items = items_of(script)
    places = {("search" if item.is_search() else "line", item.number): place for place, item in enumerate(items)}
    for item in items:
        for pattern, other in table.items():
            if item.is_search() and item.words["line"].endswith(b" " + pattern):
                item.words["line"] = item.words["line"].removesuffix(pattern) + other
    for entry in entries_of(known or b"", items):
        if entry.what == "search":
            items[places[entry[:2]]].known = entry
    return items, places


def pair(items, text):
    """The entry of each item, or None if it has none."""
    places = {("search" if item.is_search() else "line", item.number): place for place, item in enumerate(items)}
    entries, last = [None] * len(items), -1
    for entry in entries_of(text, items):
        place = places.get(entry[:2])
        if place is None or place <= last:
            raise Illegal("the entry %r is out of its place" % entry.text[:60])
        entries[place], last = entry, place
    return entries


def check(script, text, readers=2, max_commands=1_000_000, stats=False, times=False, files=None, table=None, scarce=False, known=None, timed=False, lengths=USUAL):
    """Returns the status with which the run must end if the text is legal, and raises Illegal if it is not. `files` are the
    bytes by their paths, `table` patterns that take too long here, each with another that finds the same lines.
    Where memory is scarce, it may be refused to any item, and any reader may answer a search. `known` is a text whose entries the
    searches must have. `timed` is whether searches have a limit of time."""
    items = items_with_entries(script, known, table or {})[0]
    entries = pair(items, text)
    run, statuses = Run(files or {}, max_commands, scarce, timed, lengths), []
    for place, (item, entry) in enumerate(zip(items, entries)):
        if item.is_search():
            continue
        if item.kind == "status":
            statuses.append((place, run.shown_open(place, item, entry)))
            continue
        reason = entry.reason if entry else None
        if reason not in run.reasons(item) or entry and not reason:
            raise Illegal("line %d, a %s, is %s, and should be %s" % (item.number, item.kind, reason or "accepted", " or ".join(map(str, run.reasons(item)))))
        if reason is None:
            run.carry_out(place, item)
    shares, spans, ends = collections.defaultdict(lambda: Shares(0 if scarce else readers)), [], ends_of(items, readers)
    for place, (item, entry) in enumerate(zip(items, entries)):
        if not item.is_search():
            continue
        if entry is None:
            raise Illegal("search %d has no entry" % item.number)
        fault, reason, (end, is_cancel) = reason_of_search(item), entry.reason, ends[place]
        if fault:
            if reason != fault and not (scarce and reason == "out of memory"):
                raise Illegal("search %d is refused by %r, and should be by %r" % (item.number, reason, fault))
        elif reason == "cancelled" and is_cancel:
            spans.append((place, end, end))
        elif reason is not None:
            if not run.may_give_up(item, reason):
                raise Illegal("search %d is refused by %r" % (item.number, reason))
            spans.append((place, place, end))
        else:
            if entry.version not in run.versions(place, end):
                raise Illegal("search %d is answered at version %d" % (item.number, entry.version))
            shares[searches.read(item.words["line"]).lane].take(item.number, entry.version)
            check_answer(item, entry, run, stats, times)
            spans.append((place, max(place, run.first_published(entry.version)), end))
    check_open(statuses, spans)
    if any(entry and entry.reason for entry in entries):
        return 2
    return 0 if any(entry and is_hit(entry) for entry in entries) else 1


def ends_of(items, readers):
    """For each item, if it is a search, the place before which it has its entry, and whether a cancel is there, which refuses it if it has none.
    It is that of the first cancel of the search or sync after it, or the end. Without readers it is the search's own."""
    if readers == 0:
        return [(place, False) for place in range(len(items))]
    ends, cancels, sync = [], {}, len(items)
    for place in reversed(range(len(items))):
        item = items[place]
        if item.kind == "sync":
            sync = place
        elif item.kind == "cancel":
            cancels[item.words["search"]] = place
        cancel = cancels.get(item.number, sync)
        ends.append((min(cancel, sync), cancel < sync))
    return ends[::-1]


def check_open(statuses, spans):
    """Raises Illegal unless the searches can have got their entries at such times that each status shows how many were open. A status
    is given as its place and that number; a search as its place, the place after which it got its entry, and the one by which it did. If
    several can have got theirs before a status, those did that had to do so first."""
    spans, waiting = sorted(spans), []
    for place, shown in statuses:
        while spans and spans[0][0] < place:
            _, first, last = spans.pop(0)
            waiting.append((last, first))
        can = sorted(span for span in waiting if span[1] < place)
        must = sum(last < place for last, _ in can)
        closed = len(waiting) - shown
        if not must <= closed <= len(can) or shown >= MOST_OPEN:
            counts = shown, len(waiting), must, len(can)
            raise Illegal("a status shows %d open searches of %d, of which %d to %d had got their entries" % counts)
        for span in can[:closed]:
            waiting.remove(span)


class Shares:
    """The answers of each of so many readers in a lane. The text does not show which reader answers a search. But the versions of each reader
    do not fall, and a run's readers take the searches of a lane in their order. So there must be a way to share out the answers: each to the reader
    that was answered last at the latest version that is not later. Without readers, nothing is asked here."""

    def __init__(self, readers):
        self.readers, self.lasts = readers, []

    def take(self, number, version):
        if self.readers == 0:
            return
        earlier = [last for last in self.lasts if last <= version]
        if earlier:
            self.lasts.remove(max(earlier))
        elif len(self.lasts) == self.readers:
            raise Illegal("search %d is answered at version %d, and every reader was answered at a later one" % (number, version))
        self.lasts.append(version)


class Steps:
    """A session, as far as its text shows. It takes items only when an entry, or the end, asks for it: nothing else
    forbids that they were taken earlier. So it is legal if any order of steps is. A cancel of a search that is open has its entry when
    it is taken, so it is taken only for that entry."""

    def __init__(self, items, run, readers):
        self.items, self.run, self.readers = items, run, readers
        self.at = 0  # the next item
        self.open = {}  # the open searches by their numbers, each with its item and the least version that it may get

    def may_take(self, item):
        """With no readers an item waits until nothing is open, and a sync always does. No item is taken while very many are open."""
        if self.open and (self.readers == 0 or item.kind == "sync") or len(self.open) >= MOST_OPEN:
            raise Illegal("the %s %d is taken while search %d is open, of %d" % (item.kind, item.number, min(self.open), len(self.open)))

    def take(self):
        """Takes the next item, which writes nothing: a search is open then, and anything else is accepted."""
        item = self.items[self.at]
        self.may_take(item)
        if item.is_search():
            if reason_of_search(item):
                raise Illegal("search %d is not refused" % item.number)
            self.open[item.number] = item, self.run.last_published(self.at)
        elif item.kind == "status":
            raise Illegal("line %d, a status, has no entry" % item.number)
        elif item.kind == "cancel" and item.words["search"] in self.open:
            raise Illegal("line %d cancels search %d, which is open and is not refused" % (item.number, item.words["search"]))
        else:
            if None not in self.run.reasons(item):
                raise Illegal("line %d, a %s, is accepted, and should be %s" % (item.number, item.kind, self.run.reasons(item)[0]))
            self.run.carry_out(self.at, item)
        self.at += 1

    def take_before(self, place):
        if place < self.at:
            raise Illegal("the entry of item %d comes too late" % (place + 1))
        while self.at < place:
            self.take()

    def take_search(self, place):
        """Takes the search at this place, unless it is open."""
        if self.items[place].number not in self.open:
            self.take_before(place)
            self.take()

    def refuse(self, place, reason):
        """Takes an item that is refused at once."""
        self.take_before(place)
        item = self.items[place]
        self.may_take(item)
        reasons = [reason_of_search(item)] if item.is_search() else self.run.reasons(item)
        if reason not in reasons and not (item.is_search() and reason == "out of memory" and self.run.may_give_up(item, reason)):
            raise Illegal("%s %d is refused by %r, and should be by %r" % (item.kind, item.number, reason, reasons[0]))
        self.at += 1

    def give_up(self, place, reason):
        """Refuses a search that is open: by the next cancel of it, which is taken now, or for a reason of its own."""
        self.take_search(place)
        item = self.items[place]
        if reason == "cancelled":
            cancel = next((at for at in range(self.at, len(self.items)) if self.items[at].cancels(item.number)), None)
            if cancel is None:
                raise Illegal("search %d is cancelled, and no cancel of it is left" % item.number)
            self.take_before(cancel)
            self.may_take(self.items[cancel])
            self.at += 1
        elif not self.run.may_give_up(item, reason):
            raise Illegal("search %d is refused by %r after it was taken" % (item.number, reason))
        del self.open[item.number]

    def show(self, place, entry):
        """Takes a status, which shows what is so now."""
        self.take_before(place)
        item = self.items[place]
        self.may_take(item)
        if item.kind != "status" or self.run.shown_open(place, item, entry) != len(self.open):
            raise Illegal("line %d, a %s, has %r, and %d searches are open" % (item.number, item.kind, entry.text, len(self.open)))
        self.at += 1

    def answer(self, place, entry, stats, times):
        """Answers a search at a version that is published by now, and not older than when it was asked. It may be older than an
        answer before it of its only reader: then it was taken first, and stopped for the other."""
        number, version = self.items[place].number, entry.version
        self.take_search(place)
        item, least = self.open[number]
        while version and version not in (published for _, published in self.run.published):
            if self.at == len(self.items):
                raise Illegal("search %d is answered at version %d" % (number, version))
            self.take()
        if version < least:
            raise Illegal("search %d is answered at version %d, and should be at %d or later" % (number, version, least))
        check_answer(item, entry, self.run, stats, times)
        del self.open[number]

    def write(self, place, entry, stats, times):
        """Takes the steps that lead to an entry."""
        what, number, reason, version, _ = entry
        if version is not None:
            self.answer(place, entry, stats, times)
        elif reason is None:
            self.show(place, entry)
        elif what == "search" and (number in self.open or reason in ("cancelled", "too slow")):
            self.give_up(place, reason)
        else:
            self.refuse(place, reason)


def check_session(script, text, readers=2, max_commands=1_000_000, stats=False, times=False, files=None, table=None, scarce=False, known=None, timed=False, lengths=USUAL, whole=True):
    """As `check`, for a session: each answer is written as soon as it is there, and only the other entries keep the order of
    their items. An answer has a version that is published by then. If the text is not whole, since the session ended early, searches
    may still be open and items left."""
    items, places = items_with_entries(script, known, table or {})
    steps, refused, hit = Steps(items, Run(files or {}, max_commands, scarce, timed, lengths), readers), False, False
    for entry in entries_of(text, items):
        place = places.get(entry[:2])
        if place is None:
            raise Illegal("there is no item for the entry %r" % entry.text[:60])
        steps.write(place, entry, stats, times)
        refused = refused or entry.reason is not None
        hit = hit or is_hit(entry)
    if not whole:
        return 2
    steps.take_before(len(items))
    if steps.open:
        raise Illegal("search %d has no answer" % min(steps.open))
    return 2 if refused else 0 if hit else 1


def fault_of(script, text, status, session=False, **options):
    """Why a run, or a session, may not have written this text and ended with this status, or None."""
    try:
        wanted = check_session(script, text, **options) if session else check(script, text, **options)
    except Illegal as illegal:
        return str(illegal)
    return None if status == wanted else "the status is %d, and should be %d" % (status, wanted)
