"""Cuts the module of a program into parts that can be compiled side by side.

The module is read as LLVM's text. A part has some of the functions that `main` reaches, the static data that they use, copies of
short functions of other parts, which the compiler may put in the place of their calls, and declarations of the rest.
"""

import re

from toolchain import Unexpected

# Functions of at most so many lines are copied.
SHORT = 150
MAIN = "@main"
NAME = re.compile(r'@"[^"]*"|@[-\w.$]+')
FUNCTION = re.compile(r"^define (?:internal )?([^\n]*) \{\n.*?^\}\n", re.MULTILINE | re.DOTALL)
DATA = re.compile(r"^@[-\w.$]+ = private (unnamed_addr )?(constant|global) (\[[^\]]*\]|<\{[^}]*\}>|\S+) .*\n", re.MULTILINE)


class Item:
    """A function or static data: its text without its linkage, its name, and the names that it uses."""

    def __init__(self, found):
        self.text = re.sub(r"^define (internal )?|(?<= = )private ", "", found.group())
        self.name, *self.uses = dict.fromkeys(NAME.findall(self.text))


class Function(Item):
    """A function. `part` is the number of the part that has it, if one does."""

    def __init__(self, found):
        super().__init__(found)
        self.head, self.lines, self.part = found.group(1), self.text.count("\n"), None
        self.is_copied = self.lines <= SHORT and self.name != MAIN

    def text_in(self, part, is_shared):
        if self.part == part:
            return f"define {'' if self.name == MAIN else 'hidden ' if is_shared else 'internal '}{self.text}"
        return f"define available_externally hidden {self.text}" if self.is_copied else f"declare hidden {self.head}\n"


class Data(Item):
    """Static data. Parts may have copies of it, unless it has an address of its own."""

    is_copied, part = True, 0

    def __init__(self, found):
        super().__init__(found)
        self.has_address, (self.kind, self.type) = not found.group(1), found.group(2, 3)

    def text_in(self, part, _):
        if not self.has_address:
            return self.text.replace(" = ", " = private ", 1)
        if part == self.part:
            return self.text.replace(" = ", " = hidden ", 1)
        return f"{self.name} = external hidden {self.kind} {self.type}\n"


def reached(items, names, goes_on):
    """The names that are reached from these through items of which `goes_on` is true."""
    found, queue = dict.fromkeys(names), list(names)
    while queue:
        for name in items[queue.pop()].uses:
            if name in items and name not in found:
                found[name] = None
                if goes_on(items[name]):
                    queue.append(name)
    return found


def parts_of(text, count):
    """The texts of so many parts of the module with this text."""
    functions = [Function(found) for found in FUNCTION.finditer(text)]
    rest = FUNCTION.sub("", text)
    data = [Data(found) for found in DATA.finditer(rest)]
    rest = DATA.sub("", rest)
    items = {item.name: item for item in functions + data}
    if MAIN not in items or re.search(r"^(@|define )", rest, re.MULTILINE):
        raise Unexpected("the module is not as parts.py reads it")
    live = reached(items, [MAIN], lambda _: True)
    functions = [function for function in functions if function.name in live]
    total, before = sum(function.lines for function in functions), 0
    for function in functions:
        function.part, before = before * count // total, before + function.lines
    needs = [
        reached(items, [it.name for it in functions if it.part == part], lambda item: item.is_copied) for part in range(count)
    ]
    needs[0].update((it.name, None) for it in data if it.has_address and it.name in live)
    shared = {name for part, names in enumerate(needs) for name in names if items[name].part != part}
    for part, names in enumerate(needs):
        yield rest + "".join(items[name].text_in(part, name in shared) for name in names)
