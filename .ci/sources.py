"""Reads the crates: the functions of their .rt files, with clauses and bodies, and the items of their .antt files.

It stands beside the scripts that use it (.ci/promises, .ci/memory-answers, .ci/unused). It takes the layout of `rt fmt` for granted,
and knows no more of both languages than these need.
"""

import pathlib, re

TOP = pathlib.Path(__file__).resolve().parent.parent

# A token of a .rt file: a comment, a string, a character, a lifetime, a word, a number, or a sign.
TOKEN = re.compile(
    r"""//[^\n]*|b?"(?:\\.|[^"\\])*"|b?'(?:\\[^\n]{1,4}?|[^'\\\n])'|'[a-z_]\w*|[^\W\d]\w*|\d\w*|::|=>|->|==|!=|\S""",
    re.DOTALL | re.VERBOSE,
)
CLOSED_BY = {"(": ")", "[": "]", "{": "}"}


class Token:
    def __init__(self, text, start):
        self.text, self.start = text, start


class Function:
    """A function: where it stands, whose it is, and its clauses by name ("" has those without one)."""

    def __init__(self, crate, path, line, name, owner, trait):
        self.crate, self.path, self.line, self.name, self.owner, self.trait = crate, path, line, name, owner, trait
        self.public = False
        self.signature, self.ensures, self.requires, self.body = [], [], [], []
        self.start = self.end = 0

    @property
    def said(self):
        """`Type::name`, or the name alone."""
        return f"{self.owner}::{self.name}" if self.owner else self.name


class RattleFile:
    """The functions of a .rt file, its types and traits, and the members that they have for contracts alone."""

    def __init__(self, crate, path):
        self.crate, self.path, self.text = crate, path, path.read_text()
        self.tokens = [
            Token(found[0], found.start()) for found in TOKEN.finditer(self.text) if not found[0].startswith("//")
        ]
        self.functions, self.types, self.ghosts = [], {}, []
        self.items(0, len(self.tokens), None, None)

    def line_of(self, token):
        return self.text.count("\n", 0, token.start) + 1

    def closing(self, at):
        """The place of the bracket that closes the one at a place."""
        depth = 0
        while True:
            text = self.tokens[at].text
            depth += (text in "([{") - (text in ")]}") if len(text) == 1 else 0
            if depth == 0:
                return at
            at += 1

    def words(self, start, end):
        return [token.text for token in self.tokens[start:end]]

    def items(self, at, end, owner, trait):
        """Reads the items between two places: those of a file, a module, an `impl` or a trait."""
        while at < end:
            text = self.tokens[at].text
            if text == "fn":
                at = self.function(at, owner, trait)
            elif text in ("impl", "trait", "mod", "struct", "enum", "use", "const", "static", "type", "ghost"):
                at = self.item(at, owner)
            elif text in CLOSED_BY:
                at = self.closing(at) + 1
            else:
                at += 1

    def item(self, at, owner):
        """Reads one item that is no function, up to its end."""
        kind, start = self.tokens[at].text, at
        while self.tokens[at].text not in ("{", ";"):
            # `ghost NAME = { .. }` and the parts of a tuple.
            if self.tokens[at].text in ("(", "["):
                at = self.closing(at)
            at += 1
        head = self.words(start, at)
        if kind == "ghost" and head[1] == "use":
            while self.tokens[at].text != ";":
                at += 1
            return at + 1
        if kind == "const" and head[1] == "fn":
            return start + 1
        close = self.closing(at) if self.tokens[at].text == "{" else at
        if kind in ("struct", "enum", "trait", "type"):
            self.types[head[1]] = kind
        if kind == "ghost":
            self.ghosts.append((owner, head[1]))
        if kind in ("struct", "enum", "trait"):
            for place in range(at, close):
                if self.tokens[place].text == "ghost" and self.tokens[place + 1].text != "use":
                    self.ghosts.append((head[1], self.tokens[place + 1].text))
        if kind == "trait":
            self.items(at + 1, close, head[1], head[1])
        elif kind == "impl":
            self.items(at + 1, close, *owner_of(head))
        elif kind == "mod" and self.tokens[at].text == "{":
            self.items(at + 1, close, None, None)
        return close + 1

    def function(self, at, owner, trait):
        """Reads a function, up to its end."""
        name = self.tokens[at + 1]
        found = Function(self.crate, self.path, self.line_of(name), name.text, owner, trait)
        found.public = "pub" in self.words(max(0, at - 3), at) or trait is not None
        found.start = at
        at += 2
        signature = at
        while self.tokens[at].text not in ("{", ";", "requires", "ensures"):
            at = self.closing(at) if self.tokens[at].text in ("(", "[") else at
            at += 1
        found.signature = self.tokens[signature:at]
        while self.tokens[at].text in ("requires", "ensures"):
            kind, clause = self.tokens[at].text, ""
            while self.tokens[at].text != "{":
                at += 1
                if re.fullmatch(r"\w+", self.tokens[at].text):
                    clause = self.tokens[at].text
            (found.ensures if kind == "ensures" else found.requires).append(clause)
            at = self.closing(at) + 1
        if self.tokens[at].text == "{":
            close = self.closing(at)
            found.body = self.tokens[at : close + 1]
            at = close
        found.end = at
        self.functions.append(found)
        return at + 1


def owner_of(head):
    """The type of an `impl` by its head, and the trait where there is one: `impl<..> Trait<..> for Type<..>`."""
    names, depth = [], 0
    for word in head[1:]:
        depth += (word == "<") - (word == ">")
        if depth == 0 and word == "where":
            break
        if depth == 0 and re.fullmatch(r"[A-Za-z_]\w*", word):
            names.append(word)
    if "for" in names:
        place = names.index("for")
        return names[-1], names[place - 1]
    return names[-1], None


def rattle_files(wanted=lambda crate: True):
    """The .rt files of the crates, in order."""
    for path in sorted(TOP.glob("crates/*/src/**/*.rt")):
        crate = path.relative_to(TOP).parts[1]
        if wanted(crate):
            yield RattleFile(crate, path)


# The head of an item of a .antt file: words that say its kind, and its name.
KINDS = "unfoldable|abbrev|pub|record|data|ruleset"
ITEM = re.compile(rf"(?P<kinds>(?:(?:{KINDS}) )*)(?P<name>[^\s(){{}}\[\]|:=.][^\s(){{}}:=.]*)")
NO_ITEM = re.compile(r"(pub )?(use|mod|module|unfolding|tactic|open) ")
FIELD = re.compile(r"(?m)^ +(?:pub )?(?P<name>[^\s(){}:|]+) :(?: |$)")
MODULE = re.compile(r"(?ms)^( *)module .*?\bwhere$")


class Item:
    """An item of a .antt file: a definition, a record, a lemma, an answer. What goes on with its clauses belongs to it."""

    def __init__(self, crate, path, line, found):
        self.crate, self.path, self.line = crate, path, line
        self.name, self.kinds, self.text = found["name"], found["kinds"].split(), ""

    @property
    def fields(self):
        """The fields of a record, and the cases of a type that has some."""
        return FIELD.findall(self.text) if {"record", "data"} & set(self.kinds) else []


def antt_items(path, crate):
    """The items of a .antt file, those of its modules too. Comments belong to none."""
    text = MODULE.sub(lambda found: found[1] + "module" + "\n" * found[0].count("\n"), path.read_text())
    items, modules, begun = [], [0], False
    for number, line in enumerate(text.splitlines(), 1):
        head = line.lstrip()
        indent = len(line) - len(head)
        if not head or head.startswith("--"):
            continue
        while indent < modules[-1] and head[0] not in ")]}":
            modules.pop()
        if head == "module":
            begun = True
            continue
        if begun:
            modules.append(indent)
            begun = False
        found = ITEM.match(head) if indent == modules[-1] and not NO_ITEM.match(head) else None
        if found and (found["kinds"] or not items or items[-1].name != found["name"]):
            items.append(Item(crate, path, number, found))
        if items and not NO_ITEM.match(head):
            items[-1].text += line[modules[-1] :] + "\n"
    return items


def antt_files(part):
    """The .antt files of a part of the crates, `specs` or `proofs`, each with its crate."""
    for path in sorted(TOP.glob(f"crates/*/{part}/**/*.antt")):
        yield path, path.relative_to(TOP).parts[1]
