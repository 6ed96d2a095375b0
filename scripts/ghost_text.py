"""Texts of ghost code: the names in a text, `use` lines, and what a file of definitions holds.

No scopes are read. A name counts wherever it stands in a text, also where λ, a pattern or a field binds it, so that at
worst a definition counts as named that is not. What has another form than those below cannot be read.
"""
import re
from typing import NamedTuple

NAME = r"[^\W\dλ](?:[^\Wλ]|')*"
READ = re.compile(rf'"(?:\\.|[^"\\])*"|--[^\n]*|(?P<name>{NAME})(?=(?:\.(?P<member>{NAME}))?)', re.S)
USE = re.compile(r"use\s+([\w.]+?)(?:\.\{(.*)\}|\s+as\s+(\w+))\s*;?\s*", re.S)
SIGNATURE = re.compile(rf"(?:(?:abbrev|unfoldable|pub)\s+)*({NAME})\s+:\s")
RECORD = re.compile(rf"(?:pub )?record ({NAME})\s.*?\swhere(?:\n(.*))?", re.S)
FIELD = re.compile(rf"^\s+(?:pub )?({NAME}) :", re.M)
BLOCK = re.compile(r"module _ ([^\n]*) where\n(.*)", re.S)


class Unread(Exception):
    """What cannot be read, or names nothing."""


class Use(NamedTuple):
    """A `use` line: its path, and what it takes from there under the names that it gives, or None for the path itself."""

    path: tuple
    names: dict


def names_in(text):
    """The names in a text outside strings and comments, each with the one behind the dot that follows it, or None."""
    found = [(match["name"], match["member"]) for match in READ.finditer(text) if match["name"]]
    if "«" in text or any(name == "Rattle" for name, _ in found):
        raise Unread("has a name in «» or a whole path, which cannot be read")
    return found


def use_of(text):
    match = USE.fullmatch(re.sub(r"--[^\n]*", "", text))
    if not match:
        raise Unread(f"cannot be read: {text.strip()!r}")
    path = tuple(match[1].split("."))
    if match[2] is None:
        return Use(path, {match[3]: None})
    names = {}
    for words in filter(None, (part.split() for part in match[2].split(","))):
        if len(words) not in (1, 3) or (len(words) == 3 and words[1] != "as"):
            raise Unread(f"cannot be read: {text.strip()!r}")
        names[words[-1]] = words[0]
    return Use(path, names)


def pieces(text):
    """The pieces of a file of definitions: a line at the margin and what belongs to it below, without lines of comment."""
    found = []
    for line in text.split("\n"):
        if not line.strip() or line.lstrip().startswith("--"):
            continue
        if line[0] not in " )]}":
            found.append(line)
        elif found:
            found[-1] += "\n" + line
        else:
            raise Unread(f"cannot be read: {line!r}, which is indented below nothing")
    return found


def outdented(text):
    lines = text.split("\n")
    margin = min(len(line) - len(line.lstrip()) for line in lines)
    return "\n".join(line[margin:] for line in lines)


class Definitions:
    """A file of definitions: its uses, its submodules, the names in each definition, and whose name each name is."""

    def __init__(self, path):
        self.path, self.uses, self.submodules, self.tests, self.names, self.owners = path, [], [], set(), {}, {}
        self.read(path.read_text(encoding="utf-8"), [])

    def read(self, text, outer):
        """Reads definitions. `outer` are the names in the header of the module around them."""
        last = None
        for piece in pieces(text):
            last = self.piece(piece, last, outer)

    def piece(self, piece, last, outer):
        """Reads a piece, and answers which definition it is of. `last` is the one above it."""
        words = piece.split()
        if words[0] == "use":
            self.uses.append(use_of(piece))
        elif re.fullmatch(r"(?:pub )?mod \w+", piece):
            self.submodules.append(words[-1])
        elif block := BLOCK.fullmatch(piece):
            self.read(outdented(block[2]), outer + names_in(block[1]))
        elif record := RECORD.fullmatch(piece):
            self.define(record[1], FIELD.findall(record[2] or ""), outer + names_in(piece))
        elif signature := SIGNATURE.match(piece):
            self.define(signature[1], [], outer + names_in(piece))
            return signature[1]
        elif last and (words[0] == "unfolding" or (words[0] == last and "=" in words)):
            self.names[last] += names_in(piece)
            return last
        else:
            raise Unread(f"cannot be read: {words[0]!r} in {piece.splitlines()[0]!r}")
        return None

    def define(self, name, fields, names):
        if name in self.names:
            raise Unread(f"{name} is defined twice")
        self.names[name] = names
        for own in [name] + fields:
            self.owners[own] = name
