"""The code of a crate as text: the items of a file, the members of a trait or an implementation, and their contracts."""
import re
from typing import NamedTuple

from ghost_text import Unread, use_of

ASIDE = re.compile(
    r"(?P<comment>//[^\n]*|/\*.*?\*/)"
    r'|(?<!\w)b?r(?P<fence>#*)".*?"(?P=fence)|(?:(?<!\w)b)?"(?:\\.|[^"\\])*"'
    r"|(?<!\w)b?'(?:\\(?:x..|u\{[^}]*\}|.)|[^\\'\n])'",
    re.S,
)
CLOSING = {"(": ")", "[": "]", "{": "}"}

TYPES = ("struct", "enum", "trait", "type")

# What follows is matched against code in whose brackets nothing stands.
CLAUSE = re.compile(r"\b((?:requires|ensures)\*?(?:\s+\w+)?)\s*(\{\s*\})")
HEAD = re.compile(
    r"\s*(?P<attributes>(?:#!?\[\s*\]\s*)*)(?P<shown>pub(?:\(\s*\))?\s+)?(?:(?:const|unsafe|extern)\s+)*"
    r"(?P<kind>ghost use|ghost|use|mod|type|const|static|fn|struct|enum|trait|impl)\b\s*(?P<name>\w*)"
)
BODY = r"[^;{}]*(?:;|\{\s*\})"
# What ends an item of a kind, behind its name.
ENDS = {
    **dict.fromkeys(("struct", "enum", "trait", "impl"), BODY),
    **dict.fromkeys(("use", "ghost use"), r"[^;]*;"),
    **dict.fromkeys(("const", "static"), r"\s*:[^;]*;"),
    "fn": rf"(?:[^;{{}}]*{CLAUSE.pattern})*{BODY}",
    "ghost": r"\s*[:=][^;]*;",
    "mod": r"\s*;",
    "type": r"[^;{}]*;",
}


class Item(NamedTuple):
    """An item, or a member of one: what stands before its body, what behind its name, and its clauses with their labels."""

    kind: str
    name: str
    is_public: bool
    is_test: bool
    header: str
    text: str
    clauses: list
    members: list


def blanked(text):
    return re.sub(r"[^\n]", " ", text)


def hollowed(text):
    """The text, in whose brackets nothing stands any more."""
    found, wanted = [], []
    for letter in text:
        if letter in ")]}" and (not wanted or wanted.pop() != letter):
            raise Unread(f"has a bracket too many: {letter!r}")
        found.append(blanked(letter) if wanted else letter)
        if letter in CLOSING:
            wanted.append(CLOSING[letter])
    if wanted:
        raise Unread("has a bracket too few")
    return "".join(found)


def items_of(code, mask):
    """The items of a text, of which `mask` is the same with strings and characters blanked."""
    hollow, found, at = hollowed(mask).rstrip(), [], 0
    while at < len(hollow):
        head = HEAD.match(hollow, at)
        end = head and re.compile(ENDS[head["kind"]]).match(hollow, head.end())
        if not end:
            raise Unread(f"cannot be read: {code[at:].strip().splitlines()[0]!r}")
        is_test = "[cfg(test)]" in mask[at : head.end("attributes")]
        start, at = head.start("kind"), end.end()
        found.append(item(code[start:at], mask[start:at], head, is_test))
    return found


def item(code, mask, head, is_test):
    """The item of a text that begins with its kind."""
    kind, name, hollow = head["kind"], head["name"], hollowed(mask)
    text = code[len(kind) if kind == "ghost use" else head.end() - head.start("kind") :]
    brace = hollow.find("{") if hollow[-1] == "}" else len(hollow) - 1
    clauses, members = [], []
    if kind == "fn":
        clauses = [(" ".join(match[1].split()), code[match.start(2) : match.end()]) for match in CLAUSE.finditer(hollow)]
    elif kind == "ghost":
        clauses = [(f"ghost {name}", text)]
    elif kind in ("struct", "enum") and re.search(r"\bghost\b", mask):
        clauses = [("ghost fields", text)]
    elif kind in ("trait", "impl"):
        members = items_of(code[brace + 1 : -1], mask[brace + 1 : -1])
    elif kind == "use" and re.search(r"\bas\s+(?!_\b)", mask):
        raise Unread(f"cannot be read, since it gives another name: {code!r}")
    header = " ".join(mask[:brace].split())
    return Item(kind, name, (head["shown"] or "").strip() == "pub", is_test, header, text, clauses, members)


class File:
    """A file of the code. It exports what is `pub` in it where it is a library's."""

    def __init__(self, crate, path, is_library):
        self.crate, self.path = crate, path
        text = path.read_text(encoding="utf-8")
        code = ASIDE.sub(lambda match: blanked(match[0]) if match["comment"] else match[0], text)
        self.items = items_of(code, ASIDE.sub(lambda match: blanked(match[0]), text))
        self.exported = [item for item in self.items if is_library and item.is_public]
        self.submodules = [item.name for item in self.items if item.kind == "mod"]
        self.tests = {item.name for item in self.items if item.kind == "mod" and item.is_test}
        self.tests -= {item.name for item in self.items if item.kind == "mod" and not item.is_test}


def ghost_uses(items):
    return [use_of("use" + item.text) for item in items if item.kind == "ghost use"]


def ghosts(item):
    return [member for member in item.members if member.kind == "ghost"]


def named_members(item):
    return {member.name for member in item.members if member.kind in ("fn", "ghost", "type", "const")}


def laws(trait):
    """The names of the ghost members of a trait that stand below its last function."""
    last = max((at for at, member in enumerate(trait.members) if member.kind == "fn"), default=len(trait.members))
    return {member.name for member in trait.members[last:] if member.kind == "ghost"}


def implemented(header):
    """The names of the trait of an implementation, or None, and of the type; None where that has no name."""
    header = re.sub(r"[-=]>", " ", header)
    while header != (header := re.sub(r"<[^<>]*>", " ", header)):
        pass
    trait, middle, type_ = re.split(r"\bwhere\b", header)[0].rpartition(" for ")
    names = [(re.findall(r"\w+", part) or [None])[-1] for part in (trait, type_)]
    return names if middle else [None, names[1]]
