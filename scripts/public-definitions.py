#!/usr/bin/env python3
"""Shows that the definitions which public contracts reach are those of each crate's specs/, and that they reach none of
those in specs/internal/.

    scripts/public-definitions.py [--root DIR] [--list]

It reads text alone: crates.txt, and each crate's sources and specs. From the names in a public contract (see `Contracts`)
it goes on to definitions, and from each of these to those that it names, in its type and in its body. It prints one line
and ends with 0, or a line for each fault and ends with 1. A fault is a definition of specs/internal/ or of proofs/ that is
reached, a definition of specs/ that is not, or something that cannot be read. With --list it prints what is reached and
what is not, file by file.

Where a text leaves open what it means, more counts as named or as public than is, and never less: a name counts wherever
it stands, a name of the code stands for every type and trait that is called so in any crate, and what is `pub` in a
library counts as exported.
"""
import argparse
import collections
import functools
import pathlib
import re
import sys
from typing import NamedTuple

from crate_text import TYPES, File, ghost_uses, ghosts, implemented, laws, named_members
from ghost_text import NAME, Definitions, Unread, names_in

# Ghost members of the library's traits whose values are proofs.
PROOFS = {"laws", "total", "matches_partial_cmp", "matches_eq", "size_decreases", "coded"}
# The trait and the name of a cipher's map. What it means is promised by `seal` and by what makes the cipher.
MAP = ("ciphers", "Cipher", "map")
ROOTS = ("lib", "main", "Lib")
# What a contract is called that is no clause: the types of a function, or what a name of a type stands for.
SIGNATURE = "types"


class Def(NamedTuple):
    """A definition, or a record with its fields. `module` is the path below specs/, with dots."""

    crate: str
    module: str
    name: str

    def __str__(self):
        return f"{self.name} (crates/{self.crate}/specs/{self.module.replace('.', '/')}.antt)"

    def is_internal(self):
        return self.module.split(".")[0] == "internal"


class Type(NamedTuple):
    """A type, trait or alias of the code, with what the checker makes of it."""

    crate: str
    name: str

    def __str__(self):
        return f"{self.name} (a type of {self.crate})"


class Lemma(NamedTuple):
    """A name of proofs/, which is not followed."""

    path: tuple
    name: str

    def __str__(self):
        return f"{self.name} (crates/{self.path[1]}/proofs, {'.'.join(self.path[3:])})"


class Module(NamedTuple):
    """A module of specs/ under another name."""

    path: tuple


class Repository:
    """All crates: their code, their definitions, and what a name stands for. Faults are collected."""

    def __init__(self, root):
        self.root, self.faults = root, []
        lines = [line for line in (root / "crates.txt").read_text(encoding="utf-8").split("\n") if line.strip()]
        lines = [re.fullmatch(r"(\w+)[ \w]*:([ \w]*)", line) for line in lines if not line.startswith("#")]
        if not all(lines):
            raise SystemExit("public definitions: crates.txt cannot be read")
        self.crates = [line[1] for line in lines]
        self.libraries = {"std"} | {word for line in lines for word in line[2].split()} - set(self.crates)
        self.files, self.specs, self.types = [], {}, collections.defaultdict(dict)
        self.models = collections.defaultdict(list)
        for crate in self.crates:
            self.load(crate)
        self.public = {node for file in self.files for item in file.exported for node in self.made_public(file, item)}

    def fault(self, text):
        if text not in self.faults:
            self.faults.append(text)

    def shown(self, path):
        return str(path.relative_to(self.root))

    def attempt(self, path, action):
        """What an action gives, or None and a fault where something in a file cannot be read."""
        try:
            return action()
        except (Unread, OSError, ValueError) as error:
            self.fault(f"{self.shown(path)}: {error}")
        return None

    # Files

    def load(self, crate):
        base = self.root / "crates" / crate
        is_library = (base / "src/lib.rt").exists()
        if is_library == (base / "src/main.rt").exists():
            self.fault(f"crates/{crate}: has not one lib.rt or main.rt")
        for file in self.modules(base / "src", ".rt", lambda path: File(crate, path, is_library)).values():
            self.files.append(file)
            self.attempt(file.path, lambda file=file: self.note(file))
        for module, definitions in self.modules(base / "specs", ".antt", Definitions).items():
            self.specs[crate, module] = definitions

    def modules(self, base, ending, read):
        """The files below a folder by their modules, without tests. Each must be listed by one, and be there."""
        paths, found, listed, tests = {}, {}, set(), set()
        for path in sorted(base.rglob("*" + ending)):
            module = ".".join(path.relative_to(base).with_suffix("").parts)
            paths[module] = path
            if file := self.attempt(path, lambda path=path: read(path)):
                found[module] = file
                prefix = "" if module in ROOTS else f"{module}."
                listed |= {prefix + name for name in file.submodules}
                tests |= {prefix + name for name in file.tests}
        for module in sorted(listed ^ (set(paths) - set(ROOTS))):
            path = base / (module.replace(".", "/") + ending)
            self.fault(f"{self.shown(path)}: {'no module has it' if module in paths else 'there is no such module'}")
        within = {module for module in found for test in tests if f"{module}.".startswith(f"{test}.")}
        return {module: file for module, file in found.items() if module not in within}

    def note(self, file):
        """Notes the types that a file defines, and its models."""
        for item in file.items:
            if item.kind in TYPES:
                if file.crate in self.types[item.name]:
                    raise Unread(f"{item.name} is defined twice in {file.crate}")
                self.types[item.name][file.crate] = file, item
            elif item.kind == "impl" and implemented(item.header)[0] == "Model":
                self.models[Type(file.crate, implemented(item.header)[1])].append((file, item))

    def made_public(self, file, item):
        """The types that an exported item makes public: itself, and those of which it is another name."""
        names = names_in(item.text) if item.kind == "type" else ()
        return [Type(file.crate, item.name)] + [node for name, _ in names for node in self.named(name)]

    # Names

    def named(self, name):
        """All types and traits that have a name."""
        return [Type(crate, name) for crate in self.types.get(name, ())]

    def item(self, node):
        return self.types[node.name][node.crate]

    def target(self, path, name):
        """What a path of definitions and a name in it stand for; None where it is the library's."""
        shown = ".".join(path)
        if len(path) < 3 or path[0] != "Rattle" or path[1] not in self.libraries | set(self.crates):
            raise Unread(f"{shown} is no path of this repository")
        crate, part, inner = path[1], path[2], path[3:]
        if crate in self.libraries:
            return None
        if part == "proofs":
            return Lemma(path, name)
        if inner[:1] == ("declared",):
            found = [Type(crate, word) for word in reversed(inner) if crate in self.types.get(word, ())]
        elif name is None:
            found = [Module(path)] * ((crate, ".".join(inner)) in self.specs)
        else:
            specs = self.specs.get((crate, ".".join(inner)))
            found = [Def(crate, ".".join(inner), specs.owners[name])] if specs and name in specs.owners else []
        if part != "specs" or not found:
            raise Unread(f"there is no {name} in {shown}")
        return found[0]

    def scope(self, uses):
        """What the names stand for that some uses bring."""
        scope = {}
        for use in uses:
            for short, name in use.names.items():
                target = self.target(use.path, name)
                if scope.setdefault(short, target) != target or (target and not re.fullmatch(NAME, short)):
                    raise Unread(f"cannot tell what {short} stands for")
        return scope

    def found(self, scope, names):
        """What some names stand for in a scope."""
        targets = []
        for name, member in names:
            target = scope.get(name)
            if isinstance(target, Module):
                if member is None:
                    raise Unread(f"{name} stands alone")
                target = self.target(target.path, member)
            targets += [target] if target else []
        return targets

    @functools.cache
    def scope_within(self, crate, module):
        """What the names stand for in a file of definitions: those that its uses bring, and its own."""
        scope = self.scope(self.specs[crate, module].uses)
        for name in self.specs[crate, module].names:
            own = Def(crate, module, name)
            if scope.setdefault(name, own) != own:
                raise Unread(f"cannot tell what {name} stands for")
        return scope

    def named_by_definition(self, node):
        """What a definition names."""
        names = self.specs[node.crate, node.module].names[node.name]
        return self.found(self.scope_within(node.crate, node.module), names)


def clauses_of(items):
    """The clauses of the functions among some items."""
    return [text for item in items if item.kind == "fn" for _, text in item.clauses]


class Root(NamedTuple):
    """A public contract: where it stands, what it is called, what it names, and whether it is a cipher's map."""

    path: pathlib.Path
    owner: str
    part: str
    targets: list
    is_map: bool


class Contracts:
    """The public contracts, and what is made of a type.

    Public are
    - the clauses of each function that a library exports, and of each public function of an exported type, with the types
      that it takes and answers;
    - all of a public trait: the types of its ghost members, what they are by default, and the clauses of its functions;
    - in an implementation of a trait of this repository, whatever the type: the clauses, and the values of the ghost
      members, but no law and no cipher's map;
    - in an implementation of another trait for what is no private type: the same, but no law or proof;
    - the types that an implementation for what is no private type names, and those that an exported type is a name for;
    - the ghost fields of exported types.
    A law is a ghost member that its trait has below its last function, and that no function's clause names. The clauses of other
    functions and of closures are not public.
    """

    def __init__(self, repository):
        self.repository, self.roots = repository, []
        items = [item for file in repository.files for outer in file.items for item in [outer] + outer.members]
        self.members = {word for text in clauses_of(items) for word in re.findall(r"\.(\w+)", text)}
        for file in repository.files:
            repository.attempt(file.path, lambda file=file: self.visit(file))

    def visit(self, file):
        uses = ghost_uses(file.items)
        for item in file.items:
            inner = uses + ghost_uses(item.members)
            self.repository.scope(inner)  # the names of uses that no public contract has must be there too
            if item.kind == "ghost":
                raise Unread(f"cannot be read: ghost {item.name} stands outside of traits and implementations")
            if item.kind == "impl":
                self.implementation(file, inner, item)
            elif item.kind == "fn" and item in file.exported:
                self.add(file, inner, f"fn {item.name}", item, True)
            elif item.kind in TYPES and Type(file.crate, item.name) in self.repository.public:
                for member in [item] + item.members:
                    self.add(file, inner, f"{item.kind} {item.name}", member, True)

    def add(self, file, uses, owner, item, with_types, is_map=False):
        """Notes the clauses of a function, of a ghost member, or of a type's ghost fields, and the types that it has."""
        owner += f", fn {item.name}" if item.kind == "fn" and owner != f"fn {item.name}" else ""
        for label, text in item.clauses:
            self.roots.append(Root(file.path, owner, label, self.targets(uses, [text]), is_map))
        if with_types and item.kind in ("fn", "type"):
            text = item.header if item.kind == "fn" else item.text
            self.roots.append(Root(file.path, owner, SIGNATURE, self.targets([], [text]), False))

    def targets(self, uses, texts):
        """What some texts of the code name: definitions, and types of the code."""
        names = [pair for text in texts for pair in names_in(text)]
        found = self.repository.found(self.repository.scope(uses), names)
        return found + [node for name, _ in names for node in self.repository.named(name)]

    def implementation(self, file, uses, item):
        trait_name, type_name = implemented(item.header)
        trait, is_public = self.trait(trait_name), self.is_for_public(file, trait_name, type_name)
        left_out = self.laws(item, trait) if trait else PROOFS
        if is_public or trait:
            for member in item.members:
                if (member.is_public or trait_name) and not (member.kind == "ghost" and member.name in left_out):
                    is_map = trait is not None and (*trait, member.name) == MAP
                    self.add(file, uses, item.header, member, is_public, is_map)

    def trait(self, name):
        """The trait of this repository that has a name, or None."""
        found = [node for node in self.repository.named(name) if self.repository.item(node)[1].kind == "trait"]
        if len(found) > 1:
            raise Unread(f"cannot tell which trait {name} is")
        return found[0] if found else None

    def laws(self, item, trait):
        """The laws of a trait, which must have all members of an implementation of it."""
        _, found = self.repository.item(trait)
        if not named_members(item) <= named_members(found):
            raise Unread(f"{trait.name} has not all that `{item.header}` gives")
        return laws(found) - self.members - {word for text in clauses_of(found.members) for word in re.findall(r"\w+", text)}

    def is_for_public(self, file, trait_name, type_name):
        """Whether an implementation is for what is no private type of its crate."""
        own = self.repository.types.get(type_name, {}).get(file.crate)
        is_alias = own and own[1].kind == "type"
        if is_alias if trait_name else not own:
            raise Unread(f"cannot tell what the type {type_name} is, for which there is an implementation")
        is_certain = own and (trait_name is None or own[0] is file)
        nodes = [Type(file.crate, type_name)] if is_certain else self.repository.named(type_name)
        return is_alias or not own or any(node in self.repository.public for node in nodes)

    def made_of(self, node):
        """What a type of the code stands for: its ghosts, the types of its fields, and its models."""
        file, item = self.repository.item(node)
        found = [(file, item)] + self.repository.models[node]
        targets = []
        for file, item in found:
            texts = [ghost.text for ghost in ghosts(item)] + [item.text] * (item.kind not in ("trait", "impl"))
            targets += self.targets(ghost_uses(file.items + item.members), texts)
        return targets


class Reach:
    """What the public contracts reach, each with what names it."""

    def __init__(self, repository, contracts, with_maps=False):
        self.repository, self.contracts, self.named_by = repository, contracts, {}
        left = collections.deque()
        for root in contracts.roots:
            for node in root.targets if with_maps or not root.is_map else ():
                self.note(node, root, left)
        while left:
            node = left.popleft()
            for target in self.targets(node):
                self.note(target, node, left)

    def note(self, node, by, left):
        if node not in self.named_by:
            self.named_by[node] = by
            left.append(node)

    def targets(self, node):
        if isinstance(node, Type):
            path = self.repository.item(node)[0].path
            return self.repository.attempt(path, lambda: self.contracts.made_of(node)) or []
        if isinstance(node, Def):
            path = self.repository.specs[node.crate, node.module].path
            return self.repository.attempt(path, lambda: self.repository.named_by_definition(node)) or []
        return []

    def chain(self, node):
        """The line that tells how a contract reaches a definition."""
        names = []
        while not isinstance(node, Root):
            names.append(str(node))
            node = self.named_by[node]
        return f"{self.repository.shown(node.path)}: {node.owner}, {node.part}: reaches {' -> '.join(reversed(names))}"


def judge(repository, reach, definitions):
    """Notes a fault for each definition that lies in the wrong folder, or in which something cannot be read."""
    for node in definitions:
        reach.targets(node)
        if node not in reach.named_by and not node.is_internal():
            path = repository.specs[node.crate, node.module].path
            repository.fault(f"{repository.shown(path)}: {node.name} is reached by no public contract")
    for node in reach.named_by:
        if isinstance(node, Lemma):
            repository.fault(f"{reach.chain(node)}, which is a proof")
        elif isinstance(node, Def) and node.is_internal():
            repository.fault(f"{reach.chain(node)}, which is internal")


def print_list(repository, reach, with_maps, definitions):
    for (crate, module), specs in repository.specs.items():
        own = [node for node in definitions if (node.crate, node.module) == (crate, module)]
        reached = [node.name for node in own if node in reach.named_by]
        others = [
            node.name + (" (a cipher's map reaches it)" if node in with_maps.named_by else "")
            for node in own
            if node not in reach.named_by
        ]
        if own:
            print(f"{repository.shown(specs.path)}\n  reached: {', '.join(reached) or 'none'}")
            print(f"  not reached: {', '.join(others) or 'none'}")


def main():
    options = argparse.ArgumentParser()
    options.add_argument("--root", type=pathlib.Path, default=pathlib.Path(__file__).resolve().parent.parent)
    options.add_argument("--list", action="store_true")
    options = options.parse_args()
    repository = Repository(options.root.resolve())
    contracts = Contracts(repository)
    reach = Reach(repository, contracts)
    definitions = [Def(*module, name) for module, specs in repository.specs.items() for name in specs.names]
    if options.list:
        print_list(repository, reach, Reach(repository, contracts, with_maps=True), definitions)
    else:
        judge(repository, reach, definitions)
    for fault in repository.faults:
        print(f"public definitions: {fault}", file=sys.stderr)
    if options.list or repository.faults:
        return 0 if options.list else 1
    roots = [root for root in contracts.roots if not root.is_map and root.part != SIGNATURE]
    owners = {(root.path, root.owner, root.part if root.part[:5] == "ghost" else "") for root in roots}
    crates = {root.path.relative_to(repository.root).parts[1] for root in roots}
    internal = sum(node.is_internal() for node in definitions)
    print(
        f"public definitions: {len(owners)} public contracts of {len(crates)} crates reach all"
        f" {len(definitions) - internal} definitions of specs/ and none of the {internal} of specs/internal/"
    )
    return 0


if __name__ == "__main__":
    sys.exit(main())
