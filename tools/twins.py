#!/usr/bin/env python3
"""Prints the functions of a commit's src/ folders whose bodies have one shape.

A body's shape is what is left when numbers, byte and text literals, machine types and lower-case names are blanked.
Bodies of fewer than LEAST tokens are left out, since most of those are alike.

    python3 tools/twins.py COMMIT [LEAST]
"""
import re
import subprocess
import sys
from collections import defaultdict


def git(*words):
    return subprocess.run(["git", *words], capture_output=True, text=True, check=True).stdout


def functions(text):
    """The names and bodies of the functions in a source text."""
    text = re.sub(r"//.*", "", text)
    for start in re.finditer(r"\bfn (\w+)", text):
        brace = re.search(r"^\s*\{\s*$|\{\s*$", text[start.end():], re.M)
        depth, at = 0, start.end()
        # clauses stand in braces too: the body is the last top-level brace before the next `fn`
        end = text.find("\nfn ", at)
        body, depth, begin = "", 0, None
        while at < len(text):
            c = text[at]
            if c == "{":
                if depth == 0:
                    begin = at
                depth += 1
            elif c == "}":
                depth -= 1
                if depth == 0:
                    body = text[begin + 1:at]
                    after = text[at + 1:].lstrip()
                    if not re.match(r"(ensures|requires|\{)", after):
                        break
            elif c == ";" and depth == 0:
                body = ""
                break
            at += 1
        if body:
            yield start.group(1), body


def shape(body):
    tokens = re.findall(r"b?'[^']+'|b?\"[^\"]*\"|\w+|[^\w\s]", body)
    blank = lambda t: "_" if re.match(r"[0-9_a-z'\"]", t) and t not in ("match", "for", "in", "if", "else", "while", "let", "return") else t
    return tuple(blank(t) for t in tokens)


def main():
    commit = sys.argv[1]
    least = int(sys.argv[2]) if len(sys.argv) > 2 else 6
    found = defaultdict(list)
    for path in git("ls-tree", "-r", "--name-only", commit).split():
        if re.match(r"crates/\w+/src/.*\.rt$", path) and not path.endswith("tests.rt"):
            for name, body in functions(git("show", f"{commit}:{path}")):
                key = shape(body)
                if len(key) >= least:
                    found[key].append(f"{path}: {name}")
    groups = [places for places in found.values() if len(places) > 1]
    for places in groups:
        print(*places, sep="\n", end="\n\n")
    print(len(groups), "shapes,", sum(map(len, groups)), "functions")


main()
