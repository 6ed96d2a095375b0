#!/usr/bin/env python3
"""Brings this repository's own definitions and lemmas to the kit's spelling: words and fields in snake case.

Run once, at the top of the repository, after the kit's port.py. It renames whole words in the .antt and .rt files of
the crates. In .rt files they stand only in clauses and ghost items: no item of the code is spelled so.
"""
import pathlib
import re

CAMEL = """bareOf chainAfter cyclesOf digitOf fourOf halvesOf halvesSwapped isXtea judgedRun judgedStart keyWord lineBy
networkOf noticeOf onlyOf openingOf roundWords sealedOf secondWord splitAt triedBy triedIf triedOn verdictOf verdictOn
verdictsLeft verdictsOf withCall withChain withinCycles wordKey wordPass wordRestart""".split()

# A dash stays where it joins the names of two definitions, as in rounds-cons.
DASHED = """all-given-back answers-same applied-fits as-left before-kept before-lt behind-is block-lt block-octets
block-opened block-sealed both-faced by-test chain-block chain-lt cycle-more cycled-words does-mirrored double-inverse
either-case empty-fields empty-line ended-line facing-begun facing-now facing-turned facing-with fields-none fields-some
first-after first-answers first-map first-none given-back-same halves-block in-front inverse-fits inverse-right
inverse-same inverse-turned join-fits judged-same keeps-back last-push lines-empty lines-some neutral-fits neutral-left
neutral-right next-call not-only only-some onto-more onto-start others-kept pass-by pieces-some push-same ran-fits
ran-push read-empty restart-by room-more rounds-all rounds-cycled rounds-fits rounds-more rounds-none rounds-push
run-back same-behind sealed-before sealed-block sealed-new sealed-next second-after second-answers second-map
served-none served-push serving-all serving-more session-law some-field some-not-none split-none split-some start-block
swapped-back turned-once two-more unrounds-all unrounds-more unrounds-none unrounds-push ways-back whole-line
xor-twice""".split()


def snake(name):
    return re.sub(r"([a-z])([A-Z])", lambda m: m[1] + "_" + m[2].lower(), name).replace("-", "_")


NEW = {name: snake(name) for name in CAMEL + DASHED}
WORD = re.compile(r"(?<![\w'′-])(" + "|".join(map(re.escape, sorted(NEW, key=len, reverse=True))) + r")(?![\w'′-])")


def main():
    for path in sorted(pathlib.Path("crates").glob("**/*")):
        if path.suffix not in (".antt", ".rt") or "out" in path.parts:
            continue
        old = path.read_text()
        new = WORD.sub(lambda m: NEW[m[1]], old)
        if new != old:
            path.write_text(new)


main()
