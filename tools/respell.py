#!/usr/bin/env python3
"""Respells the repository's own definitions and lemmas: words in snake case, theorems and types in camel case.

usage: python3 tools/respell.py     at the top of the repository, once, after the toolchain's own script

It goes by text, over src/, specs/, proofs/ and must-fail/ of every crate, and over the pages in Markdown. Functions,
exported names, strings, inputs and outputs keep their names.
"""

import re
import sys
from pathlib import Path

WORDS = """
beyondFrom bodyRow bodyRules bufferRule bytesLine bytesAt bytesOf bodyOf carryLimit carryRules cellLine componentRules
contentRules countAt countBy countRules countsAfter countsIn cutRules denialLine denominatorIn denominatorOf eightBytes
emptyFrom enterRules enterWire enterWireRules entryLimit factsAfter fanoutIn fanoutOf firstLine firstLineOf
firstLineRules formRules fourBytes headRules headerRules heightIn heightOf hexByte hexText isReleased kindIn kindRules
kindTable kindWord laidIn laidRules layRules likeRules limitOf lineFeed lineRules loadRules markRules matchRules mostNodes
nearestField nearestRules nearestSize nodeLine nodeLineOf nodeLineRules nodeLines nodeLinesOf nodeRules nodesOf
noisyTable outcomeLine overChildren publicationFront publicationHeader publicationLength publicationMark publishRules
publishedRow publishedRules readRules refusalLine releaseRules releasedAfter releasedBy releasedRule releasedRules
replaceRules roomRules rowBytes rowFrom rowRules ruleAt rulesAt shapeAfter shapeRules signedEight signedField
standingRows strikeRules sumRows tableBytes tableLength tableRow tableRules titleRules toldBytes toldCell troubleText
verbOf wireNode wireRules wiresOf writeRules placeOf formIn layOf loadOf releaseOf atEach rowAt
""".split()

WHOLE = {
    "X-at": "X_at",
    "Z-at": "Z_at",
    "C-at": "C_at",
    "Tree-nearest": "TreeNearest",
    "Two-pass": "TwoPassStands",
    "adds-up": "adds_up",
    "three-nodes": "three_nodes",
    "three-levels": "three_levels",
    "three-children": "three_children",
    "one-node": "one_node",
    "at-parent": "at_parent",
    "at-child": "at_child",
}

LETTER = r"[A-Za-z0-9_'′]"


def snake(word):
    return re.sub(r"[A-Z]", lambda m: "_" + m.group(0).lower(), word)


MOVES = [(re.compile(rf"(?<!{LETTER}){w}(?!{LETTER})"), snake(w)) for w in WORDS]
MOVES += [
    (re.compile(rf"(?<!{LETTER})(?<!-){re.escape(old)}(?!{LETTER})(?!-)"), new) for old, new in WHOLE.items()
]


def files(root):
    for crate in sorted((root / "crates").iterdir()):
        for part in ("src", "specs", "proofs", "must-fail"):
            for path in sorted((crate / part).rglob("*")):
                if path.suffix in (".rt", ".antt", ".edit"):
                    yield path
    yield from sorted(root.glob("*.md"))
    yield from sorted((root / "docs").glob("*.md"))


def main():
    root = Path.cwd()
    if not (root / "crates.txt").exists():
        sys.exit("respell: run it at the top of the repository")
    changed = 0
    for path in files(root):
        before = path.read_text(encoding="utf-8")
        after = before
        for old, new in MOVES:
            after = old.sub(new, after)
        if after != before:
            path.write_text(after, encoding="utf-8")
            changed += 1
    print(f"respell: {changed} files changed")


if __name__ == "__main__":
    main()
