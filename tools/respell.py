#!/usr/bin/env python3
"""Spells the repository's own definitions, lemmas and variables in snake case, as Rattle's library does.

usage: python3 tools/respell.py            at the top of the repository, once, after the toolchain's port.py

A word that begins with a small letter and has a capital inside, as in takenOut or length-takenOut, gets its capitals from underscores:
taken_out, length-taken_out. A prime becomes an apostrophe. Types, facts and modules begin with a capital and stay. It turns .antt and .rt
files below crates/, and README.md and docs/*.md, and leaves edits, inputs and outputs alone. It names each word that falls together with
another one of the same crate, to be looked at.
"""

import collections
import glob
import re

WORD = re.compile(r"[A-Za-z_][\w'′-]*")
CAPITAL = re.compile(r"(?<=[a-z0-9])[A-Z]")


def spelled(word):
    """The word in snake case, part by part between its dashes."""
    parts = word.replace("′", "'").split("-")
    return "-".join(CAPITAL.sub(lambda m: "_" + m.group(0).lower(), p) if p[:1].islower() else p for p in parts)


def main():
    files = [p for p in glob.glob("crates/**/*", recursive=True) if p.endswith((".antt", ".rt")) and "/out/" not in p]
    files += ["README.md"] + glob.glob("docs/*.md")
    words = collections.defaultdict(set)
    turned = 0
    for path in files:
        with open(path, encoding="utf-8") as f:
            text = f.read()
        crate = path.split("/")[1] if path.startswith("crates/") else "docs"
        for word in set(WORD.findall(text)):
            words[(crate, spelled(word))].add(word)
        new = WORD.sub(lambda m: spelled(m.group(0)), text)
        if new != text:
            turned += 1
            with open(path, "w", encoding="utf-8") as f:
                f.write(new)
    for (crate, word), olds in sorted(words.items()):
        if len(olds) > 1:
            print(f"falls together in {crate}: {word} from {', '.join(sorted(olds))}")
    print(f"{turned} files turned")


if __name__ == "__main__":
    main()
