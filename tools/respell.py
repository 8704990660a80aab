#!/usr/bin/env python3
"""Spells this repository's own definitions and lemmas as the toolchain spells its library's: a word such as wordCount becomes word_count, and between the
parts of a lemma's name the dash stays, as in word_count-full. Usage: respell.py FOLDER, the repository's top. It goes by text, over the .rt and .antt files
of crates/, and a second run changes nothing; a name that would meet another one is named and kept."""
import collections
import pathlib
import re
import sys

WORD = re.compile(r"[A-Za-z0-9_'-]+")
# A text in code stays as it is; what a comment quotes is a document's sentence, which has none of these words.
PIECE = re.compile(r"""^\s*(?:--|//).*$|"(?:\\.|[^"\\\n])*"|[A-Za-z0-9_'-]+""", re.M)
# Words of the library that own lemmas are named after, as the library spells them now.
LIBRARY = {"getD": "get_or", "bitAnd": "bit_and", "bitOr": "bit_or"}


def part(word):
    if word in LIBRARY:
        return LIBRARY[word]
    if not re.match(r"[a-z]", word):
        return word
    return re.sub(r"(?<=[a-z0-9])[A-Z]+(?![a-z])|(?<=[a-z0-9])[A-Z]", lambda m: "_" + m[0].lower(), word)


def spelled(name):
    return "-".join(part(p) for p in name.split("-"))


def turned(text, table):
    def piece(m):
        if m[0][0] == '"':
            return m[0]
        return WORD.sub(lambda w: table.get(w[0], w[0]), m[0])

    return PIECE.sub(piece, text)


def main(top):
    files = sorted(f for f in pathlib.Path(top, "crates").rglob("*") if f.suffix in (".rt", ".antt") and "out" not in f.parts)
    texts = {f: f.read_text(encoding="utf-8") for f in files}
    olds = {w for t in texts.values() for m in PIECE.finditer(t) if m[0][0] != '"' for w in WORD.findall(m[0]) if spelled(w) != w}
    meets = collections.defaultdict(set)
    for w in olds:
        meets[spelled(w)].add(w)
    kept = {w for ws in meets.values() if len(ws) > 1 for w in ws}
    for w in sorted(kept):
        print(f"kept, meets another name: {w}")
    table = {w: spelled(w) for w in olds - kept}
    for f, t in texts.items():
        new = turned(t, table)
        if new != t:
            f.write_text(new, encoding="utf-8")
    print(f"{len(table)} names spelled anew")


main(sys.argv[1])
