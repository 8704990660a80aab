#!/usr/bin/env python3
"""Applies each must-fail edit of crates/*/must-fail to the files as they stand, and names those that cannot be tried: a file that is gone, an `old:` text
that does not stand exactly once in it (as the pairs above left it), a line that no part of an edit begins, an edit that changes nothing, and one with no line
that says what is wrong. Usage: edits.py [CRATE..], from the top of the repository; with no names it reads every crate. Its status is 1 where it names any."""
import pathlib
import sys


def wrong(edit):
    crate, path, old, texts, was = edit.parent.parent, None, None, {}, {}
    lines = edit.read_text(encoding="utf-8").splitlines()
    if not lines or not lines[0].startswith("# "):
        yield "its first line does not say what is wrong"
    for line in lines:
        word, _, rest = line.partition(":")
        rest = rest.removeprefix(" ")
        if word == "file" and old is None:
            path = rest
            if not (crate / path).is_file():
                yield f"there is no file {path}"
                return
            if path not in texts:
                texts[path] = was[path] = (crate / path).read_text(encoding="utf-8")
        elif word == "old" and path and old is None and rest:
            old = rest
        elif word == "new" and old is not None:
            found = texts[path].count(old)
            if found != 1:
                yield f"in {path} {found} times: {old}"
            elif old == rest:
                yield f"a pair changes nothing: {old}"
            texts[path] = texts[path].replace(old, rest, 1)
            old = None
        elif not line.startswith("#"):
            yield f"not read: {line}"
    if old is not None:
        yield f"no new: after {old}"
    if texts == was:
        yield "it changes nothing"


def main(names):
    edits = sorted(pathlib.Path("crates").glob("*/must-fail/*.edit"))
    bad = [(e, why) for e in edits if not names or e.parts[1] in names for why in wrong(e)]
    for edit, why in bad:
        print(f"{edit}: {why}")
    return 1 if bad else 0


if __name__ == "__main__":
    sys.exit(main(sys.argv[1:]))
