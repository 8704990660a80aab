"""Says where a comment of a definition, a law or a proof cites a file that is not there. Run at the top of the repository: python3 tools/citations.py.

A citation is a name of files in brackets: `(crate, File)`, `(crate, One and Other)`, or `(File)` for a file of the same crate, of its proofs or its specs.
"""
import pathlib
import re
import sys

ROOT = pathlib.Path("crates")
CITED = re.compile(r"\((?:([a-z_]+), )?((?:[A-Z]\w+)(?:(?:, | and |, and )[A-Z]\w+)*)\)")
GROUPS = re.compile(r"\(([^()]*)\)")


# without what rt makes in a crate's folder out/
FILES = sorted(path for path in ROOT.rglob("*.antt") if path.parts[2] != "out")


def main():
    crates = {path.name for path in ROOT.iterdir()}
    have = {crate: {path.stem for path in FILES if path.parts[1] == crate} for crate in crates}
    bad = 0
    for path in FILES:
        crate = path.parts[1]
        head = "\n".join(line for line in path.read_text().splitlines() if line.lstrip().startswith("--"))
        text = re.sub(r"\s*\n\s*-- ?", " ", head)
        for group in GROUPS.findall(text):
            for part in group.split("; "):
                found = CITED.fullmatch(f"({part})")
                if not found or (found[1] and found[1] not in crates):
                    continue
                home = found[1] or crate
                for name in re.split(r", and |, | and ", found[2]):
                    if name not in have[home]:
                        print(f"{path}: ({part}): {home} has no {name}")
                        bad += 1
    sys.exit(bad > 0)


main()
