"""Names each line of Rattle or antt that is over 150 characters; the status is 1 where there is one. Run at the top of the repository: python3
tools/lengths.py. `rt fmt` lays lines out but leaves comments and what it cannot break as they are.
"""
import pathlib
import sys

LIMIT = 150

long = [
    f"{path}:{number}: {len(line)} characters"
    for path in sorted(pathlib.Path("crates").rglob("*"))
    if path.suffix in (".rt", ".antt") and path.parts[2] != "out"
    for number, line in enumerate(path.read_text().splitlines(), 1)
    if len(line) > LIMIT
]
print("\n".join(long), end="\n" if long else "")
sys.exit(bool(long))
