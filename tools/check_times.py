"""When `rt ci` had proved each crate and begun its must-fail edits, as a table, from what tools/progress notes of a run (build/ci.times), on standard
input. After a `make test` that proved every crate, at the top of the repository: python3 tools/check_times.py <build/ci.times

`rt ci` works on several crates at a time and prints no times, so these are seconds from the start and not times of a crate by itself. A crate that an
earlier run on the machine proved is `kept`.
"""
import re
import sys

proved, begun, edits, whole = {}, {}, {}, 0
for line in sys.stdin:
    seconds, _, text = line.partition(" ")
    whole = int(seconds)
    if found := re.match(r"rt: (\w+) proved$", text):
        proved[found[1]] = seconds
    if found := re.match(r"rt: (\w+) is kept: ", text):
        proved[found[1]] = "kept"
    if found := re.match(r"rt: (\w+): trying its must-fail edits \(", text):
        begun[found[1]] = seconds
    if found := re.match(r"rt: must-fail (\w+)/[^:]+: refused", text):
        edits[found[1]] = edits.get(found[1], 0) + 1

print("| Crate | Proved after, s | Its edits begun after, s | Edits |\n|---|---|---|---|")
for crate in proved:
    print(f"| `{crate}` | {proved[crate]} | {begun.get(crate, 'kept' if crate in edits else '')} | {edits.get(crate, '')} |")
print(f"| all {len(proved)} | | | {sum(edits.values())} |")
print(f"\nThe whole took {whole} s.")
