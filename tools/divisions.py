"""Names each division and each remainder in the code that gets or sets coefficients, and in all that this code calls; the status is 1 where there is
one. Run at the top of the repository: python3 tools/divisions.py.

Document 02, request 2: "the code that gets or sets a coefficient, with all it calls, shall hold no division and no remainder". Comments, which
start with `//`, contracts, ghost imports and literals of text may have `/` and `%`.
"""
import re
import sys

from layers import ROOT, files, listed, used

# The crates that get and set coefficients, count their words and clear stray ones (packed_anf), pack and unpack them (anf_transform), list them
# (anf_form), and look at the bits of a form's or a table's word (form, search, table). What their code calls is added.
HOLDERS = ("packed_anf", "anf_transform", "anf_form", "table", "form", "search", "rule_package")
# Counts the words of coefficients in recorded files; the rest of its crate deals in bytes.
FILES = ("recorded/src/sizes.rt",)

ASIDE = re.compile(r'"(?:[^"\\]|\\.)*"' + r"|b?'(?:[^'\\\n]|\\[^'\n]+)'" + r"|//[^\n]*", re.S)
GHOST = re.compile(r"\bghost\s+use\b[^;]*;")
CONTRACT = re.compile(r"\b(?:requires|ensures)\b[^{;]*\{")
# Lines 9 and 10 divide; in all others `/` and `%` stand aside.
SAMPLE = """// a / b
ghost use Rattle.std.specs.Prelude.{◌/◌, ◌%◌};
fn f(m: usize) -> usize
    requires few { m / 64 < 2 }
    ensures { (result ≡ m % 64)
        × (result / 2 ≡ half (record { n = m / 2 })) }
{
    let slash = b'/' as usize + length("/ } %");
    let half = m / 2; // not 2 % m
    half % 64
}
"""


def blank(text):
    """As many spaces, the line ends kept."""
    return re.sub(r"[^\n]", " ", text)


def code(text):
    """A Rattle file's text without its comments, literals of text, ghost imports and contracts, line by line where it was."""
    for aside in (ASIDE, GHOST):
        text = aside.sub(lambda found: blank(found.group()), text)
    while found := CONTRACT.search(text):
        depth, end = 1, found.end()
        while depth and end < len(text):
            depth += {"{": 1, "}": -1}.get(text[end], 0)
            end += 1
        text = text[: found.start()] + blank(text[found.start() : end]) + text[end:]
    return text


def divisions(text):
    """The numbers of the lines whose code divides."""
    return [number for number, line in enumerate(code(text).splitlines(), 1) if re.search("[/%]", line)]


def called(crates):
    """The holders with all crates that their code calls."""
    found, left = set(), list(HOLDERS)
    while left:
        crate = left.pop()
        if crate not in found:
            found.add(crate)
            left += used(crate, crates)[0]
    return sorted(found)


def main():
    if divisions(SAMPLE) != [9, 10]:
        sys.exit(f"tools/divisions.py finds lines {divisions(SAMPLE)} of its sample, and not 9 and 10")
    crates, _ = listed()
    if unknown := set(HOLDERS) - set(crates):
        sys.exit(f"tools/divisions.py names crates that crates.txt does not have: {', '.join(sorted(unknown))}")
    looked = called(crates)
    found = [
        f"crates.txt: {crate} may call {library}, whose code this tool does not look at"
        for crate in looked
        for library in crates[crate]
        if library not in crates
    ]
    paths = [path for crate in looked for path in files(crate, ".rt")]
    found += [
        f"{path}:{number}: shift or mask here, for request 2: {path.read_text().splitlines()[number - 1].strip()}"
        for path in paths + [ROOT / file for file in FILES]
        for number in divisions(path.read_text())
    ]
    print("\n".join(found), end="\n" if found else "")
    sys.exit(bool(found))


main()
