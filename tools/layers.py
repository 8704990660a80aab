"""Draws the table of crates from what their files import. Run at the top of the repository: python3 tools/layers.py prints the table, --write puts it
into README.md, and --check says whether README.md has it.

A crate rests on another where its code names it, or where a definition or a proof of its cites the other's. Its level is one above the highest crate
that it rests on. Beside each crate stand its line of crates.txt and the crates that its code calls, those that these call left out.
"""
import pathlib
import re
import sys

ROOT = pathlib.Path("crates")
COMMENT = re.compile(r"(?m)(^|\s)(--|//)(\s.*)?$")
# What code names for its proof alone: ghost imports, and the laws and definitions that an attribute lets its proofs use.
GHOST = re.compile(r"\bghost\s+use\b[^;]*;|#!?\[tactic\([^\]]*\]")
LAWS = {"laws", "rules", "bits"}


def listed():
    """Each crate with the crates that crates.txt lets it use, and with the comment above its line."""
    crates, about, comment = {}, {}, ""
    for line in pathlib.Path("crates.txt").read_text().splitlines():
        if line.startswith("#"):
            comment = line[1:].strip().rstrip(".")
        elif line.strip():
            # `NAME: ..`, or `NAME staticlib: ..` of a static library
            name, _, rest = line.partition(":")
            name = name.split()[0]
            crates[name], about[name] = rest.split(), comment
    return crates, about


def files(crate, *endings):
    """The files of a crate with these endings, but for what rt makes in its folder out/."""
    return sorted(path for path in (ROOT / crate).rglob("*") if path.suffix in endings and path.relative_to(ROOT).parts[1] != "out")


def used(crate, crates):
    """The crates that a crate's code calls, and all crates that its files cite."""
    code, cited = set(), set()
    for path in files(crate, ".rt", ".antt"):
        text = COMMENT.sub("", path.read_text())
        cited |= set(re.findall(r"\bRattle\.(\w+)", text))
        if path.suffix == ".rt":
            ghost = "".join(GHOST.findall(text))
            text = GHOST.sub("", text)
            # a crate is called by its path, or imported under another name
            named = {name: rf"(?<![\w:]){name}::|\buse\s+{name}\s+as\s" for name in crates}
            code |= {name for name in crates if re.search(named[name], text)}
            cited |= {name for name in crates if re.search(named[name], ghost)}
    return code - {crate}, (cited | code) - {crate}


def drawn(crates, about):
    calls, rests = {}, {}
    for crate in crates:
        calls[crate], rests[crate] = used(crate, crates)
    level = {}

    def height(crate):
        if crate not in level:
            level[crate] = 1 + max((height(other) for other in rests[crate] if other in crates), default=-1)
        return level[crate]

    def below(crate):
        return set().union(*({other} | below(other) for other in calls[crate] if other in crates)) if calls[crate] else set()

    rows = []
    for number in range(max(map(height, crates)), -1, -1):
        for crate in sorted(name for name in crates if height(name) == number):
            direct = {other for other in calls[crate] if other in crates and not any(other in below(next) for next in calls[crate] if next in crates and next != other)}
            named = ", ".join(f"`{other}`" for other in sorted(direct - LAWS))
            rows.append(f"| {number} | `{crate}` | {about[crate]} | {named} |")
    return rows


def main():
    crates, about = listed()
    rows = drawn(crates, about)
    table = "\n".join(["| Level | Crate | What it has | Its code calls |", "|---|---|---|---|", *rows])
    page = pathlib.Path("README.md")
    text = page.read_text()
    if "--write" in sys.argv:
        page.write_text(re.sub(r"\| Level \| Crate .*?\n(?=\n)", lambda _: table + "\n", text, flags=re.S))
    elif "--check" in sys.argv:
        if table not in text:
            sys.exit("README.md does not have the table that tools/layers.py makes: python3 tools/layers.py --write")
    else:
        print(table)


if __name__ == "__main__":
    main()
