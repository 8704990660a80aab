"""Lists imports that their file does not use, and laws and definitions that nothing uses. Run at the top of the repository: python3 tools/unused.py.

It goes by names: a name of a file counts as used where another file imports it, where an attribute of the code names it for a proof, or where the file
itself mentions it outside its own statement and proof. Answers and invariants are used by the check, by the names of their goals. Results that stand for
a reader are used by nobody in this sense; KEPT names the files that hold them.
"""
import pathlib
import re

ROOT = pathlib.Path("crates")
KEPT = {"RoundTrip", "ThirdDemand", "Injective", "Numbered", "Accepts", "AcceptsCompiled", "WellFormed", "Zhegalkin", "Example", "Printed", "Input", "Determined",
        "Compared", "UnmarkedFlags", "Contracts", "EachStar", "MaskOrder", "Operands", "TreeNodes"}
COMMENT = re.compile(r"(?m)(^|\s)(--|//)(\s.*)?$")
USE = re.compile(r"(?m)^\s*(?:pub )?(?:ghost )?use ([^\s;:{]+?)(?:\.\{([^}]*)\}| as (\S+?))?;?\s*$")
# What a Rattle file imports for its code.
CODE_USE = re.compile(r"(?m)^\s*(?:pub )?use [^;]*;")
TACTIC = re.compile(r"#!?\[tactic\(([^\]]*)\]")
DECLARED = re.compile(r"( *)(?:(?:abbrev |unfoldable |pub )*([^\s:(){}=]+) : |(?:pub )?(?:record|data) ([^\s:(){}=]+))")
# An answer, an invariant or a measure: its type is the goal's.
GOAL = re.compile(r" *(?:abbrev |unfoldable |pub )*(\S+) : \S+\.\1$")
WORD_ENDS = re.compile(r"[\s(){};,.⌜⌝⟦⟧`]+|(?<!\[)\]|\[(?!\])")


def words(text):
    found = set(WORD_ENDS.split(text))
    return found | {word.strip("◌") for word in found}


def parts(name):
    """A name, and the visible parts of an operator's."""
    return {name} | ({part for part in name.split("◌") if part} if "◌" in name else set())


def home(module):
    """The crate, the folder and the file that a module's name stands for."""
    found = re.match(r"Rattle\.(\w+)\.(specs|proofs)\.(.*)", module)
    return found and found.groups()


def by_tactics(path, text):
    """What the attributes of a Rattle file name for its proofs, as `crate::proofs::File::law`."""
    used = set()
    for given in TACTIC.findall(text):
        for crate, kind, file, name in re.findall(r"(\w+)::(specs|proofs)::([\w:]+)::(\w+)", given):
            used.add(((path.parts[1] if crate == "crate" else crate, kind, file.replace("::", ".")), name))
    return used


def imported(texts):
    used = set()
    for path, text in texts.items():
        if path.suffix == ".rt":
            used |= by_tactics(path, text)
        body = USE.sub("", text)
        for module, group, alias in USE.findall(text):
            short = alias or module.split(".")[-1]
            if not group:
                used |= {(home(module), name) for name in re.findall(rf"(?<![\w-]){re.escape(short)}\.([^\s(){{}};,.]+)", body)}
            for name in filter(None, map(str.strip, group.split(","))):
                name, _, other = name.partition(" as ")
                used.add((home(module), name))
                if not parts(other or name) & words(CODE_USE.sub("", body) if path.suffix == ".rt" else body):
                    print(f"{path}: import {name}")
    return used


def declarations(lines):
    """Each declared name with its first line and the line after its last; the fields of a record and the answers to goals are left out."""
    inside = None
    for i, line in enumerate(lines):
        if inside is not None and line.strip() and len(line) - len(line.lstrip()) <= inside:
            inside = None
        found = DECLARED.match(line)
        if not found or inside is not None:
            continue
        indent, name = found.group(1), found.group(2) or found.group(3)
        if re.match(r" *(?:pub )?record ", line):
            inside = len(indent)
        if GOAL.match(line):
            continue
        end = i + 1
        while end < len(lines) and (
            not lines[end].strip() or lines[end].startswith(indent + " ") or lines[end][len(indent) :].split(" ")[0] in (name, "unfolding")
        ):
            end += 1
        yield name, i, end


found = sorted(path for path in ROOT.rglob("*") if path.suffix in (".antt", ".rt") and path.parts[2] != "out")
texts = {path: COMMENT.sub("", path.read_text()) for ending in (".antt", ".rt") for path in found if path.suffix == ending}
used = imported(texts)
for path, text in texts.items():
    if path.suffix == ".rt" or (path.stem in KEPT or path.stem.endswith("Rows")):
        continue
    crate, kind, *rest = path.relative_to(ROOT).with_suffix("").parts
    lines = USE.sub(lambda found: "\n" * found.group(0).count("\n"), text).split("\n")
    for name, start, end in declarations(lines):
        known = ((crate, kind, ".".join(rest)), name) in used or name.endswith("_spec")
        if not known and not parts(name) & words("\n".join(lines[:start] + lines[end:])):
            print(f"{path}:{start + 1}: {name}")
