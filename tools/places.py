#!/usr/bin/env python3
"""Counts the places that docs/DESIGN-PASS.md speaks of, point by point, in crates/*/src and crates/*/proofs of a checkout:

    python3 tools/places.py [CHECKOUT] [-v]

Each count goes by the text alone, so it shows where to look and not what is wrong there; -v lists the places.
"""
import collections
import pathlib
import re
import sys

PLAIN = r"\b(?:u8|u16|u32|u64|usize|bool)\b"


def functions(text):
    """Name, head and body of each function: its brace stands on a line of its own where the function has clauses, and else at the end of its head."""
    for m in re.finditer(r"^([ ]*)(?:pub(?:\(crate\))? )?(?:extern \"C\" )?fn (\w+)", text, re.M):
        end = re.compile(r"^" + m.group(1) + r"\}", re.M).search(text, m.end())
        opened = re.compile(r"^" + m.group(1) + r"\{\n|^(?=" + m.group(1) + r"(?: |\)|pub|fn|ex)).*?\S \{\n", re.M)
        start = opened.search(text, m.start())
        if start and end and start.end() <= end.start():
            yield m.group(2), text[m.start():start.end() - 2], text[start.end():end.start()], text.count("\n", 0, m.start()) + 1


def code(text):
    return re.sub(r"//[^\n]*", "", text)


def blurred(name, head, body):
    """A function without its types, sizes, constants, names of variants and its own name: twins are equal."""
    text = code(re.sub(r"(?m)^\s*(requires|ensures).*?(?=^\s*(?:requires|ensures)|\Z)", "", head + "\n", flags=re.S) + body)
    text = re.sub(r"fn " + name, "fn F", text)
    text = re.sub(r'b?"[^"]*"|b\'[^\']*\'', "S", text)
    text = re.sub(r"\b\w+(?:::\w+)+", "P", text)
    text = re.sub(PLAIN + r"|\b[A-Z]\w*\b|\b\d\w*\b", "T", text)
    return re.sub(r"\s+", "", text).replace("pub", "")


def facts(head):
    """The facts of a function's `requires`, apart from one another."""
    for m in re.finditer(r"requires(?: \w+)? \{(.*?)\}\s*(?=requires|ensures|$)", head, re.S):
        for part in re.split(r" × ", m.group(1)):
            yield re.sub(r"\s+", " ", part).strip().strip("()")


def parameters(head):
    inner = re.search(r"\((.*?)\)(?: ->|\s|$)", head, re.S)
    return [p.split(":")[0].replace("mut ", "").strip() for p in (inner.group(1) if inner else "").split(",") if ":" in p]


def main():
    verbose = "-v" in sys.argv
    roots = [a for a in sys.argv[1:] if a != "-v"] or ["."]
    sources = sorted(pathlib.Path(roots[0]).glob("crates/*/src/**/*.rt"))
    found = collections.OrderedDict()

    def note(point, place):
        found.setdefault(point, []).append(place)

    bodies, asked, together = collections.defaultdict(list), collections.defaultdict(set), collections.Counter()
    alone = collections.Counter()
    for path in sources:
        text = path.read_text()
        where = "/".join(path.parts[-3:] if path.parts[-2] == "src" else path.parts[-4:])
        for m in re.finditer(r"^(?:pub )?enum (\w+)[^{]*\{\n(.*?)^\}", text, re.M | re.S):
            cases = [c for c in re.findall(r"^\s+(\w+)(\(|\s*\{)?.*?,$", code(m.group(2)), re.M)]
            if (len(cases) == 2 and any(c[1] for c in cases)) or any(c[0] in ("Refused", "None", "Open", "Neither", "Other", "End") for c in cases):
                note("1 own enums of the shape of Option or Result, or with a case for nothing", f"{where} {m.group(1)}")
        for i, line in enumerate(text.split("\n"), 1):
            place = f"{where}:{i} {line.strip()[:90]}"
            if re.search(r"//.*\b0 (?:for|where|while)\b|//.*: 0,|== 0 \{\s*$", line) and "len()" not in line:
                note("1 a number 0 that stands for none (comments and tests; to look at)", place)
            if re.search(r"^(?:pub )?const [A-Z_]+: u(?:64|16) = (?:\d+|0x\w{4});", line):
                note("1 numbers for kinds and refusals, as constants", place)
            if re.search(r"^\s*(?:pub )?(?:refused|is_\w+): bool,", line):
                note("1 a flag with a value beside it", place)
            if re.search(r"\bwhile\b|\bloop \{|\bfor \w+ in [^&{]*\.\.", code(line)):
                note("3 loops that count or walk by hand", place)
            if re.search(r"^\s*(?:pub )?fn (?:\w*same\w*|is_better|larger|wide|low_byte|low_bit|letters|put_decimal|put_all|copy|put_low|pair_at|half_at|word_at|"
                         r"arity|is_or|is_open|until|line_end|all_digits|until|store|expand|told|refused|listed|compiled|examined|raw_costed|code|kind_number|payload)\b", line):
                note("4 equality, order, copying, conversion and printing by hand (functions by name)", place)
            if re.search(r"match (?:item|way|call)\b", line):
                note("7 a switch on which step to run", place)
            if re.search(r"^\s*let mut \w+ = \[[^\]]*; [^\]]*\];$|\[u8; \w+\],$|^\s*(?:pub )?(?:at|place|start): usize,$|\bat: (?:usize|Cursor)\b", line):
                note("6 buffers and places in them", place)
        for name, head, body, line in functions(text):
            bodies[blurred(name, head, body)].append(f"{where}:{line} {name}")
            for fact in set(facts(code(head))):
                asked[fact].add(f"{where}:{line} {name}")
            names = sorted(set(parameters(code(head))) - {"self"})
            for i, one in enumerate(names):
                alone[one] += 1
                for other in names[i + 1:]:
                    together[one, other] += 1
    for places in bodies.values():
        if len(places) > 1:
            for place in places:
                note("2 twins: functions equal but for types, sizes, constants and names of variants", place)
    for fact, places in sorted(asked.items()):
        if len(places) > 2 and "Room" not in fact:
            note("5 facts in the `requires` of three functions or more", f"{fact}: {len(places)}")
    for (one, other), n in together.most_common():
        if n > 3 and n >= 0.8 * max(alone[one], alone[other]):
            note("5 parameters that travel together (four functions or more)", f"{one}, {other}: {n}")
    answers = sorted(pathlib.Path(roots[0]).glob("crates/*/proofs/**/Answers.antt"))
    total = 0
    for path in answers:
        text = path.read_text()
        total += text.count("\n")
        lets = collections.Counter(re.sub(r"\s+", " ", x) for x in re.findall(r"let ([\w-]+ (?::|=).*?) in\b", text, re.S) if len(x) > 60)
        for let, n in lets.items():
            if n > 2:
                note("8 a `let` that stands three times or more in a file of answers", f"{'/'.join(path.parts[-4:])}: {n} times {let[:70]}")
    for point, places in sorted(found.items()):
        print(f"{len(places):5}  {point}")
        if verbose:
            for place in places:
                print("         ", place)
    print(f"{len(answers):5}  8 files of answers, of {total} lines in all")


main()
