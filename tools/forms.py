#!/usr/bin/env python3
"""Counts, in the source of every crate, the places where an older form may stand.

    python3 tools/forms.py [FOLDER] [-v]      FOLDER is a checkout; with -v each place is named

A line counted is a place to look at, not a fault. Proof files are only measured.
"""
import collections
import pathlib
import re
import sys

FUNCTION = re.compile(r"^( *)(?:pub(?:\([a-z]+\))? )?(?:final )?fn (\w+)")
TOKEN = re.compile(r"b?'(?:\\.|[^'])'|\"(?:\\.|[^\"])*\"|\.\w+|\w+!?|[^\s\w]")
KEYWORDS = set("as break const else false fn for if impl in let loop match mut pub ref return self Self struct true use while Some None Ok Err".split())


def sources(root):
    return sorted(p for p in (root / "crates").glob("*/src/**/*.rt"))


def functions(lines):
    """Each function as (first line, name, contract lines, body lines)."""
    at = 0
    while at < len(lines):
        head = FUNCTION.match(lines[at])
        if not head:
            at += 1
            continue
        indent, opening, end = head.group(1), None, at
        while end < len(lines):
            if opening is None and re.search(r"\{$", lines[end]) and not re.match(r"\s*(requires|ensures)\b", lines[end]):
                opening = end
            if opening is None and lines[end].rstrip().endswith(";"):
                break
            if opening is not None and lines[end] == indent + "}":
                break
            end += 1
        if opening is not None:
            yield at + 1, head.group(2), lines[at:opening + 1], lines[opening + 1:end]
        at = end + 1


def shape(body):
    """The body with its names and literals numbered in the order in which they come."""
    seen, out = {}, []
    for token in TOKEN.findall(re.sub(r"//.*", "", "\n".join(body))):
        if token.startswith(".") or token in KEYWORDS or not re.match(r"[\w'\"]", token):
            out.append(token)
        else:
            out.append(seen.setdefault(token, f"#{len(seen)}"))
    return tuple(out)


def lines_with(root, pattern):
    found = []
    for path in sources(root):
        for number, line in enumerate(path.read_text().split("\n"), 1):
            if re.search(pattern, line) and not line.lstrip().startswith(("//", "requires", "ensures", "ghost")):
                found.append(f"{path.relative_to(root)}:{number}: {line.strip()}")
    return found


def numbered(root):
    """Functions that match variants to numbers or numbers to variants, and constants and lists of such numbers."""
    found = []
    arm = r"^\s*(\w+::\w+ => \d+|\d+ => (Some|Ok)\(\w+::\w+\)),$"
    for path in sources(root):
        for number, name, _, body in functions(path.read_text().split("\n")):
            if any(re.search(arm, line) for line in body):
                found.append(f"{path.relative_to(root)}:{number}: {name}")
    return found + lines_with(root, r"^(pub )?const \w+: u8 = |answers: &\[u8\]")


def wrapped(root):
    """Errors that are taken apart and put together again."""
    return lines_with(root, r"Err\([\w:]+(\(\w+\))?\) => (return )?Err\(|return Err\(\w+::\w+\(\w+\)\)|^\s*let (Ok|Err)\(.*else \{")


def twins(root):
    groups = collections.defaultdict(list)
    for path in sources(root):
        for number, name, _, body in functions(path.read_text().split("\n")):
            form = shape(body)
            if len(form) >= 14:
                groups[form].append(f"{path.relative_to(root)}:{number}: {name}")
    return [" ~ ".join(group) for group in groups.values() if len(group) > 1]


def facts(root):
    """Conditions on arguments that three or more functions ask for."""
    groups = collections.defaultdict(list)
    for path in sources(root):
        for number, name, contract, _ in functions(path.read_text().split("\n")):
            for line in contract:
                clause = re.match(r"\s*requires \w* ?\{ (.*) \}$", line) or re.match(r"\s*requires \{ (.*) \}$", line)
                for fact in re.split(r" × ", clause.group(1)) if clause else []:
                    groups[fact.strip("() ")].append(f"{path.relative_to(root)}:{number}: {name}")
    return [f"{fact}: " + ", ".join(group) for fact, group in groups.items() if len(group) > 2]


def promises(root):
    """Clauses that three or more functions of a crate promise word for word."""
    groups = collections.defaultdict(list)
    for path in sources(root):
        crate = path.relative_to(root / "crates").parts[0]
        for number, name, contract, _ in functions(path.read_text().split("\n")):
            for line in contract:
                clause = re.match(r"\s*ensures(?: \w+)? \{ (.*) \}$", line)
                if clause:
                    groups[crate, clause.group(1)].append(f"{path.relative_to(root)}:{number}: {name}")
    return [f"{crate}: {clause}: " + ", ".join(group) for (crate, clause), group in sorted(groups.items()) if len(group) > 2]


def companions(root):
    """Pairs of parameters that three or more functions of a crate take together."""
    groups = collections.defaultdict(list)
    for path in sources(root):
        crate = path.relative_to(root / "crates").parts[0]
        for number, name, contract, _ in functions(path.read_text().split("\n")):
            text = " ".join(re.split(r"\s(?:requires|ensures)\b", " ".join(line.strip() for line in contract))[0].split())
            names = sorted(set(re.findall(r"(?:mut )?([a-z]\w*): ", text.split("(", 1)[1] if "(" in text else "")))
            for i, first in enumerate(names):
                for second in names[i + 1:]:
                    groups[crate, first, second].append(name)
    return [f"{crate}: {a}, {b}: " + ", ".join(group) for (crate, a, b), group in sorted(groups.items()) if len(group) > 2]


POINTS = [
    ("1a variants and numbers matched by hand, numbers for kinds and refusals", numbered),
    ("1b errors taken apart and wrapped by hand", wrapped),
    ("2  functions of one shape", twins),
    ("3a loops over a counted index", lambda root: lines_with(root, r"for \w+ in 0\.\.|\.enumerate\(\)|^\s*while ")),
    ("3b counters", lambda root: lines_with(root, r"^\s*\w+ [-+]= 1;")),
    ("4a conversions and equality by hand", lambda root: lines_with(root, r"matches!\(|fn (of|number|value)\((self|\w+: u\d+)\)")),
    ("4b printing by hand", lambda root: lines_with(root, r"impl (fmt::)?(Display|Debug|Error) for")),
    ("4c casts", lambda root: lines_with(root, r"\bas (u8|u16|u32|u64|usize)\b")),
    ("5a conditions that three or more functions ask for", facts),
    ("5b parameters that travel together", companions),
    ("5c clauses that three or more functions promise word for word", promises),
    ("6  fixed buffers in structs", lambda root: lines_with(root, r"^\s+(pub )?\w+: \[.*; .*\],$")),
    ("7  impls of traits that stand for one function", lambda root: lines_with(root, r"^impl(<.*>)? \w*(Predicate|Step|Action)\w* for")),
]


def measured(root):
    rows = []
    for crate in sorted((root / "crates").iterdir()):
        size = lambda *globs: sum(len(p.read_text().split("\n")) - 1 for g in globs for p in crate.glob(g))
        counted = (size("src/**/*.rt"), size("specs/**/*.antt"), size("proofs/**/*.antt"), len(list(crate.glob("proofs/*/**/*.antt"))))
        rows.append((crate.name, *counted))
    return rows


def main():
    words = [word for word in sys.argv[1:] if word != "-v"]
    root = pathlib.Path(words[0] if words else ".").resolve()
    for title, count in POINTS:
        found = count(root)
        print(f"{len(found):4} {title}")
        if "-v" in sys.argv:
            for place in found:
                print("       ", place)
    print("     8 lines of src, specs and proofs, and files of answers and invariants")
    rows = measured(root)
    for name, *counted in rows:
        if any(counted):
            print(f"        {name:12} {counted[0]:6} {counted[1]:6} {counted[2]:6} {counted[3]:4}")
    print(f"        {'all':12} {sum(r[1] for r in rows):6} {sum(r[2] for r in rows):6} {sum(r[3] for r in rows):6} {sum(r[4] for r in rows):4}")


main()
