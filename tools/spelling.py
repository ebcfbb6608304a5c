#!/usr/bin/env python3
"""Brings the names of this repository's definitions and lemmas to snake case, and those of its types to camel case.

usage: python3 tools/spelling.py            at the top of the repository, once, right after the kit's own respelling
       python3 tools/spelling.py --check    writes nothing, and lists the names that would fall together with others

A name here is one that a file of specs/ or proofs/ declares: a definition, a lemma, a record, its fields, a local name. What the kit
names (the words of its library, the labels of goals) stays, but for labels that a proof imports by name from its goals: these were turned too, and
put back by hand. Functions, strings, inputs and outputs are not touched.
"""

import os
import re
import sys

WORD = re.compile(r"[A-Za-z][\w'-]*")
SOLID = re.compile(r'--[^\n]*|"(?:[^"\\\n]|\\.)*"')
RUST_SOLID = re.compile(r"//[^\n]*|\"(?:[^\"\\]|\\.)*\"|b?'(?:\\.|[^'\\])'")
USE = re.compile(r"(?:ghost )?use ([A-Za-z][.\w]*)\.\{([^}]*)\}")
# Names in neither style, and names whose plain spelling another thing here has.
SPECIAL = {
    "getD-table": "get_or_table",
    "getD-image": "get_or_image",
    "onC": "on_commits",
    "onA": "on_aborts",
    "valueOn": "value_on",
    "Runs_at": "RunsAt",
    "ones-in": "ones_counted",
}


# A field whose name is a tactic's today. The functions and parameters of that name stay.
FIELD = [
    (re.compile(r"\.assumption\b(?!\(|\.ensures|\.result)"), ".assumes"),
    (re.compile(r"(?<!let )\bassumption = "), "assumes = "),
    (re.compile(r"(?m)^(\s+(?:pub )?)assumption: "), r"\1assumes: "),
    (re.compile(r"\{ assumption, "), "{ assumes: assumption, "),
    (re.compile(r"(?m)^(\s+)assumption,$"), r"\1assumes: assumption,"),
]


def turned(name):
    """The name in today's spelling."""
    if name in SPECIAL:
        return SPECIAL[name]
    if "-" not in name.strip("-"):
        return name
    if name[0].isupper():
        return "".join(part[:1].upper() + part[1:] for part in name.split("-"))
    return name.replace("-", "_")


def paths(top, endings):
    for folder, dirs, files in os.walk(top):
        dirs[:] = sorted(d for d in dirs if d not in ("out", "target", ".git"))
        for f in sorted(files):
            if f.endswith(endings):
                yield os.path.join(folder, f)


def read(path):
    with open(path, encoding="utf-8", newline="") as it:
        return it.read()


def crate_of(path):
    return path.split(os.sep)[path.split(os.sep).index("crates") + 1]


def library_names(text, crates):
    """The names that a file takes from a library that is none of this repository's crates, as the file spells them."""
    found = set()
    for path, names in USE.findall(text):
        if path.startswith("Rattle.") and path.split(".")[1] in crates and ".declared." not in path:
            continue
        for item in names.split(","):
            found |= set(WORD.findall(item))
    return found


def own_fields(texts):
    """The fields of the records that the files of specs/ and proofs/ declare."""
    found = set()
    for text in texts:
        inside = False
        for line in text.split("\n"):
            if re.match(r"(?:(?:pub|abbrev|unfoldable) )*(?:record|module) ", line):
                inside = True
            elif line[:1].strip():
                inside = False
            field = re.match(r"\s+(?:pub )?([A-Za-z][\w'-]*)(?: [A-Za-z][\w'-]*)* : ", line)
            if inside and field:
                found.add(field.group(1))
    return found


def labels(text):
    """The goals that a file answers, whose names the kit makes."""
    return set(re.findall(r"^(?:(?:pub|abbrev) )*([A-Za-z][\w'-]*) : goal\.", text, re.M))


def turn_antt(text, crates, fields):
    keep = library_names(text, crates) | labels(text)

    def word(m):
        name = m.group(0)
        behind = code[: m.start()]
        if behind.endswith(".") and not behind.endswith("..") and name not in fields:
            return name
        if behind.endswith("goal.") or name in keep and not (behind.endswith(".") and name in fields):
            return name
        return turned(name)

    out, at = [], 0
    for solid in list(SOLID.finditer(text)) + [None]:
        code = text[at : solid.start() if solid else len(text)]
        out.append(WORD.sub(word, code))
        if solid:
            out.append(comment(solid.group(0)))
            at = solid.end()
    return "".join(out)


def comment(text):
    """A comment of a definition names it and its neighbours in the spelling that the code has."""
    return WORD.sub(lambda m: turned(m.group(0)) if m.group(0) in OWN else m.group(0), text) if text.startswith("--") else text


def turn_rt(text, crates):
    """In a source file a word with a dash inside stands only in a clause."""
    keep = library_names(text, crates)
    out, at = [], 0
    for solid in list(RUST_SOLID.finditer(text)) + [None]:
        code = text[at : solid.start() if solid else len(text)]
        out.append(WORD.sub(lambda m: m.group(0) if m.group(0) in keep else turned(m.group(0)), code))
        if solid:
            out.append(solid.group(0))
            at = solid.end()
    return "".join(out)


def turn_edit(text):
    return re.sub(r"(?m)^((?:old|new): )(.*)$", lambda m: m.group(1) + WORD.sub(lambda w: turned(w.group(0)) if w.group(0) in OWN else w.group(0), m.group(2)), text)


def own_names(files, crates):
    """Each name that a file of specs/ or proofs/ uses, where it is neither the library's nor a label behind a dot."""
    found = set()
    for text in files.values():
        keep = library_names(text, crates) | labels(text)
        for m in WORD.finditer(SOLID.sub(lambda s: " " * len(s.group(0)), text)):
            if not text[: m.start()].endswith(".") and m.group(0) not in keep:
                found.add(m.group(0))
    return {n for n in found if turned(n) != n}


def fallen_together(before, after):
    """Pairs of names of one file that are one name afterwards."""
    a = [m.group(0) for m in WORD.finditer(SOLID.sub("", before))]
    b = [m.group(0) for m in WORD.finditer(SOLID.sub("", after))]
    spelled = {}
    for old, new in zip(a, b):
        spelled.setdefault(new, set()).add(old)
    return {new: olds for new, olds in spelled.items() if len(olds) > 1}


def main():
    global OWN
    check = "--check" in sys.argv[1:]
    crates = set(os.listdir("crates"))
    antt = {p: read(p) for p in paths("crates", (".antt",))}
    fields = own_fields(antt.values())
    OWN = own_names(antt, crates) | {f for f in fields if turned(f) != f}
    turned_files = {p: turn_antt(t, crates, fields) for p, t in antt.items()}
    for p in paths("crates", (".rt",)):
        antt[p] = read(p)
        turned_files[p] = turn_rt(antt[p], crates)
    for p in paths("crates", (".edit",)):
        antt[p] = read(p)
        turned_files[p] = turn_edit(antt[p])
    for p, new in turned_files.items():
        for old_form, new_form in FIELD:
            new = turned_files[p] = old_form.sub(new_form, new)
        for name, olds in fallen_together(antt[p], new).items():
            print(f"look: {p}: {' and '.join(sorted(olds))} are {name} now")
        if new != antt[p] and not check:
            with open(p, "w", encoding="utf-8", newline="") as it:
                it.write(new)
    print(f"{len(OWN)} names turned, in {sum(turned_files[p] != antt[p] for p in antt)} files")


if __name__ == "__main__":
    main()
