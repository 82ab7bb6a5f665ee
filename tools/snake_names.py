#!/usr/bin/env python3
"""Brings this repository's own definitions, laws, fields and constructors to snake case.

usage: python3 tools/snake_names.py [FOLDER]     at the top of the repository, or of the one in FOLDER

It is run once, after the toolchain's own script and before any edit by hand. A name is one of the repository's
own if a file of crates/*/specs or crates/*/proofs declares it; names that Rattle makes for the proof of a
function (those with a type of `tie`), and names that a file imports from a library, stay as they are. In .antt
and .edit files every token is looked at, in .rt files all but strings; in comments and pages only what stands
between backticks. Names that would fall together are printed, and then nothing is written.
"""

import collections
import os
import re
import sys

DECLARED = re.compile(
    r"^\s*(?:(?:pub|abbrev|unfoldable|data|record)\s+)*([^\s:(){}\[\],;]+)\s+(?:\{[^}]*\}\s*)*:(?:\s+(.*))?$"
)
IMPORT = re.compile(r"use\s+([^\s{]+?)\.\{([^}]*)\}")
TOKEN = re.compile(r"[^\s(){}\[\],;.:\"`]+")
QUOTED = re.compile(r"`[^`\n]*`")
# words that were written in camel case
WORDS = [("flatMap", "flat_map"), ("getD", "get_or"), ("isZero", "is_zero"), ("natAbs", "nat_abs")]
WORDS += [("eqZ", "eq_z"), ("leZ", "le_z"), ("ltZ", "lt_z")]


def snake(name):
    for old, new in WORDS:
        name = re.sub(r"(?<![A-Za-z])" + old + r"(?![a-z])", new, name)
    # an operator keeps its sign: `natAbs--ℤ` is about `-ℤ`
    name = re.sub(r"-(?!ℤ)", "_", name.replace("--ℤ", "_-ℤ"))
    return name.replace("\u2032", "'")


def files(root):
    for folder, dirs, names in os.walk(root):
        dirs[:] = sorted(d for d in dirs if d not in ("out", ".git", "target"))
        for name in sorted(names):
            yield os.path.join(folder, name)


def read(path):
    with open(path, encoding="utf-8") as f:
        return f.read()


def declared(root):
    """The names that the crates' own files declare, and those that one has from a library."""
    own, made = set(), set()
    for path in files(os.path.join(root, "crates")):
        if not path.endswith(".antt"):
            continue
        for line in read(path).split("\n"):
            if line.lstrip().startswith("--"):
                continue
            m = DECLARED.match(line)
            if m:
                (made if (m.group(2) or "").startswith("tie.") else own).add(m.group(1))
    return own, made


def bound(root, crates):
    """The names with a dash that files of definitions and laws bind, as parameters: all that no library has."""
    theirs, found = set(), set()
    for path in files(os.path.join(root, "crates")):
        text = read(path) if path.endswith((".antt", ".rt")) else ""
        theirs |= foreign(text, crates) | set(re.findall(r"\.([^\s(){}\[\],;.:\"`]+)", text))
        if path.endswith(".antt") and re.search(r"/(specs|proofs)/[^/]*$", path):
            found |= {t for t in TOKEN.findall(uncommented(text)) if re.match(r"[a-z]+-[a-z][a-z-]*$", t)}
    return found - theirs


def foreign(text, crates):
    """The names that this file imports from a library."""
    found = set()
    for m in IMPORT.finditer(text):
        parts = m.group(1).split(".")
        if parts[0] == "Rattle" and len(parts) > 1 and parts[1] in crates:
            continue
        found |= {n.strip().split(" as ")[0] for n in m.group(2).split(",")}
    return found


def tokens(text, names):
    return TOKEN.sub(lambda m: names.get(m.group(0), m.group(0)), text)


def quoted(text, names):
    return QUOTED.sub(lambda m: tokens(m.group(0), names), text)


def uncommented(text):
    return re.sub(r"(?m)(^\s*| )-- .*$", "", text)


def antt(text, names):
    out = []
    for line in text.split("\n"):
        at = line.find("--") if line.lstrip().startswith("--") else line.find(" -- ")
        out.append(tokens(line, names) if at < 0 else tokens(line[:at], names) + quoted(line[at:], names))
    return "\n".join(out)


def source(text, names):
    out = []
    for line in text.split("\n"):
        parts = re.split(r"(//.*$|b?\"(?:[^\"\\]|\\.)*\")", line)
        for i, part in enumerate(parts):
            if i % 2 == 0:
                parts[i] = tokens(part, names)
            elif part.startswith("//"):
                parts[i] = quoted(part, names)
        out.append("".join(parts))
    return "\n".join(out)


def edit(text, names):
    out = []
    for line in text.split("\n"):
        out.append(tokens(line, names) if re.match(r"(old|new):", line) else quoted(line, names))
    return "\n".join(out)


def main(argv):
    root = argv[0] if argv else "."
    crates = set(os.listdir(os.path.join(root, "crates")))
    own, made = declared(root)
    names = {n: snake(n) for n in (own - made) | bound(root, crates) if snake(n) != n}
    together = collections.defaultdict(set)
    for n in own | made:
        together[names.get(n, n)].add(n)
    clash = {k: sorted(v) for k, v in together.items() if len(v) > 1}
    used = set()
    for path in files(os.path.join(root, "crates")):
        if path.endswith(".antt"):
            # a part of a path, as in `proofs.read_line.Goals` or `c.read_line.result`, is another thing
            used |= set(re.findall(r"(?<![.\w'-])[^\s(){}\[\],;.:\"`]+(?![.\w])", uncommented(read(path))))
    for n, new in names.items():
        if new in used - set(names):
            clash[new] = sorted({n, new})
    if clash:
        print("these names would fall together:", clash)
        return 1
    pages = [os.path.join(root, p) for p in os.listdir(root) if p.endswith(".md")]
    for path in list(files(os.path.join(root, "crates"))) + list(files(os.path.join(root, "docs"))) + pages:
        kind = path.rsplit(".", 1)[-1]
        turn = {"antt": antt, "rt": source, "edit": edit, "md": quoted}.get(kind)
        if turn is None or path.endswith("PORT.md"):
            continue
        text = read(path)
        mine = names
        if kind in ("antt", "rt"):
            theirs = foreign(text, crates)
            mine = {n: new for n, new in names.items() if n not in theirs}
        new = turn(text, mine)
        if new != text:
            with open(path, "w", encoding="utf-8") as f:
                f.write(new)
    print(f"{len(names)} names turned to snake case")
    return 0


if __name__ == "__main__":
    raise SystemExit(main(sys.argv[1:]))
