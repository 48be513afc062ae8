#!/usr/bin/env python3
"""Brings the repository's own definitions and lemmas to snake case, after /opt/rattle/port/port.py has run once.

usage: tools/respell_names.py [--list]     at the top of the repository; --list only prints the table of old and new names

Definitions, lemmas, constructors, fields and aliases of the .antt files that are in camel case (`bitOf`) or joined by dashes
(`rank-le`) become snake case; a lemma whose name would be a definition's gets `_lem`. Types, modules, the names of goals
(`returns-2`) and all names of src/ stay. The table is applied to the .antt files, to the .rt files, whose only such names stand in
contracts, to the must-fail edits, and to what README and docs/ put between backticks.
"""
import collections
import os
import re
import sys

# a token of antt: what stands between blanks, brackets and separators
WORD = r"[\w'′◌ᴼ#·-]"
TOKEN = re.compile(WORD + "+")
DEFINITION = re.compile(r"^(\s*)((?:(?:abbrev|unfoldable|pub|data|record)\s+)*)([^\s(){}\[\]:,;.]+)\s+:\s+(.*)")
USE = re.compile(r"(?m)^\s*(?:ghost )?use ([^\s{;]+)(?:\.\{([^}]*)\}|( as [^\s;]+))")
# names that Rattle makes, or that only look like them
KEPT = re.compile(r"(returns|invariant|decreases)(-|$)|.*-requires(-\d+)?$|.*-spec$")
SPECIAL = {"notANumber": "not_a_number", "takenAt0": "taken_at_0", "takenAt1": "taken_at_1", "to-T": "to_T", "firstBy": "FirstBy"}


def snake(name):
    if name in SPECIAL:
        return SPECIAL[name]
    name = name.replace("-", "_")
    name = re.sub(r"([a-z0-9])([A-Z])", lambda m: m.group(1) + "_" + m.group(2), name)
    return name.lower()


def files(endings):
    for folder, dirs, names in os.walk("crates"):
        dirs[:] = sorted(d for d in dirs if d != "out")
        for name in sorted(names):
            if name.endswith(endings):
                yield os.path.join(folder, name)


def read(path):
    with open(path, encoding="utf-8") as f:
        return f.read()


def own_names():
    """Each name that is declared, with whether some declaration is no lemma, and whether it is a lemma's somewhere."""
    found = collections.defaultdict(set)
    for path in files(".antt"):
        inside_record = False
        for line in read(path).split("\n"):
            if line.lstrip().startswith("--"):
                continue
            if re.match(r"((abbrev|unfoldable|pub)\s+)*(data|record)\b", line):
                inside_record = True
            elif line and not line[0].isspace():
                inside_record = False
            m = DEFINITION.match(line)
            if not m:
                continue
            indent, marks, name, _ = m.groups()
            word = "abbrev" in marks or "unfoldable" in marks or "data" in marks or "record" in marks
            found[name].add("definition" if word or (indent and inside_record) else "lemma")
        for _, names, alias in USE.findall(read(path)):
            for part in re.findall(r" as ([^\s,;}]+)", names + alias):
                found[part].add("definition")
    return found


def foreign(path_text):
    """The names that a file takes from elsewhere than this repository's crates."""
    taken = set()
    for module, names, _ in USE.findall(path_text):
        if module.startswith("Rattle.") and module.split(".")[1] not in ("std", "core"):
            continue
        taken |= {n.strip().split(" as ")[0].strip() for n in names.split(",")}
    return taken


def table():
    own = own_names()
    turned = {}
    for name in own:
        camel = name[0].islower() and re.search(r"[A-Z]", name)
        dashed = "-" in name and name[0].isalpha() and name[0].isascii()
        if (camel or dashed) and not KEPT.match(name) and re.fullmatch(r"[\w'-]+", name):
            turned[name] = snake(name)
    # a lemma that would fall together with a definition
    definitions = {turned.get(n, n) for n, kinds in own.items() if "definition" in kinds}
    camel_definitions = {turned[n] for n in turned if "definition" in own[n] and "-" not in n}
    for name, kinds in own.items():
        if "definition" in kinds:
            continue
        new = turned.get(name, name)
        if name in turned and new in definitions or name not in turned and new in camel_definitions:
            turned[name] = new + "_lem"
    return turned


def turn(text, turned, path, late=()):
    skipped = foreign(text)
    lemmas_here = {n for n in turned if turned[n].endswith("_lem") and turned[n] == n + "_lem"}

    def one(m):
        word = m.group(0)
        # what port.py had turned where it stands declared, and had left in an edit, a comment or a page
        if word not in turned and late and re.fullmatch(r"[a-z]\w*[A-Z]\w*", word) and snake(word) in late:
            return snake(word)
        if word not in turned or word in skipped:
            return word
        before = text[max(0, m.start() - 4):m.start()]
        if before.endswith("tie."):
            return word
        # in Rust text a plain snake word is a name of src/; after a dot it is a field or a step
        if word in lemmas_here and (not path.endswith(".antt") or before.endswith(".")):
            return word
        return turned[word]

    return TOKEN.sub(one, text)


def main():
    turned = table()
    if "--list" in sys.argv:
        for old in sorted(turned):
            print(old, turned[old])
        return
    snakes = {n for n in own_names() if re.fullmatch(r"[a-z0-9]+(_[a-z0-9]+)+", n)}
    for path in files((".antt", ".rt", ".edit")):
        text = read(path)
        new = turn(text, turned, path, snakes)
        if new != text:
            with open(path, "w", encoding="utf-8") as f:
                f.write(new)
    pages = ["README.md"] + [os.path.join(d, f) for d, _, fs in os.walk("docs") for f in fs if f.endswith(".md")]
    camels = {n: t for n, t in turned.items() if re.search(r"[A-Z]", n) and n[0].islower()}
    for path in sorted(pages):
        text = read(path)
        new = re.sub(r"`[^`\n]+`", lambda m: turn(m.group(0), camels, path, snakes), text)
        if new != text:
            with open(path, "w", encoding="utf-8") as f:
                f.write(new)


if __name__ == "__main__":
    main()
