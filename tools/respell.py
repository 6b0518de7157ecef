#!/usr/bin/env python3
"""Brings the names that the crates' .antt files declare to snake case: `headerOk` and `header-ok` become
`header_ok`, a prime becomes an apostrophe. Types and modules keep their camel case, and names of the kit stay.

    python3 tools/respell.py names TREE TABLE     writes the table: a name, a tab, its new spelling
    python3 tools/respell.py modules              specs/Contracts.antt becomes specs/Steps.antt, since Rattle makes a
                                                  module `specs.contracts` of its own
    python3 tools/respell.py turn TABLE PATH..    turns the names in files of code, proofs and edits
    python3 tools/respell.py pages TABLE PATH..   turns them in the code spans of pages, and in comments

A name that a file takes from elsewhere than the crates stays as it is in that file. A lemma or a field that would have
a definition's name gets `_lem`.
"""

import os
import re
import sys

# A word of antt: anything but blanks, brackets, and the signs that end a name.
WORD = re.compile(r"[^\s(){}.;,@\"«»`]+")
DECLARED = re.compile(r"^\s*(?:pub\s+|abbrev\s+|unfoldable\s+)*([^\s(){}.;,@\"«»:=]+)\s+:\s", re.M)
# Names that Rattle gives in a proof, which the crates' files only repeat.
MADE = {"use", "invariant-loop", "decreases-loop"}
USE = re.compile(r"\buse\s+([^\s;{]+?)\.\{([^}]*)\}")


def snake(name):
    name = name.replace("′", "'").replace("-", "_")
    name = re.sub(r"(?<=[a-z0-9])([A-Z])", lambda m: "_" + m[1].lower(), name)
    return name


def crates_of(tree):
    return {name for name in os.listdir(os.path.join(tree, "crates"))}


def files(tree, ending):
    for folder, _, names in os.walk(tree):
        if "/out" in folder or "/.git" in folder:
            continue
        for name in sorted(names):
            if name.endswith(ending):
                yield os.path.join(folder, name)


def read(path):
    with open(path, encoding="utf-8") as file:
        return file.read()


def without_comments(text):
    return re.sub(r"(?m)(?:^|(?<=\s))--[^\n]*", "", text)


def names(tree, table):
    found, taken = {}, set()
    for path in files(os.path.join(tree, "crates"), ".antt"):
        for match in DECLARED.finditer(without_comments(read(path))):
            name = match[1]
            if not name[0].islower() or name in MADE:
                continue
            if "-" not in name:
                taken.add(snake(name))
            if snake(name) != name:
                found[name] = snake(name)
    with open(table, "w", encoding="utf-8") as file:
        for name in sorted(found):
            new = found[name]
            file.write(f"{name}\t{new}{'_lem' if '-' in name and new in taken else ''}\n")


def modules():
    for path in list(files("crates", ".antt")) + list(files("crates", ".rt")) + list(files("crates", ".edit")):
        text = read(path)
        new = text.replace("specs.Contracts", "specs.Steps").replace("specs/Contracts.antt", "specs/Steps.antt")
        if path.endswith("specs/Lib.antt"):
            new = new.replace("pub mod Contracts\n", "pub mod Steps\n")
        if new != text:
            with open(path, "w", encoding="utf-8") as file:
                file.write(new)
        if path.endswith("specs/Contracts.antt"):
            os.rename(path, path.replace("Contracts.antt", "Steps.antt"))


def table_of(path):
    return dict(line.rstrip("\n").split("\t") for line in open(path, encoding="utf-8"))


def from_elsewhere(text, own):
    kept = set()
    for module, items in USE.findall(text):
        parts = module.split(".")
        if parts[0] == "Rattle" and len(parts) > 1 and parts[1] in own:
            continue
        for item in items.split(","):
            for word in item.split():
                kept.add(word)
    return kept


def turn(table, paths, own):
    for path in paths:
        text = read(path)
        kept = from_elsewhere(text, own)
        new = WORD.sub(lambda m: table[m[0]] if m[0] in table and m[0] not in kept else m[0], text)
        if new != text:
            with open(path, "w", encoding="utf-8") as file:
                file.write(new)


SPAN = re.compile(r"`[^`\n]+`")


def pages(table, paths):
    for path in paths:
        text = read(path)
        new = SPAN.sub(lambda span: WORD.sub(lambda m: table.get(m[0], m[0]), span[0]), text)
        if new != text:
            with open(path, "w", encoding="utf-8") as file:
                file.write(new)


def main(verb, *rest):
    if verb == "names":
        names(*rest)
    elif verb == "modules":
        modules()
    elif verb == "turn":
        own = crates_of(".")
        turn(table_of(rest[0]), rest[1:], own)
    elif verb == "pages":
        pages(table_of(rest[0]), rest[1:])
    else:
        sys.exit(__doc__)


if __name__ == "__main__":
    main(*sys.argv[1:])
