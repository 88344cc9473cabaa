#!/usr/bin/env python3
"""Brings the repository's own definitions and lemmas to the spelling of the Rattle that it is proved with: words in snake case, types and modules in
camel case, a dash only between two names. Run once at the top of the repository, after the toolchain's own port.py; the names are in respelled.txt.
Strings of source files, and Rust names, stay."""

import os
import re

TOOLS = os.path.dirname(os.path.realpath(__file__))
TOKEN = re.compile(r"[^\s(){}\[\],;.:λ`⌜⌝\"|]+")
MODULES = {"handing": "Promises", "marks": "Promises"}


def table():
    everywhere, places = {}, []
    with open(os.path.join(TOOLS, "respelled.txt"), encoding="utf-8") as f:
        for line in f:
            words = line.split()
            if not words or words[0] == "#":
                continue
            if len(words) == 3:
                places.append((words[2], words[0], words[1]))
            else:
                everywhere[words[0]] = words[1]
    return everywhere, places


def names_for(path, everywhere, places):
    names = dict(everywhere)
    for place, old, new in places:
        if path == place or (place.endswith("/") and path.startswith(place)):
            names[old] = new
    return names


def respelled(text, names):
    text = TOKEN.sub(lambda m: names.get(m.group(0), m.group(0)), text)
    return text


def source(text, names):
    """A source file: its strings stay as they are."""
    parts = re.split(r'("(?:[^"\\\n]|\\.)*")', text)
    return "".join(p if i % 2 else respelled(p, names) for i, p in enumerate(parts))


def borrowed(path, text):
    """What stands behind a reference is a field of it, and the set of lemmas that was called needs is rules."""
    if not path.endswith(".antt"):
        return text
    text = re.sub(r"\(now (m|m'|r|part|shown|shown'|memory|memory'|mem)\)", r"\1.now", text)
    text = re.sub(r"(?<![\w'.-])now (m|m'|r|part|shown|shown'|memory|memory'|mem)(?![\w'-])", r"\1.now", text)
    text = text.replace("search needs", "search rules")

    def words(m):
        names = ["rules" if n == "needs" else n for n in m.group(1).split(", ") if n not in ("now", "RefT")]
        return "use Rattle.words.specs.Words.{" + ", ".join(names) + "}" if names else ""

    return re.sub(r"use Rattle\.words\.specs\.Words\.\{([^}]*)\}", words, text)


def main():
    everywhere, places = table()
    files = []
    for folder, dirs, found in os.walk("crates"):
        dirs[:] = sorted(d for d in dirs if d != "out")
        files += [os.path.join(folder, f) for f in sorted(found) if f.endswith((".antt", ".rt"))]
    for path in files:
        with open(path, encoding="utf-8") as f:
            text = f.read()
        names = names_for(path, everywhere, places)
        new = text.replace("adui.symbol-at", "adui.symbol_at_lem")
        new = source(new, names) if path.endswith(".rt") else respelled(new, names)
        # A module that would have the name of one that Rattle makes
        for crate, module in MODULES.items():
            new = new.replace(f"Rattle.{crate}.specs.Contracts", f"Rattle.{crate}.specs.{module}")
            if path == f"crates/{crate}/specs/Lib.antt":
                new = new.replace("pub mod Contracts", f"pub mod {module}")
        new = borrowed(path, new)
        new = re.sub(r"([\w'-]+) as \1(?![\w'-])", r"\1", new)
        if new != text:
            with open(path, "w", encoding="utf-8") as f:
                f.write(new)
    for crate, module in MODULES.items():
        old = f"crates/{crate}/specs/Contracts.antt"
        if os.path.exists(old):
            os.rename(old, f"crates/{crate}/specs/{module}.antt")


if __name__ == "__main__":
    main()
