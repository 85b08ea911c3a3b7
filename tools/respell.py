#!/usr/bin/env python3
"""Brings the repository's own names to snake case: definitions, lemmas, fields and variables of specs/ and proofs/, and where clauses cite them.

usage: python3 tools/respell.py [--check]     at the top of the repository, once, after the toolchain's own port script

`wordOf` becomes `word_of`, and the fields of `FIELDS` lose their dash. Names that begin with a capital stay, and so does what stands in comments,
strings, and code of src/ outside of clauses and `ghost use` lines. Where a new name stood already, the old holder of it is renamed first (`MOVED`).
--check lists the names that would fall together, and writes nothing.
"""
import os
import re
import sys

# The fields of records in specs/ that had a dash.
FIELDS = """any-budget any-room entries-differ few-labels memory-zeros not-read not-write place-fits refused-only routine-is says-good says-refused
table-zeros value-fits well-placed word-is""".split()
# Lemmas whose name a definition takes now, by the folder in which they are cited: a lemma of its function's name gets `_lem`.
MOVED = {
    "": ("goes_on", "is_x", "none_of", "string_bytes"),
    "compiler/": ("an_item", "too_long", "too_short"),
}
NAME = re.compile(r"[^\s(){}\[\],;.:«»⟦⟧\"]+")
HUMP = re.compile(r"(?<=[a-z0-9])([A-Z])")


def snake(word):
    """The word with each hump in snake case, part by part between dashes; a part that begins with a capital stays."""
    parts = []
    for part in word.split("-"):
        if part[:1].islower():
            part = HUMP.sub(lambda m: "_" + m[1].lower(), part)
        parts.append(part)
    return "-".join(parts)


def renamed(word, path):
    if any(word in names and path.startswith(folder) for folder, names in MOVED.items()):
        return word + "_lem"
    if word in FIELDS:
        return word.replace("-", "_")
    if not word[:1].islower():
        return word
    return snake(word)


def antt(text, path):
    """A text of antt with its names turned, but for comments and strings."""

    def line(it):
        at = re.search(r"(^|(?<=\s))--(\s|$)", it)
        code, said = (it[: at.start()], it[at.start() :]) if at else (it, "")
        return re.sub(r'"[^"]*"|' + NAME.pattern, lambda m: m[0] if m[0][0] == '"' else renamed(m[0], path), code) + said

    return "\n".join(line(it) for it in text.split("\n"))


def rattle(text, path):
    """The names that clauses and `ghost use` lines of a source cite."""
    found, at = [], 0
    for it in re.finditer(r"(?m)^ghost use [^;]*;|^\s*(?:requires|ensures)\*?(?: \w+)? \{", text):
        if it.start() < at:
            continue
        end = it.end()
        if not it[0].startswith("ghost use"):
            depth = 1
            while depth:
                depth += {"{": 1, "}": -1}.get(text[end], 0)
                end += 1
        found += [text[at : it.start()], antt(text[it.start() : end], path)]
        at = end
    return "".join(found + [text[at:]])


def files(top):
    for folder, dirs, names in os.walk(os.path.join(top, "crates")):
        dirs[:] = sorted(d for d in dirs if d != "out")
        for name in sorted(names):
            if name.endswith((".antt", ".rt")):
                yield os.path.join(folder, name)


def main(words):
    texts = {}
    for path in files("."):
        with open(path, encoding="utf-8") as it:
            texts[path] = it.read()
    if words == ["--check"]:
        seen = {}
        for path, text in texts.items():
            code = "\n".join(re.sub(r"(^|\s)--(\s.*|$)", "", it) for it in text.split("\n")) if path.endswith(".antt") else ""
            for word in NAME.findall(code):
                seen.setdefault(renamed(word, os.path.relpath(path, "crates")), {}).setdefault(word, set()).add(path)
        for new, olds in sorted(seen.items()):
            if len(olds) > 1:
                print(new, {old: sorted(os.path.relpath(p, "crates") for p in paths)[:4] for old, paths in olds.items()})
        return 0
    for path, text in texts.items():
        below = os.path.relpath(path, "crates")
        new = antt(text, below) if path.endswith(".antt") else rattle(text, below)
        if new != text:
            with open(path, "w", encoding="utf-8") as it:
                it.write(new)
    return 0


if __name__ == "__main__":
    sys.exit(main(sys.argv[1:]))
