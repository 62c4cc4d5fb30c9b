#!/usr/bin/env python3
"""Respells this repository's own definitions and lemmas: words in snake case, types in camel case.

usage: python3 tools/respell.py [--list]      at the top of the repository, once, after the kit's own scripts

A name is taken from its signature in specs/ or proofs/, or from the `as` of an import. Names that the checker makes
(goals, steps, labels of clauses) and names of src/ are left alone. --list prints the table of old and new names and changes nothing.
"""
import collections
import os
import re
import sys

SIGNATURE = re.compile(
    r"^(\s*)((?:(?:abbrev|unfoldable|pub|record|data)\s+)*)([^\s:(){}.\"]+)((?:\s*[({].*)?\s:\s.*)$"
)
ALIAS = re.compile(r"[\w'] as ([a-z]+[A-Z]\w*)")
WORD = re.compile(r"(?<![\w'\-′])([^\W\d](?:[\w'′]|-(?=\w))*)(?![\w'′])")

# The library's other name for a fact of each element of a list, in the files that import it under this one.
BY_RECURSION = re.compile(r"\bAllByRecursion as All\b")

# Names that would fall together with another one, each with the name that it gets.
SET_APART = {
    "all_plain": "all_plain_lem",
    "back_at": "back_at_lem",
    "collect-at": "collect_at_lem",
    "drop-at": "drop_at_lem",
    "evening-row": "evening_row_lem",
    "first-row": "first_row_lem",
    "handed-on": "handed_on_lem",
    "holding-on": "holding_on_lem",
    "is-figure": "is_figure_lem",
    "is-vacant": "is_vacant_lem",
    "lowest-row": "lowest_row_lem",
    "marks-in": "marks_in_lem",
    "mask-seen": "mask_seen_lem",
    "row-of": "row_of",
}


def texts(endings):
    for folder, dirs, files in os.walk("crates"):
        dirs[:] = sorted(d for d in dirs if d not in ("out", "target"))
        for name in sorted(files):
            if name.endswith(endings):
                yield os.path.join(folder, name)


def read(path):
    with open(path, encoding="utf-8") as f:
        return f.read()


def is_goal(kind):
    return re.match(r"\s*:\s+(goal|need|needs)\.", kind) is not None


def own_names():
    """Each name that a signature of this repository gives, with whether it is a type."""
    found = collections.defaultdict(set)
    for path in texts((".antt",)):
        lines = read(path).split("\n")
        for i, line in enumerate(lines):
            bare = line.strip()
            if bare.startswith(("use ", "pub use ", "--", "let ", "mod ", "pub mod ", "|")):
                continue
            m = SIGNATURE.match(line)
            if not m or "=" in m.group(3) or is_goal(m.group(4)):
                continue
            kind = m.group(4).rstrip()
            while kind.endswith(("→", "×")) and i + 1 < len(lines):
                i += 1
                kind += " " + lines[i].strip()
            if i + 1 < len(lines) and re.match(r"\s+(→|×|≡)", lines[i + 1]):
                j = i + 1
                while j < len(lines) and re.match(r"\s+(→|×|≡)", lines[j]):
                    kind += " " + lines[j].strip()
                    j += 1
            typed = re.search(r"(→|:)\s*Type 0(\s+where)?$", kind.strip()) is not None
            found[m.group(3)].add(typed)
    for path in texts((".antt", ".rt")):
        for line in read(path).split("\n"):
            if re.match(r"(pub )?(ghost )?use ", line):
                for name in ALIAS.findall(line):
                    found[name].add(False)
    return found


def snake(name):
    name = re.sub(r"([a-z0-9'])([A-Z])", r"\1-\2", name)
    return name.replace("-", "_").lower()


def joined(name):
    first, *rest = name.split("_")
    return first + "".join(word.capitalize() for word in rest)


def camel(name):
    return "".join(part[:1].upper() + part[1:] for part in re.split(r"[-_]", name))


def table():
    out = {}
    own = own_names()
    # Of two names that would fall together, one is set apart, where both are still there.
    apart = {old: new for old, new in SET_APART.items() if "-" in old or joined(old) in own}
    for name, kinds in own.items():
        plain = not re.search(r"[a-z0-9'][A-Z]|-", name)
        if name not in apart and (plain or name[:1].isupper() and "-" not in name):
            continue
        typed = kinds == {True} or name[:1].isupper()
        out[name] = apart.get(name) or (camel(name) if typed else snake(name))
    return out


def turned(text, names):
    return WORD.sub(lambda m: names.get(m.group(1), m.group(1)), text)


def turned_page(text, names):
    """A page names code between backticks alone."""
    return re.sub(r"`[^`\n]+`", lambda m: turned(m.group(0), names), text)


def main():
    names = table()
    if "--list" in sys.argv:
        for old, new in sorted(names.items()):
            print(old, new)
        return
    pages = ["README.md"] + [os.path.join("docs", page) for page in sorted(os.listdir("docs")) if page.endswith(".md")]
    for path in [*texts((".antt", ".rt", ".edit")), *pages]:
        old = read(path)
        new = turned_page(old, names) if path.endswith(".md") else turned(old, names)
        if BY_RECURSION.search(new):
            new = re.sub(r"(?<![\w'.-])All(?![\w'-])", "AllByRecursion", BY_RECURSION.sub("AllByRecursion", new))
        if new != old:
            with open(path, "w", encoding="utf-8") as f:
                f.write(new)


if __name__ == "__main__":
    main()
