#!/usr/bin/env python3
"""Brings the names of this repository's own definitions and lemmas to today's spelling: words in snake case, types in camel case, fields in snake case.

usage: python3 tools/respell.py [--list] FOLDER..

It reads the names that the .antt files below FOLDER/crates declare, and writes each of them anew in crates (sources, definitions, proofs, edits), and, with
the same names, in the pages and tests that cite them (docs, README.md, rust, tests). A name keeps the dashes that join it; a word between dashes
that has capitals inside becomes snake case. A lemma that would have the name of a definition ends in _lem. --list prints the old and the new names, and writes nothing. It fails where two names fall together.
"""
import os
import re
import sys

WORD = r"[\w'′·◌\-₀-₉]"
FIELD = re.compile(r"^\s+(?:pub )?([a-z][\w'′]*(?:-[\w'′]+)*) :")
NAME = re.compile(r"^\s*(?:abbrev |unfoldable |pub |record |data |instance )*([A-Za-z_◌][\w'′₀-₉◌·→↔≤\-]*)(?: \{[^}]*\})* (?::|\()")
TYPED = re.compile(r"^(?:abbrev |unfoldable |pub )+([a-z][\w'′]*)(?: \{[^}]*\})* : .*→ Type \d+$")
# a word of the library that has another name now
LIBRARY = {"getD": "get_or"}


def texts(root, endings):
    for top in ("crates", "docs", "rust", "tests", "vectors"):
        for folder, dirs, files in os.walk(os.path.join(root, top)):
            dirs[:] = sorted(d for d in dirs if d not in ("out", "target", ".git"))
            for f in sorted(files):
                if f.endswith(endings):
                    yield os.path.join(folder, f)
    page = os.path.join(root, "README.md")
    if ".md" in endings and os.path.exists(page):
        yield page


def read(path):
    with open(path, encoding="utf-8") as f:
        return f.read()


def statements(text):
    """The declarations of a file, each on one line."""
    out = []
    for line in text.split("\n"):
        if out and line.startswith("    ") and out[-1] and not out[-1].lstrip().startswith("--"):
            out[-1] += " " + line.strip()
        else:
            out.append(line)
    return out


def snake(word):
    if word in LIBRARY:
        return LIBRARY[word]
    if not word or not word[0].islower() or not re.search(r"[A-Z]", word):
        return word
    return re.sub(r"([a-z0-9'])([A-Z])", lambda m: m.group(1) + "_" + m.group(2), word).lower()


def respelled(name):
    return "-".join("◌".join(snake(w) for w in part.split("◌")) for part in name.split("-"))


def table(root):
    new, lemmas = {}, set()
    for path in texts(root, (".antt",)):
        in_specs = "/specs/" in path
        for line in statements(read(path)):
            typed = TYPED.match(line)
            if typed and in_specs:
                name = typed.group(1)
                new[name] = name[0].upper() + name[1:]
                continue
            declared = NAME.match(line)
            if declared and not line.lstrip().startswith(("use ", "--", "λ", "|")):
                name = declared.group(1)
                if "_" in name:
                    lemmas.add(name)
                if respelled(name) != name:
                    new.setdefault(name, respelled(name))
        if in_specs:
            for line in read(path).split("\n"):
                field = FIELD.match(line)
                if field and "-" in field.group(1):
                    new[field.group(1)] = respelled(field.group(1)).replace("-", "_")
    # a lemma that would have the name of a definition
    for name in sorted(set(new.values()) & lemmas):
        new.setdefault(name, name + "_lem")
    # an operator is written by the words between its holes
    for name in [n for n in new if "◌" in n]:
        for old, word in zip(name.split("◌"), new[name].split("◌")):
            if old and old != word:
                new.setdefault(old, word)
    return new


def word(text, found, new, path):
    """The new name at this place; the lemma of a definition's name is not the function of that name, which stands in paths and in sources."""
    name = new[found.group(1)]
    if name.endswith("_lem"):
        ends = text[found.start() - 1 : found.start()] + text[found.end() : found.end() + 1]
        if "." in ends or not path.endswith(".antt"):
            return found.group(1)
    return name


def main(args):
    listing = "--list" in args
    for root in [a for a in args if not a.startswith("--")] or ["."]:
        new = table(root)
        words = re.compile(rf"(?<!{WORD})({'|'.join(map(re.escape, sorted(new, key=len, reverse=True)))})(?!{WORD})")
        seen = set()
        for path in texts(root, (".antt",)):
            seen |= set(re.findall(r"(?<![\w'′·◌\-])[A-Za-z_◌][\w'′·◌\-]*", read(path)))
        clash = [(o, n) for o, n in sorted(new.items()) if n in seen and n not in new]
        twice = {}
        for o, n in new.items():
            twice.setdefault(n, []).append(o)
        clash += [(", ".join(o), n) for n, o in sorted(twice.items()) if len(o) > 1]
        if listing:
            for o, n in sorted(new.items()):
                print(f"{o} {n}")
        for o, n in clash:
            print(f"falls together: {o} as {n}", file=sys.stderr)
        if listing:
            continue
        for path in texts(root, (".antt", ".rt", ".edit", ".md", "outputs.rs", "pages.rs", "generated.rs")):
            text = read(path)
            respelt = words.sub(lambda m: word(text, m, new, path), text)
            if respelt != text:
                with open(path, "w", encoding="utf-8") as f:
                    f.write(respelt)
    return 0


if __name__ == "__main__":
    raise SystemExit(main(sys.argv[1:]))
