#!/usr/bin/env python3
"""Brings the names of definitions and lemmas to today's spelling: a word that is written like `packetWords` becomes `packet_words`, and the
named fields of the records in specs/ that were joined by a dash are joined by `_`. Run it once, at the top of the repository, after the kit's own
script for older repositories. It goes by text, over .antt, .rt and .edit files, and over the pages that speak of today's names.

What it leaves alone: names of functions and fields of src/ (they have this spelling), types and modules, the dashes of lemmas (a dash joins the names
that a lemma is about), strings, inputs, outputs and the notes on earlier landings. It prints the names that fall together, if any do."""
import pathlib, re, sys

CAMEL = re.compile(r"(?<![A-Za-z0-9_'\u2032])[a-z][a-z0-9_]*[A-Z][A-Za-z0-9_]*")
FIELD = re.compile(r"^\s+pub ([a-z][A-Za-z0-9_]*(?:-[A-Za-z0-9]+)+) :")
PAGES = ("README.md", "docs/PROMISES.md", "docs/DECISIONS.md", "docs/EXCEPTIONS.md")


def snake(word):
    return re.sub(r"(?<=[a-z0-9])([A-Z])", r"_\1", word).lower()


def texts(top):
    for f in sorted(top.glob("crates/**/*")):
        if f.suffix in (".antt", ".rt", ".edit") and "out" not in f.relative_to(top).parts:
            yield f
    for page in PAGES:
        if (top / page).exists():
            yield top / page


def dashed_fields(top):
    names = set()
    for f in top.glob("crates/*/specs/**/*.antt"):
        for line in f.read_text().splitlines():
            m = FIELD.match(line)
            if m:
                names.add(m.group(1))
    return sorted(names, key=len, reverse=True)


def main():
    top = pathlib.Path(sys.argv[1] if len(sys.argv) > 1 else ".")
    fields = dashed_fields(top)
    field = re.compile(r"(?<![A-Za-z0-9_'-])(" + "|".join(map(re.escape, fields)) + r")(?![A-Za-z0-9_'-])") if fields else None
    changed, renamed, clashes = 0, {}, []
    for f in texts(top):
        old = f.read_text()
        names = set(CAMEL.findall(old))
        words = set(re.findall(r"(?<![A-Za-z0-9_'-])[a-z][a-z0-9_]*(?![A-Za-z0-9_'-])", old))
        for n in names:
            if f.suffix == ".antt" and snake(n) in words:
                clashes.append(f"{f}: {n} and {snake(n)}")
        new = CAMEL.sub(lambda m: renamed.setdefault(m.group(0), snake(m.group(0))), old)
        if field and f.suffix != ".rt":
            new = field.sub(lambda m: renamed.setdefault(m.group(1), m.group(1).replace("-", "_").lower()), new)
        if new != old:
            f.write_text(new)
            changed += 1
    together = {}
    for a, b in renamed.items():
        together.setdefault(b, []).append(a)
    for b, many in sorted(together.items()):
        if len(many) > 1:
            clashes.append(f"{' and '.join(sorted(many))} are both {b}")
    print(f"{len(renamed)} names respelled in {changed} files")
    for c in clashes:
        print("look:", c)


main()
