#!/usr/bin/env python3
"""Counts the places that docs/DESIGN-PASS.md speaks of, in src/ at a commit: python3 tools/design_counts.py COMMIT [POINT]."""
import collections
import re
import subprocess
import sys


def git(*words):
    return subprocess.run(["git", *words], check=True, capture_output=True, text=True).stdout


def sources(commit):
    names = [n for n in git("ls-tree", "-r", "--name-only", commit, "crates").split() if re.fullmatch(r"crates/\w+/src/.*\.rt", n)]
    return {name: git("show", f"{commit}:{name}") for name in names}


def matches(files, pattern):
    return [f"{name}:{i + 1}: {line.strip()}" for name, text in files.items() for i, line in enumerate(text.split("\n")) if re.search(pattern, line)]


def functions(files):
    """Each function: where it stands, its name and its body."""
    for name, text in files.items():
        for head in re.finditer(r"^ *(?:pub(?:\(crate\))? )?(?:extern \"C\" )?fn (\w+)", text, re.M):
            opening = re.search(r"\{$", text[head.end() :], re.M)
            at = head.end() + opening.end()
            depth, end = 1, at
            while depth and end < len(text):
                depth += {"{": 1, "}": -1}.get(text[end], 0)
                end += 1
            yield f"{name}: {head.group(1)}", text[at : end - 1]


def twins(files):
    """Functions whose bodies are the same once names and numbers are taken out; short ones, which are alike by chance, are left out."""
    groups = collections.defaultdict(list)
    for where, body in functions(files):
        body = re.sub(r"//.*", "", body)
        tokens = re.findall(r"\w+|[^\w\s]", body)
        if len(tokens) >= 25 and "/capi" not in where:
            groups[" ".join("0" if t[0].isdigit() else "x" if re.match(r"\w", t) else t for t in tokens)].append(where)
    return [" = ".join(group) for group in groups.values() if len(group) > 1]


def parts(clause):
    """The facts of a clause, which × joins."""
    out, depth, part = [], 0, ""
    for c in clause:
        depth += {"(": 1, ")": -1}.get(c, 0)
        if c == "×" and depth == 0:
            out.append(part.strip())
            part = ""
        else:
            part += c
    return [p[1:-1] if len(out) and p.startswith("(") else p for p in out + [part.strip()]]


def repeated(files):
    """The facts that three functions or more of a crate require."""
    facts = collections.Counter()
    for name, text in files.items():
        for clause in re.findall(r"^ *requires(?: \w+)? \{ (.*) \}$", text, re.M):
            for fact in parts(clause):
                facts[name.split("/")[1], fact] += 1
    return [f"{n} times in {crate}: {fact}" for (crate, fact), n in facts.most_common() if n >= 3]


POINTS = {
    "1 enums": lambda f: matches(f, r"^\s*(pub(\(crate\))? )?enum "),
    "1 a check or a flag beside a value": lambda f: matches(f, r"^\s*pub(\(crate\))? (checked|found|explained): "),
    "1 functions from a case to a number": lambda f: matches(f, r"fn (number|bits|kind_number|repeats|conflicts)\("),
    "2 twins": twins,
    "3 loops that count": lambda f: matches(f, r"^\s*while "),
    "4 by hand": lambda f: matches(f, r"fn (same|copy|is_zero|number|bits|bits_in|kind_number|one_of|between|wide|low|place|nine|four|station_of|pair|quad|pack|unpack|sum6|less_one|count|flag|first|fill)\("),
    "5 facts that repeat": repeated,
    "5 the two tables side by side": lambda f: matches(f, r"wheel: &\[u8; 1021\]"),
    "6 an array with a count, arrays side by side": lambda f: matches(f, r"^\s*pub(\(crate\))? (length|count): |^const \w+: \["),
    "7 switches by number": lambda f: matches(f, r"if (number|chance \S+ \S+|chance \S+ \S+ \S+ \S+) == "),
}


def main():
    files = sources(sys.argv[1])
    for point, count in POINTS.items():
        if len(sys.argv) < 3 or point.startswith(sys.argv[2]):
            found = count(files)
            print(f"{point}: {len(found)}")
            for place in found:
                print(f"    {place}")


main()
