#!/usr/bin/env python3
"""Spells the repository's own antt names in snake case: a word of specs/ or proofs/ that was camelCase or
kebab-case becomes snake_case, and a lemma that would fall together with its function gets _lem. Types and facts keep
their capital, and so do the names that Rattle makes for goals.

It ran once, when the repository came over from an older kit (docs/PORT.md), and is kept so that this can be seen again.
Do not run it on what stands today: it goes by words alone, and would take some names of goals for ours.

usage: python3 tools/spell_names.py           at the top of the repository: rewrites crates/*/{src,specs,proofs} and the pages in place
       python3 tools/spell_names.py --check   prints what would be renamed, and what would stand twice in a file
"""

import glob
import re
import sys

DECLARED = re.compile(r"^\s*(?:(?:pub|abbrev|unfoldable)\s+)*([^\s(){};.,λ↦|:]+)\s*:\s", re.M)
TOKEN = re.compile(r"[^\s(){}\[\];,.λ↦|:∷→×«»\"`]+")
GOALS = re.compile(r"(returns|loop|invariant|decreases|requires|ensures)(-|$)|.*-requires$")
CODE = ["crates/*/src/*.rt", "crates/*/specs/*.antt", "crates/*/proofs/**/*.antt"]
PAGES = ["README.md", "docs/*.md"]

# words of the library that a name of ours would hide
TAKEN = {"bit_and", "bit_or"}
# a name that is local to one file, and that a function's new name would hide
LOCAL = {"crates/rules/proofs/Calls.antt": {"place_at": "place_at_lem"}}


def paths(patterns):
    for pattern in patterns:
        yield from sorted(glob.glob(pattern, recursive=True))


def read(path):
    with open(path, encoding="utf-8") as f:
        return f.read()


def bare(text):
    return re.sub(r"--.*", "", text)


def snake(name):
    words = re.sub(r"([a-z0-9])([A-Z])", r"\1_\2", name)
    return words.replace("-", "_").lower()


def renamings():
    declared = set()
    for path in paths(CODE[1:]):
        declared |= {m.group(1) for m in DECLARED.finditer(bare(read(path)))}
    own = {n for n in declared if re.fullmatch(r"[a-z][A-Za-z0-9_'-]*", n) and not GOALS.match(n)}
    plain = {snake(n) for n in own if "-" not in n} | TAKEN
    found = {}
    for name in own:
        new = snake(name)
        if "-" in name and new in plain:
            new += "_lem"
        if new != name:
            found[name] = new
    return found


def respell(path, names):
    """In comments and pages only names with a capital: with a dash they may be words of English."""
    mark = "//" if path.endswith(".rt") else "--"
    local = LOCAL.get(path, {})
    capital = {old: new for old, new in names.items() if "-" not in old}
    lines = []
    for line in read(path).split("\n"):
        code, sign, comment = ("", "", line) if path.endswith(".md") else line.partition(mark)
        code = TOKEN.sub(lambda m: local.get(m.group(0)) or names.get(m.group(0), m.group(0)), code)
        comment = TOKEN.sub(lambda m: capital.get(m.group(0), m.group(0)), comment)
        lines.append(code + sign + comment)
    return "\n".join(lines)


def check(names):
    for old, new in sorted(names.items()):
        print(old, "->", new)
    for path in paths(CODE):
        tokens = set(TOKEN.findall(bare(read(path)))) - set(LOCAL.get(path, {}))
        for old in sorted(tokens & set(names)):
            twice = [o for o in tokens & set(names) if names[o] == names[old] and o != old]
            if names[old] in tokens or twice:
                print(f"stands twice: {path}: {old} -> {names[old]}")


def main():
    names = renamings()
    if sys.argv[1:] == ["--check"]:
        check(names)
        return
    for path in paths(CODE + PAGES):
        new = respell(path, names)
        if new != read(path):
            with open(path, "w", encoding="utf-8") as f:
                f.write(new)


main()
