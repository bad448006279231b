#!/usr/bin/env python3
"""Brings the repository's own words to the kit's spelling: definitions and lemmas in snake case, as `layer_at` for `layerAt` and `reads_back`
for `reads-back`. Types, modules and facts keep their capitals, and functions of src/, exported C names and strings their names.

usage: python3 tools/snake_words.py [--list]     at the top, once, after port.py and before any edit by hand

Where a definition and a lemma fall together, the lemma ends in `_lem`. A word that the library has too keeps its spelling. In comments and in
pages a word with a dash is turned only between backticks, since English has such words too. `--list` prints old and new names and writes
nothing.
"""

import glob
import re
import sys

DECLARED = re.compile(
    r"(?m)^\s*(?:(?:unfoldable|abbrev|pub|data|record)\s+)*([^\s:(){}\[\],;.=λ]+)\s*(?:[({][^=]*?[)}]\s*)*:(?=\s|$)([^\n]*)"
)
USES = re.compile(r"(?m)^use ([\w.'-]+)\.\{([^}]*)\}")
WORD = re.compile(r"[A-Za-z_][\w'₀-₉-]*")


def files(*patterns):
    return sorted(f for p in patterns for f in glob.glob(p, recursive=True) if "/out/" not in f)


def read(path):
    with open(path, encoding="utf-8") as f:
        return f.read()


def snake(name):
    if name[0].islower():
        name = re.sub(r"(?<=[a-z0-9])([A-Z])", lambda m: "_" + m.group(1).lower(), name)
    return name.replace("-", "_")


def library():
    """The words that the files import from elsewhere."""
    found = set()
    for path in files("crates/**/*.antt"):
        for module, words in USES.findall(read(path)):
            if not module.startswith("Rattle.") or module.startswith(("Rattle.std", "Rattle.core")):
                found |= {w.strip().split(" as ")[0] for w in words.split(",")}
    return found


def table():
    own, taken = set(), set()
    for path in files("crates/**/*.antt"):
        whole = path.endswith("/Proof.antt")
        for name, kind in DECLARED.findall(read(path)):
            taken.add(name)
            # what a whole proof declares under the name of a goal is not a word of ours
            if whole and (name.endswith("-spec") or "tie." in kind or name.startswith(("invariant-", "decreases-"))):
                continue
            if re.fullmatch(r"[A-Za-z][\w'₀-₉-]*", name):
                own.add(name)
    lib = library()
    taken |= lib
    names = {n: snake(n) for n in sorted(own) if snake(n) != n and n not in lib}
    turned = {}
    for old in sorted(names, key=lambda n: ("-" in n, n)):
        new = names[old]
        # a definition may share its name with a field or a lemma of another module
        if new in turned.values() or new in (taken if "-" in old else lib):
            new += "_lem"
        if new in turned.values():
            sys.exit(f"{old} and another name fall together at {new}")
        turned[old] = new
    return turned


def swap(names, text):
    return WORD.sub(lambda m: names.get(m.group(0), m.group(0)), text)


def in_words(names, text):
    """A comment or a page: words in camel case anywhere, words with a dash between backticks."""
    plain = {old: new for old, new in names.items() if "-" not in old}
    parts = re.split(r"(`[^`\n]*`)", text)
    return "".join(swap(names, p) if i % 2 else swap(plain, p) for i, p in enumerate(parts))


def in_lines(names, text, mark):
    out = []
    for line in text.split("\n"):
        at = re.search(r"(?:^|\s)" + mark + r"(?=\s|$)", line)
        cut = at.start() if at else len(line)
        out.append(swap(names, line[:cut]) + in_words(names, line[cut:]))
    return "\n".join(out)


def main(argv):
    names = table()
    if argv == ["--list"]:
        print("\n".join(f"{old} {new}" for old, new in sorted(names.items())))
        return 0
    # a page may name what port.py has turned already
    declared = {n for path in files("crates/**/*.antt") for n, _ in DECLARED.findall(swap(names, read(path)))}
    for path in files("crates/**/*.antt", "crates/**/*.rt", "crates/*/must-fail/*", "docs/**/*.md", "README.md"):
        text = read(path)
        if path.endswith(".antt"):
            new = in_lines(names, text, "--")
        elif path.endswith(".rt"):
            new = in_lines(names, text, "//")
        elif path.endswith(".md"):
            turned = {w: snake(w) for w in WORD.findall(text) if snake(w) in declared}
            new = in_words(turned | names, text)
        else:
            new = swap(names, text)
        if new != text:
            with open(path, "w", encoding="utf-8") as f:
                f.write(new)
    return 0


if __name__ == "__main__":
    sys.exit(main(sys.argv[1:]))
