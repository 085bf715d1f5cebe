#!/usr/bin/env python3
"""Brings the repository's own definitions and lemmas to Rattle's spelling: words in snake case, a dash only between two names.

usage: tools/respell.py [--table]     at the top of the repository; --table works the table of names out anew

The table, tools/respell.txt, has a line for each name: the old spelling, the new one. It is applied to specs/, proofs/, the
clauses of src/, the must-fail edits and the documents. Functions of src/, exported names, strings, inputs and outputs stay."""
import collections
import glob
import os
import re
import sys

WORD = r"[^\s(){}\[\],;:.`'\"λ∷◌≡≤<>+*/%=|&⊎×→↦∙!?@#\\]+"
TABLE = "tools/respell.txt"


def read(path):
    with open(path, encoding="utf-8") as f:
        return f.read()


def snake(name):
    s = re.sub(r"([a-z0-9])([A-Z])", r"\1_\2", name)
    return "_".join(p.lower() if re.match(r"[A-Z]", p) else p for p in s.split("_"))


def declared(paths):
    names = collections.defaultdict(set)
    for path in paths:
        for line in read(path).splitlines():
            m = re.match(r"^\s*(?:unfoldable |abbrev )?(?:pub )?(" + WORD + r")(?: [({].*[)}])* :(?: |$)", line)
            if m and not re.match(r"[A-Z]", m.group(1)):
                names[m.group(1)].add(path)
    return names


def foreign(paths):
    words = set()
    for path in paths:
        for m in re.finditer(r"use ([\w.\-]+)\.\{([^}]*)\}", read(path)):
            own = re.match(r"Rattle\.(\w+)\.", m.group(1))
            if not own or not os.path.isdir(f"crates/{own.group(1)}"):
                words |= {w.strip().split(" as ")[0] for w in m.group(2).split(",")}
    return words


def make_table():
    specs = glob.glob("crates/*/specs/*.antt")
    lemmas = glob.glob("crates/*/proofs/*.antt")
    own = declared(specs + lemmas)
    others = foreign(specs + lemmas + glob.glob("crates/*/proofs/*/**/*.antt", recursive=True))
    camel = {n: snake(n) for n in own if re.match(r"[a-z].*[a-z0-9][A-Z]", n) and "-" not in n}
    known = {camel.get(n, n) for n, where in own.items() if "-" not in n and any("/specs/" in w for w in where)}
    known |= {w for w in others if re.fullmatch(r"[a-z0-9_]+", w)}
    table = dict(camel)
    for n in own:
        if "-" in n and n not in others:
            parts = [snake(p) for p in n.split("-")]
            new = parts[0]
            for a, b in zip(parts, parts[1:]):
                new += ("-" if a in known and b in known else "_") + b
            if new != n:
                table[n] = new + ("_lem" if new in camel.values() or new in own or new in others else "")
    # a lemma that would have its definition's name
    for n in camel.values():
        if n in own and all("/proofs/" in w for w in own[n]):
            table[n] = n + "_lem"
    back = collections.defaultdict(list)
    for n, new in sorted(table.items()):
        back[new].append(n)
    for new, olds in back.items():
        if len(olds) > 1 or new in others or (new in own and new not in table):
            print("falls together:", new, olds)
    with open(TABLE, "w", encoding="utf-8") as f:
        for n, new in sorted(table.items()):
            f.write(f"{n} {new}\n")


def respell(text, table):
    """Each word of the table. One that ends in _lem afterwards is a lemma: it stands only where the file declares or imports it."""
    def turned(m):
        new = table.get(m.group(0), m.group(0))
        if new != m.group(0) + "_lem":
            return new
        here = re.search(r"(?m)^ *(pub )?" + re.escape(m.group(0)) + r" :|^use [^\n]*\W" + re.escape(m.group(0)) + r"\b(?! as)", text)
        return new if here and text[m.start() - 1:m.start()] != "." else m.group(0)
    return re.sub(WORD, turned, text)


def clauses(text, table):
    """A source: its ghost lines and the clauses between a signature and a body, not its code, comments or strings."""
    out = []
    for line in text.splitlines(keepends=True):
        if re.match(r"\s*(ghost|requires|ensures)\b", line):
            line = respell(line, table)
        out.append(line)
    return "".join(out)


def main():
    if "--table" in sys.argv:
        make_table()
        return
    table = dict(line.split() for line in read(TABLE).splitlines())
    camel = {n: new for n, new in table.items() if "-" not in n}
    own = declared(glob.glob("crates/*/specs/*.antt") + glob.glob("crates/*/proofs/*.antt"))
    library = {"getD": "get_or", "ofBits": "of_bits"}

    def page(text):
        """A document or an edit: the table's words of one part, and those that the port of the crates turned already."""
        def turned(m):
            w = m.group(0)
            if w in camel or w in library:
                return camel.get(w) or library[w]
            return snake(w) if re.fullmatch(r"[a-z]+[a-z0-9]*([A-Z][a-z0-9]*)+", w) and snake(w) in own else w
        return re.sub(WORD, turned, text)

    turned = 0
    for path in sorted(glob.glob("**/*", recursive=True)):
        if not os.path.isfile(path) or path.startswith(("host/", "include/")) or "/out/" in path or "/data/" in path:
            continue
        if path.endswith(".antt"):
            new = respell(read(path), table)
        elif path.endswith(".rt"):
            new = clauses(read(path), table)
        elif path.endswith((".edit", ".md")):
            new = page(read(path))
        else:
            continue
        if new != read(path):
            turned += 1
            with open(path, "w", encoding="utf-8") as f:
                f.write(new)
    print(f"respell: {turned} files")


main()
