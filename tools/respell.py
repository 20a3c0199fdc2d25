#!/usr/bin/env python3
"""Spells the repository's own definitions, lemmas, fields and constructors in snake case: `openBefore` is `open_before`, `owner-end` is `owner_end`.

usage: tools/respell.py [--list]

Run once, right after the kit's port.py, before any edit by hand. Types and modules keep their capital, what Rattle makes (behind `tie.`) its name,
and a name that some file imports from the toolchain's libraries stays. What would meet another name in a file is in MEETS, with the name it gets instead.
--list writes nothing: it prints what would change, and what meets.
"""

import os
import re
import sys

HERE = os.path.dirname(os.path.realpath(__file__))
ROOT = os.path.dirname(HERE)

NAME = r"[^\s(){}.;,@\"«»\[\]|&!?`]+"
TOKEN = re.compile(rf"(?<![^\s(){{}}.;,@\"«»\[\]|&!?`]){NAME}")
DECLARED = re.compile(r"(?m)^ *(?:(?:abbrev|pub|unfoldable|pattern|let|in|axiom) )*([^\s(){};,.]+)(?: \{[^{}\n]*\})*(?: \([^()\n]*\))* :(?= |$)")
USE = re.compile(r"\buse ([^\s;{]+?)(?:\.\{([^}]*)\})?(?: as \S+)?(?=[;\s]|$)")

# Names that would meet another one of a file, and what they are called instead.
MEETS = {"oneByOne": "is_one_by_one"}
for _lemma in "deque-limit entry-rows left-of open-at pair-at place-of put-all put-in run-at short-of table-of waits-for".split():
    MEETS[_lemma] = _lemma.replace("-", "_") + "_lem"
# Lemmas that port.py spelled as a definition is spelled here.
LEMMAS = {
    it: it + "_lem"
    for it in "act_by back_found by_turn entries_over found_number goes_to in_blocks is_digit joined_bytes left_there no_number numbers_of numbers_up set_found set_values".split()
}


def files():
    for folder, dirs, names in os.walk(os.path.join(ROOT, "crates")):
        dirs[:] = sorted(d for d in dirs if d != "out")
        for n in sorted(names):
            if n.endswith((".antt", ".rt")):
                yield os.path.join(folder, n)


def to_turn(name):
    return name[:1].islower() and (("-" in name.strip("-")) or re.search(r"[^\W_][A-Z]", name)) and "→" not in name and not re.search(r"[<>≤≡]", name)


def snake(name):
    words = re.sub(r"(?<=[a-z0-9'])([A-Z])(?=[a-z]|$|[-'0-9])", lambda m: "_" + m[0].lower(), name)
    words = re.sub(r"(?<=[a-z0-9'])([A-Z]+)", lambda m: "_" + m[0].lower(), words)
    return MEETS.get(name, words.replace("-", "_"))


def main(argv):
    texts = {p: open(p, encoding="utf-8").read() for p in files()}
    declared, foreign = set(), set()
    for p, t in texts.items():
        if p.endswith(".antt"):
            for n in DECLARED.findall(re.sub(r"(?m)--.*$", "", t)):
                declared.add(n)
            # what an import is called here, and constructors that share a signature
            declared.update(re.findall(r"\bas ([^\s,};]+)", t))
            for several in re.findall(r"(?m)^ +(?:pub )?([a-z]\S*(?: [a-z]\S*)+) :(?= |$)", t):
                declared.update(several.split())
        for path, items in USE.findall(t):
            if not path.startswith("Rattle.") or path.startswith(("Rattle.std", "Rattle.core", "Rattle.io", "Rattle.libc", "Rattle.os")):
                foreign.update(w for w in re.split(r"[,\s]+", items or "") if w)
    rows = {n: snake(n) for n in declared if to_turn(n)}
    # "A lemma that would have its function's name ends in `_lem`"
    functions = {rows[n] for n in rows if "-" not in n}
    rows = {n: new + "_lem" if "-" in n and new in functions else new for n, new in rows.items()}
    # a definition may be called as the function of src/ that it is the promise of
    called = set()
    for p, t in texts.items():
        if p.endswith(".rt"):
            called.update(re.findall(r"\bfn (\w+)", t))
    # what Rattle's goals are called in a function's own proof is the converter's
    stays = sorted(set(rows) & foreign)
    for n in stays:
        del rows[n]
    meets = {}
    turned = {}
    of_antt = {**rows, **LEMMAS}
    for p, t in texts.items():
        words = set(TOKEN.findall(t))
        here = {}
        table = of_antt if p.endswith(".antt") else rows
        for w in words & set(table):
            new = table[w]
            if new in words and new not in called and new not in LEMMAS or new in here:
                meets.setdefault((w, new, here.get(new, "")), []).append(os.path.relpath(p, ROOT))
            here[new] = w

        def piece(line):
            code, dash, comment = line, "", ""
            mark = re.search(r"(^|\s)--(?=\s|$)" if p.endswith(".antt") else r"(^|\s)//", line)
            if mark:
                code, comment = line[: mark.end()], line[mark.end() :]
            return code, comment

        out = []
        for line in t.split("\n"):
            code, comment = piece(line)
            if p.endswith(".rt"):
                code = re.sub(r"\"(?:[^\"\\]|\\.)*\"|" + TOKEN.pattern, lambda m: m[0] if m[0].startswith('"') else rows.get(m[0], m[0]), code)
            else:
                code = re.sub(TOKEN, lambda m: m[0] if code[max(0, m.start() - 4) : m.start()] == "tie." else table.get(m[0], m[0]), code)
            comment = re.sub(r"`[^`]*`", lambda m: re.sub(TOKEN, lambda k: table.get(k[0], k[0]), m[0]), comment)
            out.append(code + comment)
        new = "\n".join(out)
        if new != t:
            turned[p] = new
    if "--list" in argv:
        for n in stays:
            print("stays:", n)
        for (w, new, other), at in sorted(meets.items()):
            print("meets:", w, new, other, len(at), at[0])
        print(len(rows), "names", len(turned), "files", len(meets), "meet")
        return 0
    for p, t in turned.items():
        with open(p, "w", encoding="utf-8") as f:
            f.write(t)
    print(f"{len(rows)} names in {len(turned)} files")
    return 0


if __name__ == "__main__":
    raise SystemExit(main(sys.argv[1:]))
