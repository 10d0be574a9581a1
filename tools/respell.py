#!/usr/bin/env python3
"""Brings the repository's own definitions and lemmas to snake case, once, after the kit's port.py has run.

usage: tools/respell.py     at the top of the repository

A name of a definition, lemma, field or bound variable that is in camel case with a small first letter (isMatch) gets words joined by underscores
(is_match), in the code and comments of .rt and .antt files and in the edits of must-fail/. A lemma of proofs/*.antt, or a definition of specs/, whose name
has dashes gets underscores for them, but not in the files of a function's own proof that name what Rattle makes. Text between quotes stays, and so do the
names of Rust functions, of files and of types. It stops, with nothing written, where two names would fall together in one file.
"""
import collections
import glob
import os
import re

WORD = re.compile(r"(?<![\w'◌≡≤<+*∷-])[a-zA-Z_][\w']*(?:-[\w']+)*(?![\w◌])")
QUOTED = re.compile(r'"(?:[^"\\\n]|\\.)*"')
DECLARED = re.compile(r"(?m)^ *(?:(?:unfoldable|abbrev|pub) )*([^\s(){}.;,@\"«»:]+)(?: \{[^{}\n]*\})* :(?!:)")
# lemmas that port.py spelled like a definition which turns: a lemma that would have its function's name gets _lem
LEMMAS = {
    ("crates/kinds/", "end_line"): "end_line_lem",
    ("crates/matches/proofs/Walking.antt", "row_from"): "row_from_lem",
    ("crates/windows/", "in_window"): "in_window_lem",
}
# what Rattle makes is cited behind these heads, and keeps its spelling
HEADS = ("tie", "goal", "c", "w", "l", "lts")
LIBRARY_USE = re.compile(r"(?m)^(?:pub )?use (?!Rattle\.(?:{own})\.)[\w.'-]+\.\{([^}]*)\}")


def read(path):
    with open(path, encoding="utf-8") as f:
        return f.read()


def snake(name):
    return re.sub(r"(?<=[a-z0-9])[A-Z]", lambda m: "_" + m[0].lower(), name)


def camel(name):
    return re.sub(r"(?<=[a-z0-9])_([a-z])", lambda m: m[1].upper(), name)


def is_camel(name):
    return bool(re.match(r"[a-z]", name) and re.search(r"[a-z0-9][A-Z]", name))


def main():
    antt = sorted(glob.glob("crates/**/*.antt", recursive=True))
    rust = sorted(glob.glob("crates/*/src/**/*.rt", recursive=True))
    edits = sorted(glob.glob("crates/*/must-fail/*.edit"))
    own = "|".join(sorted(os.listdir("crates")))
    library_use = re.compile(LIBRARY_USE.pattern.replace("{own}", own))
    texts = {p: read(p) for p in antt + rust + edits}
    shared = [p for p in antt if p.count("/") == 3]
    dashed = {n for p in shared for n in DECLARED.findall(texts[p]) if "-" in n and re.match(r"[a-zA-Z_][\w'-]*$", n)}
    # of a name such as P1-both or Beats-trans the type or fact keeps its capital
    table = {n: snake(n).replace("-", "_") if n[0].islower() else n.replace("-", "_") for n in dashed}
    table |= {"row-to": "row_until", "column-to": "column_until"}
    for n, new in table.items():
        others = re.compile(rf"(?<![\w'-])(?:{re.escape(new)}|{camel(new)})(?![\w'-])")
        if any(others.search(texts[p]) for p in antt if re.search(rf"(?<![\w'-]){re.escape(n)}(?![\w'-])", texts[p])):
            table[n] = new + "_lem"

    def turned(path, text):
        taken = set()
        if path.endswith(".antt"):
            for items in library_use.findall(text):
                taken |= {it.split(" as ")[-1].strip() for it in items.split(",")}
        quoted = [m.span() for m in QUOTED.finditer(text)]

        def one(m):
            name = m[0]
            if any(a <= m.start() < b for a, b in quoted) or name in taken:
                return name
            for (where, lemma), new in LEMMAS.items():
                if name == lemma and path.startswith(where) and path.endswith(".antt"):
                    return new
            if is_camel(name) and (path.endswith(".antt") or path.endswith(".rt") or path.endswith(".edit")):
                new = table.get(name, snake(name))
                return new
            if name in table and not path.endswith(".rt"):
                before = text[max(0, m.start() - 24) : m.start()]
                head = re.search(r"([\w'-]+)\.$", before)
                if head and (head[1] in HEADS):
                    return name
                return table[name]
            return name

        return WORD.sub(one, text)

    new = {p: turned(p, t) for p, t in texts.items()}
    # two names of one file that fall together; in a function's own proof the function's name stands only in paths
    clash = []
    for p in shared:
        met = collections.defaultdict(set)
        for a, b in zip(WORD.findall(QUOTED.sub('""', texts[p])), WORD.findall(QUOTED.sub('""', new[p]))):
            met[b].add(a)
        clash += [(p, b, sorted(a)) for b, a in met.items() if len(a) > 1]
    if clash:
        for p, b, a in clash:
            print(f"{p}: {' and '.join(a)} would both be {b}")
        return 1
    for p, t in new.items():
        if t != texts[p]:
            with open(p, "w", encoding="utf-8") as f:
                f.write(t)
    print(f"{sum(new[p] != texts[p] for p in new)} files turned")
    return 0


if __name__ == "__main__":
    raise SystemExit(main())
