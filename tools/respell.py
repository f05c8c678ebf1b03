#!/usr/bin/env python3
"""Brings the repository's own definitions and lemmas to the spelling of today's Rattle: words in snake case, with no dash and no capital inside.

usage: python3 tools/respell.py        at the top of the repository, once, after the port of the language's own spelling

A name is turned where specs/ or a lemma file of proofs/ declares it: a definition, a lemma, a field, a helper under a `where`. Types and modules
keep their capital, so do the letters of document 01 (C, T, J, D, E, F, B, R). Functions of src/, what C sees, strings and numbers keep theirs, and so
do names that another library declares. In comments and documents a name is turned between backticks only. What was turned is printed.
"""
import collections
import glob
import re
import sys

# What the general rule would spell badly, or as something else is spelled already: a lemma that would have its function's name ends in _lem.
BY_HAND = {
    "mem-getD": "mem_get_or",
    "bad-row": "bad_row_lem",
    "from_low": "from_low_lem",
    "from-high": "from_high_lem",
    "is-late": "is_late_lem",
    "last-room": "last_room_lem",
    "length-of": "length_is",
    "line-most": "line_most_lem",
    "min-over": "min_over_lem",
    "row_out": "row_out_lem",
    "told-reading": "told_reading_lem",
    "told-refusal": "told_refusal_lem",
    "told-writing": "told_writing_lem",
}
WORD = r"[^\s(){}\[\],;.:`«»\\|λ∷×→⊎¬∙⟨⟩\"]+"


def turned(name):
    if name in BY_HAND:
        return BY_HAND[name]
    parts = name.split("-")
    out = []
    for part in parts:
        if part and part[0].islower() and re.search(r"[a-z0-9'][A-Z]", part):
            part = re.sub(r"(?<=[a-z0-9'])([A-Z])", lambda m: "_" + m.group(1).lower(), part)
        out.append(part)
    return "_".join(out)


def declared(text):
    """The names that a file of definitions and lemmas declares, those under a `where` and fields too."""
    for line in text.splitlines():
        if line.lstrip().startswith("--") or line.startswith("use "):
            continue
        m = re.match(r"\s*(?:\| )?(?:(?:abbrev|unfoldable|pub) )*(" + WORD + r"(?: " + WORD + r")*) : ", line + " ")
        if m:
            yield from m.group(1).split()
        m = re.match(r"\s*(?:(?:abbrev|unfoldable|pub) )*(" + WORD + r") :$", line)
        if m:
            yield m.group(1)


def binders(text):
    """Names bound in (a b : T), λ a b., let a =, on a clause's left side or after `as`: they are turned where they stand."""
    for m in re.finditer(r"(?m)^\s*(?:\| )?([^=:→\n-]*(?:-[^=:→\n-]+)*?) (?:=|↦)(?: |$)", re.sub(r"(?m)(^|\s)--(\s.*)?$", "", text)):
        yield from re.findall(WORD, m.group(1))
    for m in re.finditer(r" as (" + WORD + r")[,}]", text):
        yield m.group(1)
    for m in re.finditer(r"[({]((?:" + WORD + r" )+): ", text):
        yield from m.group(1).split()
    for m in re.finditer(r"λ ((?:" + WORD + r" ?)+)\.", text):
        yield from m.group(1).split()
    for m in re.finditer(r"\blet (" + WORD + r") [=:]", text):
        yield m.group(1)


def odd(name):
    return ("-" in name and name != "-" and re.search(r"\w-\w", name)) or (name[:1].islower() and re.search(r"[a-z0-9'][A-Z]", name))


def every_name(paths):
    return {n for path in paths for n in declared(open(path, encoding="utf-8").read())}


def main():
    lemmas = sorted(glob.glob("crates/*/specs/*.antt") + glob.glob("crates/*/proofs/*.antt"))
    walks = sorted(glob.glob("crates/*/proofs/*/*.antt"))
    own, foreign = set(), set()
    for path in lemmas:
        text = open(path, encoding="utf-8").read()
        own |= {n for n in declared(text) if odd(n)} | {n for n in binders(text) if odd(n)}
    for path in lemmas + walks + sorted(glob.glob("crates/*/src/*.rt")):
        for m in re.finditer(r"(?m)^\s*(?:ghost )?use ([^\s{]+?)\.?\{([^}]*)\}", open(path, encoding="utf-8").read()):
            if m.group(1).startswith(("Rattle.std", "Rattle.core", "borrow", "native", "lib", "mathlib", "Prim")):
                foreign |= {w for w in re.split(r"[,\s]+", m.group(2)) if odd(w)}
    names = {n: turned(n) for n in sorted((own - foreign) | (set(BY_HAND) & every_name(lemmas)))}
    back = collections.defaultdict(list)
    for old, new in names.items():
        back[new].append(old)
    clash = {n: o for n, o in back.items() if len(o) > 1}
    if "--look" in sys.argv:
        print("declared elsewhere:", sorted(own & foreign))
        print("fall together:", clash)
        every = set()
        for path in lemmas:
            every |= set(re.findall(WORD, open(path, encoding="utf-8").read()))
        print("spelled so already:", sorted((n, names[n]) for n in names if names[n] in every))
        return
    pattern = re.compile(r"(?<![\w'-])(" + "|".join(re.escape(n) for n in sorted(names, key=len, reverse=True)) + r")(?![\w'-])")
    quoted = re.compile(r"`[^`\n]+`")

    def word(m):
        return names[m.group(1)]

    def code(line):
        """A line of antt: its text, and what its comment has between backticks."""
        text, mark, comment = line.partition("--") if re.search(r"(^|\s)--(\s|$)", line) else (line, "", "")
        return pattern.sub(word, text) + mark + quoted.sub(lambda q: pattern.sub(word, q.group(0)), comment)

    for path in lemmas + walks:
        text = open(path, encoding="utf-8").read()
        new = "\n".join(code(l) for l in text.split("\n"))
        if new != text:
            open(path, "w", encoding="utf-8").write(new)
    for path in sorted(glob.glob("crates/*/src/*.rt")):
        out = []
        for line in open(path, encoding="utf-8").read().split("\n"):
            if re.match(r"\s*(ghost use|requires|ensures)\b", line):
                line = pattern.sub(word, line)
            elif "//" in line:
                text, mark, comment = line.partition("//")
                line = text + mark + quoted.sub(lambda q: pattern.sub(word, q.group(0)), comment)
            out.append(line)
        open(path, "w", encoding="utf-8").write("\n".join(out))
    for path in sorted(glob.glob("crates/*/must-fail/*.edit")):
        lines = open(path, encoding="utf-8").read().split("\n")
        inside = ""
        out = []
        for line in lines:
            if line.startswith("file: "):
                inside = line[6:]
            if line.startswith(("old: ", "new: ")) and inside.startswith("specs/"):
                line = pattern.sub(word, line)
            out.append(line)
        open(path, "w", encoding="utf-8").write("\n".join(out))
    for path in ["README.md"] + sorted(glob.glob("docs/*.md")):
        text = open(path, encoding="utf-8").read()
        new = quoted.sub(lambda q: pattern.sub(word, q.group(0)), text)
        if new != text:
            open(path, "w", encoding="utf-8").write(new)
    print(f"{len(names)} names")
    for old, new in names.items():
        print(f"  {old} → {new}")


main()
