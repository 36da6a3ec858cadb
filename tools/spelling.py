#!/usr/bin/env python3
"""Brings to today's spelling what port.py leaves, once, behind it.

usage: python3 tools/spelling.py            at the top of the repository: rewrites crates/ in place
       python3 tools/spelling.py --names    prints each name and what it becomes, and writes nothing

- The repository's own definitions, lemmas and variables go from camel case to snake case. Only words that begin with a small letter change: types,
  modules, variants and constants keep theirs, and so does what stands in a string. A dash goes on joining two names. Functions of src/ are in snake
  case as they are; a definition may have the name of one. LEMMAS are told apart from the definitions whose names they would now have.
- A clause on an associated constant names it: ⟦T::N⟧ .entry is T.N, and each clause gets the constant's name.
- A type that was copied freely derives Clone and Copy.
- The root file of each crate has the line that lets the check try its tactics.
"""
import glob
import re
import sys

# names of the sources that comments cite, as they are spelled there, and of the toolchain
KEPT = {"ctrID", "ctrVal", "globClk", "antiReplay", "getD"}
WORD = re.compile(r"[A-Za-z0-9_]+")
STRING = re.compile(r'b?"(?:[^"\\\n]|\\.)*"')
LIBRARY = re.compile(r"(?:denote|types|sound|contract|prog|mir|base|borrow|mathlib|native|lib|Prim|seplogic)\.[\w.]*\{([^}]*)\}")
# lemmas whose new name a definition has, and the word that is a tactic's
LEMMAS = {"same_id": "same_id_lem", "ends_at": "ends_at_lem", "first_of": "first_answer"}
CONSTANT = re.compile(r"ensures\* do_value(?:_\d+)? \{ do ⌜ \(← \(⟦(\w+)::(\w+)⟧\)\.entry\) ≡ (\w+) ⌝ \}")


def snake(word):
    return re.sub(r"(?<=[a-z0-9])([A-Z])", r"_\1", word).lower()


def turned(word):
    return word[0].islower() and re.search(r"[a-z0-9][A-Z]", word) and word not in KEPT


def files():
    found = glob.glob("crates/*/specs/**/*.antt", recursive=True) + glob.glob("crates/*/proofs/**/*.antt", recursive=True)
    return sorted(found + glob.glob("crates/*/src/*.rt") + glob.glob("crates/*/must-fail/*.edit"))


def lemmas_of(path, text):
    """The lemmas of LEMMAS that a file means: a definition's file has the tactic's word alone."""
    if path.endswith(".rt"):
        return []
    return [w for w in LEMMAS if w != "ends_at" or path.endswith("/LogLaws.antt")]


def respelled(path, text, table):
    library = {n.strip().split(" as ")[0] for m in LIBRARY.finditer(text) for n in m[1].split(",")}
    for w in lemmas_of(path, text):
        text = re.sub(r"(?<![\w.'-])%s(?![\w'-])" % w, LEMMAS[w], text)
    if path.endswith(".rt"):
        text = text.replace("first_of ", "first_answer ").replace("first_of,", "first_answer,").replace("first_of}", "first_answer}")
        text = CONSTANT.sub(lambda m: "ensures %s { %s.%s ≡ %s }" % (m[2].lower(), m[1], m[2], m[3]), text)
        text = text.replace("#[derive(Drop)]", "#[derive(Clone, Copy)]")

    def one(m):
        word = m[0]
        if not turned(word) or word in library or word not in table:
            return word
        return table[word]

    parts, at = [], 0
    for s in STRING.finditer(text) if path.endswith(".rt") else ():
        parts += [WORD.sub(one, text[at : s.start()]), s[0]]
        at = s.end()
    return "".join(parts) + WORD.sub(one, text[at:])


def with_tactic(text):
    """A root file with the line that lets the check try its tactics, above the first item."""
    if "#![tactic(" in text:
        return text
    lines = text.split("\n")
    at = next((i for i, l in enumerate(lines) if l and not l.startswith("//")), len(lines))
    return "\n".join(lines[:at] + ["#![tactic(auto)]", ""] + lines[at:])


def main(argv):
    texts = {p: open(p, encoding="utf-8").read() for p in files()}
    words = {p: set(WORD.findall(t)) for p, t in texts.items()}
    table = {w: snake(w) for ws in words.values() for w in ws if turned(w) and "_" not in w}
    if "--names" in argv:
        for w in sorted(table):
            print(w, table[w])
        return 0
    taken = {new: w for w, new in table.items()}
    for w, new in sorted(table.items()):
        if taken[new] != w:
            print("two names become %s: %s and %s" % (new, w, taken[new]))
    changed = 0
    for p, t in texts.items():
        new = respelled(p, t, table)
        if p.endswith(("/src/lib.rt", "/src/main.rt")):
            new = with_tactic(new)
        if new != t:
            open(p, "w", encoding="utf-8").write(new)
            changed += 1
    print("spelling: %d names, %d of %d files" % (len(table), changed, len(texts)))
    return 0


if __name__ == "__main__":
    sys.exit(main(sys.argv[1:]))
