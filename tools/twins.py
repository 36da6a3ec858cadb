#!/usr/bin/env python3
"""tools/twins.py [TREE]: lists functions of crates/*/src whose bodies are one body, but for their names and numbers. A row is a place to look."""
import collections
import glob
import re
import sys

KEPT = "let mut if else while for in return match as fn self Self Ok Err Some None true false u8 u32 u64 usize bool".split()


def functions(text):
    for m in re.finditer(r"^( *)(?:pub(?:\(crate\))? )?fn (\w+)", text, re.M):
        end = re.search(rf"^{m.group(1)}}}", text[m.start():], re.M)
        if end:
            yield m.group(2), text[m.start():m.start() + end.end()]


def shape(function):
    body = re.search(r"\n *\{\n(.*)\n *\}$", function[function.index("\n") + 1:], re.S)
    names = {}
    name = lambda m: m.group() if m.group() in KEPT else names.setdefault(m.group(), f"x{len(names)}")
    body = re.sub(r"[A-Za-z_]\w*", name, body.group(1) if body else function)
    return re.sub(r"\s+", "", re.sub(r"\b\d+\b", "0", body))


tree = sys.argv[1] if len(sys.argv) > 1 else "."
alike = collections.defaultdict(list)
for path in sorted(glob.glob(f"{tree}/crates/*/src/*.rt")):
    with open(path) as file:
        for name, function in functions(re.sub(r"//.*", "", file.read())):
            alike[shape(function)].append(f"{path}:{name}")
for body, places in alike.items():
    if len(places) > 1 and len(body) > 60:
        print("; ".join(places))
