#!/usr/bin/env python3
"""std_lemmas.py KIT/rattle: lemmas of crates/*/proofs/*.antt whose statement, binders dropped and variables renamed by appearance, std, logic/Lib, mathlib or native has too."""
import glob, os, re, collections, sys
K = sys.argv[1]
word = re.compile(r"[A-Za-z_α-ωΑ-Ω][\w'′·-]*|\d+|\S")
syn = {"nat_lt": "ltb", "nat_le": "leb", "slice_set": "set", "slice_index_or": "get_or", "List-length": "length"}
def canon(text):
    bound = set()
    for m in re.finditer(r"[({]\s*((?:[A-Za-z_α-ω][\w'′₀-₉-]*\s+)*[A-Za-z_α-ω][\w'′₀-₉-]*)\s*:[^(){}]*(?:\([^()]*\)[^(){}]*)*[)}]", text):
        bound.update(m[1].split())
    bound.update(re.findall(r"λ\s+([\w'′]+)", text))
    t = re.sub(r"[({]\s*(?:[A-Za-z_α-ω][\w'′₀-₉-]*\s+)*[A-Za-z_α-ω][\w'′₀-₉-]*\s*:\s*(?:[^(){}]|\([^(){}]*\))*[)}]\s*→?", "", text)
    names, out = {}, []
    for w in word.findall(t):
        w = syn.get(w, w)
        if w in bound: w = names.setdefault(w, "#%d" % len(names))
        if w in "(){}": continue
        out.append(w)
    return " ".join(out)
def laws(path):
    lines = open(path, encoding="utf-8").read().split("\n")
    i = 0
    while i < len(lines):
        m = re.match(r"^(?:pub |private |abbrev |unfoldable )*([A-Za-z◌][^\s:]*) : (.*)$", lines[i])
        if not m: i += 1; continue
        text, j = m[2], i + 1
        while j < len(lines) and lines[j].startswith((" ", "\t")): text += " " + lines[j].strip(); j += 1
        yield m[1], i + 1, text
        i = j
std = collections.defaultdict(list)
for root in (K + "/std/proofs", K + "/core/proofs", K + "/logic/Lib", K + "/antt/port/mathlib", K + "/antt/lib", K + "/std_collections/proofs", K + "/std_alloc/proofs"):
    for d, _, fs in os.walk(root):
        for f in fs:
            if f.endswith(".antt"):
                p = os.path.join(d, f)
                try:
                    for n, l, t in laws(p):
                        c = canon(t)
                        if len(c.split()) >= 4: std[c].append(f"{os.path.relpath(p, K)}:{l} {n}")
                except Exception as e: print(p, e, file=sys.stderr)
n = 0; files = collections.Counter()
for p in sorted(glob.glob("crates/*/proofs/*.antt")):
    for name, l, t in laws(p):
        c = canon(t)
        if c in std:
            n += 1; files[p] += 1
            print(f"{p}:{l} {name} = {'  '.join(std[c][:3])}")
print(n, "lemmas")
for p, k in files.most_common(): print(f"{k} {p}", file=sys.stderr)
