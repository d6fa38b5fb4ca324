#!/usr/bin/env python3
"""facts.py [N]: premises and promises of the contracts, split at → and ×, `.now .old .new` dropped: each that stands in N or more functions, with them; then each named record or predicate that heads one."""
import sys, os, re, collections
sys.path.insert(0, os.path.dirname(__file__))
from sigs import functions
N = int(sys.argv[1]) if len(sys.argv) > 1 else 3
def split(t):
    t = " ".join(t.split())
    out, cur, d = [], "", 0
    for c in t:
        if c in "([{": d += 1
        if c in ")]}": d -= 1
        if c in "→×" and d == 0:
            out.append(cur.strip()); cur = ""
        else: cur += c
    out.append(cur.strip())
    res = []
    for a in out:
        if a.startswith("(") and a.endswith(")"):
            d = 0; whole = True
            for k, c in enumerate(a):
                if c == "(": d += 1
                if c == ")": d -= 1
                if d == 0 and k < len(a) - 1: whole = False
            if whole:
                inner = a[1:-1]
                if re.match(r"[\w₀' ]+ : ", inner): continue
                if "→" in inner or "×" in inner:
                    res += split(inner); continue
                a = inner
        if a: res.append(a)
    return res
seen = collections.defaultdict(dict); heads = collections.defaultdict(dict)
fs = functions()
for f in fs:
    for kind, name, text in f["clauses"]:
        for a in split(text):
            k = re.sub(r"\.(now|old|new)\b", "", a)
            at = f"{f['path'][7:].replace('/src/','/')}:{f['line']} {f['name']}"
            seen[k][at] = 1
            m = re.match(r"([A-Z]\w+)", k)
            if m: heads[m[1]][at] = 1
rows = sorted(((len(v), k, list(v)) for k, v in seen.items() if len(v) >= N), reverse=True)
for n, k, v in rows: print(f"{n} functions: {k}\n    " + " ".join(v))
print(len(rows), "facts")
print()
rows = sorted(((len(v), k, list(v)) for k, v in heads.items() if len(v) >= N), reverse=True)
for n, k, v in rows: print(f"{n} functions: {k}\n    " + " ".join(v))
print(len(rows), "predicates")
