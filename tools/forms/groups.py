#!/usr/bin/env python3
"""groups.py [N]: sets of parameters (name and type, `'a` and `mut` aside) that travel together through N or more functions; each set is closed (no further parameter is in all of them)."""
import sys, os, collections, itertools
sys.path.insert(0, os.path.dirname(__file__))
from sigs import functions
import re
N = int(sys.argv[1]) if len(sys.argv) > 1 else 3
fs = functions()
def key(p):
    p = re.sub(r"'a |mut ", "", p)
    n, _, t = p.partition(":")
    return n.strip() if len(sys.argv) > 2 and sys.argv[2] == "names" else p
sets = [frozenset(key(p) for p in f["params"]) for f in fs]
closed = set()
# closed itemsets: close intersections
frontier = set(s for s in sets if len(s) >= 2)
closed |= frontier
changed = True
new = frontier
while new:
    nxt = set()
    for a in new:
        for b in frontier:
            c = a & b
            if len(c) >= 2 and c not in closed: nxt.add(c)
    closed |= nxt; new = nxt
rows = []
for c in closed:
    who = [i for i, s in enumerate(sets) if c <= s]
    if len(who) >= N: rows.append((len(who), len(c), sorted(c), who))
rows.sort(key=lambda r: (-r[0]*(r[1]-1), -r[0]))
for n, k, c, who in rows:
    print(f"{n} functions, {k} parameters: {', '.join(c)}")
    print("    " + " ".join(f"{fs[i]['path'][7:].replace('/src/','/')}:{fs[i]['line']} {fs[i]['name']}" for i in who))
print(len(rows), "groups")
