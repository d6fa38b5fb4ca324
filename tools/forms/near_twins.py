#!/usr/bin/env python3
"""near_twins.py [R]: pairs of functions whose shapes (see twin_functions.py) agree to R or more (default 0.85), of 25 tokens or more, but not wholly."""
import sys, os, re, difflib
sys.path.insert(0, os.path.dirname(__file__))
from contextlib import redirect_stdout
import io
with redirect_stdout(io.StringIO()):
    from twin_functions import shape
from sigs import functions
R = float(sys.argv[1]) if len(sys.argv) > 1 else 0.85
fs = [(f, shape(f).split()) for f in functions()]
fs = [(f, s) for f, s in fs if len(s) >= 25]
n = 0
rows = []
for i, (f, s) in enumerate(fs):
    for g, t in fs[i + 1:]:
        if s == t or not 0.7 < len(s) / len(t) < 1.43: continue
        m = difflib.SequenceMatcher(None, s, t, False)
        if m.quick_ratio() >= R and (r := m.ratio()) >= R: rows.append((r, f, g))
for r, f, g in sorted(rows, key=lambda x: -x[0]):
    w = lambda f: f"{f['path'][7:].replace('/src/','/')}:{f['line']} {f['name']}"
    print(f"{r:.2f} {w(f)}  ~  {w(g)}")
print(len(rows), "pairs")
