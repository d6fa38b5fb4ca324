#!/usr/bin/env python3
"""places.py PATTERN: file:line function, of each line of crates/*/src/*.rt (clauses, imports and comments aside) that has the pattern."""
import glob, re, sys
pattern = re.compile(sys.argv[1])
for path in sorted(glob.glob("crates/*/src/*.rt")):
    name, clause = "-", False
    for i, line in enumerate(open(path, encoding="utf-8"), 1):
        m = re.match(r'\s*(?:pub )?(?:extern "C" )?fn (\w+)', line)
        if m: name = m[1]
        if line.startswith("}"): name = "-" if not line.startswith("}{") else name
        if re.match(r"\s*(requires|ensures)\b", line): clause = True
        if re.match(r"\s*\{\s*$", line): clause = False
        if not clause and not re.match(r"\s*//|ghost use", line) and pattern.search(line):
            print(f"{path}:{i} {name}")
