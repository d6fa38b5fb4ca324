#!/usr/bin/env python3
"""loops.py: each `while` of crates/*/src/*.rt with its function and kind: up (an index counts up), set (members by lowest bit), turns (a bound counts down), other."""
import glob, re
total = {}
for path in sorted(glob.glob("crates/*/src/*.rt")):
    lines = open(path, encoding="utf-8").read().split("\n")
    name = "-"
    for i, line in enumerate(lines):
        m = re.match(r'\s*(?:pub )?(?:extern "C" )?fn (\w+)', line)
        if m: name = m[1]
        m = re.match(r"(\s*)(?:'\w+: )?while (.*) \{$", line)
        if not m: continue
        end = next(k for k in range(i + 1, len(lines)) if lines[k] == m[1] + "}")
        body = "\n".join(lines[i + 1:end])
        test = m[2]
        var = re.match(r"(\w+) < ", test)
        if re.match(r"0 < \w+$", test):
            kind = "set" if "sets::lowest(" + test[4:] in body else "turns"
        elif var and re.search(r"\b%s \+= 1;" % var[1], body): kind = "up"
        else: kind = "other"
        early = "early" if re.search(r"\breturn\b|\bbreak\b", body) else ""
        total[kind] = total.get(kind, 0) + 1
        print(f"{kind:6} {path}:{i+1} {name}  while {test}  {early}")
print(total, sum(total.values()))
