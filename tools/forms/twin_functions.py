#!/usr/bin/env python3
"""twin_functions.py: functions of crates/*/src/*.rt whose bodies have one shape: names by order of appearance, numbers as N, types as T, paths by their last word's place."""
import sys, os, re, collections
sys.path.insert(0, os.path.dirname(__file__))
from sigs import functions
words = {"if","else","while","for","in","let","mut","return","match","as","true","false","break","Self","self"}
types = {"usize","u64","u8","bool","u32","i64"}
def shape(f):
    body = re.sub(r"//.*", "", f["body"])
    params = [p.split(":")[0].strip().replace("mut ", "") for p in f["params"]]
    names, out = {}, []
    for t in re.findall(r"[A-Za-z_]\w*(?:::[A-Za-z_]\w*)*|\d\w*|\S", body):
        if t in words: out.append(t)
        elif t in types: out.append("T")
        elif re.match(r"\d", t): out.append("N")
        elif re.match(r"[A-Za-z_]", t): out.append(names.setdefault(t, "#%d" % len(names)))
        else: out.append(t)
    return " ".join(out)
seen = collections.defaultdict(list)
for f in functions():
    s = shape(f)
    if len(s.split()) >= 6: seen[s].append(f)
rows = [v for v in seen.values() if len(v) > 1]
rows.sort(key=lambda v: -len(v) * len(v[0]["body"]))
for v in rows:
    print(f"{len(v)} functions: " + "  =  ".join(f"{f['path'][7:].replace('/src/','/')}:{f['line']} {f['name']}" for f in v))
print(len(rows), "groups", sum(map(len, rows)), "functions")
