#!/usr/bin/env python3
"""answers.py: the Answers.antt of proofs/: how many entries each; entries of one line; entries that stand alike (own crate's names apart) in several files."""
import os, re, collections, sys
ents, n = [], 0
for d, _, fs in os.walk("crates"):
    for f in fs:
        if f != "Answers.antt" or "/out/" in d: continue
        p = os.path.join(d, f); n += 1
        t = open(p, encoding="utf-8").read()
        for m in re.finditer(r"(?m)^pub (\S+) : goal\.\S+\n((?:.+\n?)*)", t):
            rhs = m[2].split("=", 1)[1] if "=" in m[2] else m[2]
            ents.append((p, t.count("\n", 0, m.start()) + 1, m[1], " ".join(rhs.split())))
per = collections.Counter(e[0] for e in ents)
print(n, "files", len(ents), "entries;", sum(v == 1 for v in per.values()), "files with one entry")
mode = sys.argv[1] if len(sys.argv) > 1 else ""
if mode == "rules":
    k = [e for e in ents if re.fullmatch(r"search \(?rules.*|search rules", e[3])]
    for e in k: print(f"{e[0]}:{e[1]} {e[2]} = {e[3][:120]}")
    print(len(k))
if mode == "lines":
    # proof files (all entries) of trivial right sides
    triv = re.compile(r"^(let at-\w+ = c\.[\w-]+ in )*(omega arith|refl|\(omega arith, refl\)|\(refl, omega arith\)|\(omega arith, omega arith\)|omega \(arith, [^()]*\)|search (?:rules|\().*|c\.[\w.-]+|c\.\w+\.ensures( \(omega arith\))?|[\w-]+\.invariant\.\d)$")
    k = [e for e in ents if triv.match(e[3])]
    for e in k: print(f"{e[0]}:{e[1]} {e[2]} = {e[3][:120]}")
    print(len(k))
if mode == "same":
    g = collections.defaultdict(list)
    for e in ents: g[e[3]].append(e)
    rows = sorted(((len({x[0] for x in v}), k, v) for k, v in g.items() if len({x[0] for x in v}) >= 2), reverse=True)
    for c, k, v in rows:
        print(f"{c} files: {k[:140]}\n    " + " ".join(f"{x[0][7:]}:{x[1]}" for x in v))
    print(len(rows), "answers that stand in two or more files;", sum(r[0] for r in rows), "files")
