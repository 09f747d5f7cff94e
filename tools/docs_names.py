#!/usr/bin/env python3
"""Run once: the names of definitions and laws that README.md and docs/ quote, in the kit's snake case. Only what stands between backticks and is a name in
crates/*/specs or crates/*/proofs with underscores for its dashes is turned."""
import glob
import re
import sys

words = set()
for path in glob.glob("crates/*/specs/**/*.antt", recursive=True) + glob.glob("crates/*/proofs/**/*.antt", recursive=True) + glob.glob("crates/*/src/*.rt"):
    with open(path) as f:
        words |= set(re.findall(r"[^\s(){}\[\],;.«»\"`:]+", f.read()))


def name(m):
    dashed = m.group(0)
    turned = dashed.replace("-", "_")
    return turned if turned in words and dashed not in words else dashed


for path in sys.argv[1:]:
    with open(path) as f:
        text = f.read()
    out = re.sub(r"`[^`\n]+`", lambda q: re.sub(r"[A-Za-z][\w']*(?:-[\w']+)+", name, q.group(0)), text)
    if out != text:
        with open(path, "w") as f:
            f.write(out)
        print(path)
