#!/usr/bin/env python3
"""Run once, at the top, after the spelling was brought to today's kit: definitions, lemmas, fields, constructors and what proofs bind get the kit's snake
case, a dash between words becoming an underscore. Names of the kit's own, and those that it makes for a function's goals, stay as they are.
    tools/snake_case.py        renames in crates/*/src, specs, proofs and must-fail, and lists names that would fall together"""
import collections
import glob
import re
import sys

TOKEN = re.compile(r"[^\s(){}\[\],;.«»\"`:]+")
WORDS = re.compile(r"\w-\w")
CRATES = [g.split("/")[1] for g in glob.glob("crates/*")]
KIT = re.compile(r"use ((?!Rattle\.(?:%s)\.)[\w.·ᴰ]+)\.\{([^}]*)\}" % "|".join(CRATES))
DECLARED = re.compile(r"^\s*(?:(?:pub|abbrev|unfoldable|data|record|\||where)\s+)*([^\s(){}:,;.]*\w-\w[^\s(){}:,;.]*)\s*(?:[({].*)?:")


def read(path):
    with open(path) as f:
        return f.read()


def of_kit(text):
    names = set()
    for m in KIT.finditer(text):
        for n in m.group(2).split(","):
            names.update(n.split())
    return names


def main():
    antt = sorted(glob.glob("crates/*/specs/**/*.antt", recursive=True) + glob.glob("crates/*/proofs/**/*.antt", recursive=True))
    # Invariants and answers are named as the kit names their goals; they are written after this ran.
    antt = [path for path in antt if not path.endswith(("/Invariants.antt", "/Answers.antt"))]
    declared = set()
    for path in antt:
        walk = re.search(r"/proofs/[^/]+/Proof\.antt$", path)
        text = read(path)
        kit = of_kit(text)
        for line in text.split("\n"):
            if line.lstrip().startswith("--"):
                continue
            # In a function's proof the answers at the margin are named as the kit names their goals.
            if walk and re.match(r"^(pub |abbrev )*\S+ : tie\.", line):
                continue
            # Every name of a page of definitions or laws that is not the kit's is its own, or one that it brings from another such page.
            if not walk:
                for t in re.finditer(TOKEN, line):
                    name = t.group(0)
                    if WORDS.search(name) and name not in kit and line[max(0, t.start() - 1) : t.start()] != ".":
                        declared.add(name)
            m = DECLARED.match(line)
            if m and m.group(1) not in kit and not m.group(1).startswith("Need-"):
                declared.add(m.group(1))
    new = collections.defaultdict(set)
    for name in declared:
        new[name.replace("-", "_")].add(name)
    for name, olds in sorted(new.items()):
        if len(olds) > 1:
            print("fall together:", name, sorted(olds))
    everything = antt + sorted(glob.glob("crates/*/src/**/*.rt", recursive=True)) + sorted(glob.glob("crates/*/must-fail/*.edit"))
    changed = 0
    for path in everything:
        text = read(path)
        kit = of_kit(text)
        walk = bool(re.search(r"/proofs/[^/]+/Proof\.antt$", path))
        laws = path.endswith(".antt") and not walk
        margin = set(re.findall(r"(?m)^(?:pub |abbrev )*(\S+) : tie\.", text)) if walk else set()
        had = set(TOKEN.findall(text))
        fell = set()

        def turned(m):
            t = m.group(0)
            if not WORDS.search(t) or t in kit or t in margin:
                return t
            before = text[max(0, m.start() - 5) : m.start()]
            if before.endswith("tie."):
                return t
            if t not in declared and not (laws and not before.endswith(".")):
                return t
            n = t.replace("-", "_")
            if n in had:
                fell.add((t, n))
            return n

        def line_turned(line):
            nonlocal text
            whole = text
            text = line
            if re.match(r"^\s*(--|//)", line) or (path.endswith(".edit") and not re.match(r"^(old|new):", line)):
                out = re.sub(r"`[^`]*`", lambda q: tick(q.group(0)), line)
            else:
                out = TOKEN.sub(turned, line)
            text = whole
            return out

        def tick(q):
            nonlocal text
            inner = q
            keep = text
            text = inner
            out = TOKEN.sub(lambda m: m.group(0).replace("-", "_") if m.group(0) in declared and m.group(0) not in kit else m.group(0), inner)
            text = keep
            return out

        out = "\n".join(line_turned(l) for l in text.split("\n"))
        if out != text:
            with open(path, "w") as f:
                f.write(out)
            changed += 1
        for old, name in sorted(fell):
            print("in one file:", path, old, name)
    print(len(declared), "names,", changed, "files")


if __name__ == "__main__":
    sys.exit(main())
