#!/usr/bin/env python3
"""Turns a crate's older proofs, one walk in each proofs/F/Proof.antt, into Invariants.antt and Answers.antt.
    tools/answers.py CRATE NAMES [F..]      NAMES is the names.json that `rt check --generated DIR --old-names` writes in the crate's folder
Answers that the check looks for by itself are left out and kept beside, in /tmp/answers/CRATE/F, to be put back by
    tools/answers.py --back CRATE F GOAL..
It proves nothing: rt check decides. What it could not turn is printed."""
import json
import os
import re
import sys

N = lambda s: s.replace("_", "-")
SIG = re.compile(r"^(?:pub )?(?:abbrev )?(?:pub )?(\S+) : tie\.(Need-\S+|invariant-\S+|decreases-\S+)")


def functions():
    """Of each function of src: the names of its requires, and its parameters that are lent to be changed."""
    out = {}
    for folder, _, files in os.walk("crates"):
        if not folder.endswith("/src") or "/out" in folder:
            continue
        crate = folder.split("/")[1]
        for f in files:
            text = re.sub(r"//[^\n]*", "", open(f"{folder}/{f}").read())
            for m in re.finditer(r"\bfn (\w+)(?:<[^>]*>)?\(", text):
                depth, i = 1, m.end()
                while depth:
                    depth += {"(": 1, ")": -1}.get(text[i], 0)
                    i += 1
                params = text[m.end() : i - 1]
                rest = text[i:]
                rest = rest[: re.search(r"\n\s*\{\n|\n}\n|$", rest).start()]
                muts = [q.group(1) for q in re.finditer(r"(\w+): &(?:'\w+ )?mut ", params)]
                req = re.findall(r"\brequires (\w+) \{", rest)
                out[(crate, m.group(1))] = (req if len(req) > 1 else [], muts)
    return out


FUNCTIONS = functions()


def top_commas(text):
    parts, depth, cur = [], 0, ""
    for ch in text:
        if ch in "([{":
            depth += 1
        if ch in ")]}":
            depth -= 1
        if ch == "," and not depth:
            parts.append(cur)
            cur = ""
        else:
            cur += ch
    return parts + [cur]


def as_record(body, names):
    """A tuple at the end of an answer, one part for each clause, as a record by the clauses' names."""
    body = body.rstrip()
    if not body.endswith(")"):
        return None
    depth, i = 0, len(body) - 1
    while i >= 0:
        depth += {")": 1, "(": -1}.get(body[i], 0)
        if not depth:
            break
        i -= 1
    if not re.search(r"(=|\bin)\s*$", body[:i]):
        return None
    parts = [p.strip() for p in top_commas(body[i + 1 : -1])]
    if parts and not parts[-1]:
        parts.pop()
    while 1 < len(parts) < len(names) and parts[-1].startswith("(") and parts[-1].endswith(")") and len(top_commas(parts[-1][1:-1])) > 1:
        parts[-1:] = [p.strip() for p in top_commas(parts[-1][1:-1]) if p.strip()]
    if len(parts) != len(names):
        return None
    return body[:i] + "record { " + "; ".join(f"{n} = {p}" for n, p in zip(names, parts)) + " }"


def blocks_of(text):
    lines = text.split("\n")
    blocks, cur = [], []
    for i, l in enumerate(lines):
        starts = l and not l[0].isspace() and (i == 0 or not lines[i - 1].strip() or lines[i - 1].startswith("use ")) and not (cur and all(x.startswith("--") for x in cur))
        if starts and cur:
            blocks.append("\n".join(cur).rstrip())
            cur = []
        cur.append(l)
    if cur:
        blocks.append("\n".join(cur).rstrip())
    return [b for b in blocks if b.strip()]


def head_of(block):
    for l in block.split("\n"):
        if l.strip() and not l.startswith("--"):
            return l
    return ""


def names_in(block):
    out = []
    for l in block.split("\n"):
        m = re.match(r"^\s*(?:(?:pub|abbrev|unfoldable|data|record)\s+)*([^\s(){}:,;.]+)\s*(?:[({].*)?:", l)
        if m and m.group(1) not in ("where", "module"):
            out.append(m.group(1))
    return out


def tokens(text):
    return set(re.findall(r"[^\s(){}\[\],;.«»:]+", text))


def path_turner(crate, fn, info, said):
    places = info["places"]
    table, callee = {}, {}
    for p in places:
        old, new = p[2]
        if old:
            table.setdefault(N(old), new)
            callee.setdefault(N(old), p[3])
    own = FUNCTIONS.get((crate, fn), ([], []))
    index = {N(p[0]): i for i, p in enumerate(places)}
    byname = info["places_by_name"]

    def place_of(old):
        """The kit's new name of a place, from the old one of its type."""
        i = index.get(N(old))
        return byname[i] if i is not None else None

    def up(frm, to):
        """How many steps back from one place to another. What an arm adds is one step, whatever the older form counted."""
        k, i = 0, byname.index(frm)
        arm_of = lambda j: info["arms"][j][0] if info["arms"][j] else None
        while i is not None and byname[i] != to:
            p = index.get(N(places[i][1])) if places[i][1] else None
            if p is not None and arm_of(p) and arm_of(p) != arm_of(i):
                k += 1
                arm = arm_of(p)
                while p is not None and arm_of(p) == arm:
                    p = index.get(N(places[p][1])) if places[p][1] else None
            i = p
            k += 1
        return k if i is not None else None

    arms = {}
    for a in info["arms"]:
        if a:
            for field, step, fields in a[2]:
                if fields:
                    arms.setdefault((N(step), tuple(fields)), (a[0], field))

    def clause(parts):
        """The clause of this function's requires that a path of numbers leads to, by its name."""
        names = own[0]
        if not names or not parts or not parts[0].isdigit():
            return parts
        i = 0
        while i < len(names) - 1 and parts and parts[0] == "1":
            parts = parts[1:]
            i += 1
        if i < len(names) - 1:
            if not parts or parts[0] != "0":
                said.append("clause " + ".".join(parts))
                return parts
            parts = parts[1:]
        return [names[i]] + parts

    def turn(m):
        name = m.group(1)
        parts = m.group(2).split(".")[1:]
        while parts and parts[0] == "before":
            parts.pop(0)
        if parts:
            if parts[0] == "pre":
                parts[0] = "requires"
            if parts[0].startswith("loop") and len(parts) > 1 and parts[1] == "inv":
                parts[1] = "invariant"
            k = N(parts[0])
            k = k[:-4] if k not in table and k.endswith("-lem") else k
            fits = [f for s, f in arms if s == k and tuple(parts[1 : 1 + len(f)]) == f]
            if fits:
                f = max(fits, key=len)
                parts = list(arms[(k, f)]) + parts[1 + len(f) :]
            elif k in table:
                parts[0] = table[k]
                if len(parts) > 2 and parts[1] in ("new", "auto") and parts[2].isdigit():
                    # What an argument holds afterwards went by its number, in pairs.
                    i, rest_ = 0, parts[2:]
                    while rest_ and rest_[0] == "1":
                        i, rest_ = i + 1, rest_[1:]
                    of = info["params"].get(callee.get(k) or "")
                    if rest_ and rest_[0] == "0" and of and i < len(of):
                        parts[2:] = [of[i]] + rest_[1:]
                    else:
                        said.append("new " + m.group(0))
            elif parts[0] == "requires":
                parts[1:] = clause(parts[1:])
            elif parts[0] not in ("args", "ranges", "ensures", "lifetimes"):
                said.append("path " + parts[0])
            if len(parts) > 1 and (parts[0] in ("args", "ranges") or parts[0].startswith("loop")):
                parts[1] = parts[1].replace("-", "_") if parts[1] not in ("type-inv",) else parts[1]
        return name + "." + ".".join(parts) if parts else name

    def whole(t, frm, takers):
        aliases = {"c"}
        for q in re.finditer(r"\((\S+) : tie\.", t):
            aliases.add(q.group(1))
        more = True
        while more:
            more = False
            for q in re.finditer(r"\blet (\S+) = (\S+?)((?:\.before)*) in\b", t):
                if q.group(2) in aliases and q.group(1) not in aliases:
                    aliases.add(q.group(1))
                    more = True
        for q in re.finditer(r"\blet (\S+) = (\S+)\.requires in\b", t):
            if q.group(2).split(".")[0] in aliases and own[0]:
                t = re.sub(r"(?<![\w.'′-])" + re.escape(q.group(1)) + r"((?:\.\d)+)", lambda w: q.group(1) + "." + ".".join(clause(w.group(1).split(".")[1:])), t)
        # What takes a place is handed the place that it wants.
        for name, (to, _) in takers.items():

            def hand(w):
                if w.group(2) not in aliases:
                    return w.group(0)
                k = up(frm, to) if frm and to else None
                if k is None:
                    said.append(f"cannot hand {name} its place {to} from {frm}")
                    return w.group(0)
                return w.group(1) + "@@" + "c" + ".@before" * k

            t = re.sub(r"((?<![\w.'′-])" + re.escape(name) + r" )([\w'′-]+)((?:\.before)*)(?![\w.'′-])", hand, t)
        for a in aliases:
            t = re.sub(r"(?<![\w.'′@-])(" + re.escape(a) + r")((?:\.[^\s(){}\[\],;.«»]+)+)", turn, t)
        for q in set(re.findall(r"\blet (\S+) = c\.args in\b", t)):
            t = re.sub(r"(?<![\w.'′-])" + re.escape(q) + r"\.([^\s(){}\[\],;.«»]+)", lambda w: q + "." + w.group(1).replace("-", "_"), t)
        t = t.replace("@before", ".before")
        # The newer form says of a test `!x` what it says of x.
        t = re.sub(r"not-(?:true|false) c\.[^\s()]+ (c\.if-not[^\s,()]*\.(?:true|false))", r"\1", t)
        t = re.sub(r"\.ptr(?![\w'′-])", ".ref_ptr", t)
        t = t.replace("@@", "").replace(".@before", ".before")
        known = {a[1] for a in info["asked_at"]}

        def typed(w):
            at = place_of(w.group(1))
            if at is None:
                said.append("place " + w.group(1))
                return "goal." + w.group(1)
            return ("goal." if at in known else "lts.") + at

        return re.sub(r"tie\.([^\s()]+)((?: (?:invariant|decreases)-[^\s()]+)*)", typed, t)

    whole.up = up
    whole.old_of = lambda new: places[byname.index(new)][0]
    return whole, place_of


def public(block):
    out = []
    for l in block.split("\n"):
        m = re.match(r"^(\s*)((?:abbrev|unfoldable|data|record)\s+)?([^\s(){}:,;.]+)(\s*(?:[({].*)?:.*)$", l)
        if m and not l.lstrip().startswith(("pub ", "--", "module", "where", "|")) and " = " not in l.split(":")[0]:
            kind = (m.group(2) or "").strip()
            if kind in ("data", "record"):
                l = f"{m.group(1)}pub {kind} {m.group(3)}{m.group(4)}"
            elif kind:
                l = f"{m.group(1)}{kind} pub {m.group(3)}{m.group(4)}"
            else:
                l = f"{m.group(1)}pub {m.group(3)}{m.group(4)}"
        out.append(l)
    return "\n".join(out)


STEPS = set()
LTS = "--shared" in sys.argv
if LTS:
    sys.argv.remove("--shared")


def flat(text):
    """Names that are bound to an earlier place are the place itself, since the newer form has all of its facts in one record; and a step whose facts go by
    an arm's names now is written out."""
    while True:
        m = re.search(r"\blet (\S+) = c((?:\.before)*) in\b[ ]*\n?", text)
        if not m:
            for q in re.finditer(r"\blet (\S+) = (c(?:\.before)*\.([^\s.()]+)) in\b[ ]*\n?", text):
                if N(q.group(3)) in STEPS or re.search(r"(?<![\w.'′-])" + re.escape(q.group(1)) + r"\.new\.\d", text):
                    break
            else:
                q = re.search(r"\blet (\S+) = (c(?:\.before)*\.[^\s.()]+\.(?:new(?:\.1)+|given(?:\.\d)+)) in\b[ ]*\n?", text)
                if not q:
                    return text
            text = text[: q.start()] + (re.sub(r"^\s*", "", text[q.end() :]) if text[: q.start()].endswith(" ") else text[q.end() :])
            text = re.sub(r"(?<![\w.'′-])" + re.escape(q.group(1)) + r"(?=[\s.,;()]|$)(?! =)", q.group(2), text)
            continue
        text = text[: m.start()] + re.sub(r"^\s*", "", text[m.end() :]) if text[: m.start()].endswith(" ") else text[: m.start()] + text[m.end() :]
        text = re.sub(r"(?<![\w.'′-])" + re.escape(m.group(1)) + r"(?=[\s.,;()]|$)(?! =)", "c", text)


def inline_of(block):
    """A helper whose first argument is a place: its name, kind, type, what it unfolds and its body, of `c`; else None."""
    lines = [l for l in block.split("\n") if not l.startswith("--")]
    text = "\n".join(lines)
    m = re.match(r"(abbrev )?(?:pub )?(\S+) :\s+(?:\((\S+) : tie\.[^()]*\)|tie\.[^()→]*?)(\s+→\s+|\s+(?=[{(]))", text)
    if not m or re.search(r"(?m)^\s*where\b", text) or text.startswith(("module", "record", "data")):
        return None
    name = m.group(2)
    eqs = list(re.finditer(r"(?m)^" + re.escape(name) + r" (?!:)([^=\n]*?) ?=(?= |\n)", text))
    if len(eqs) != 1:
        return None
    eq = eqs[0]
    params = eq.group(1).split()
    if not params or any(c in eq.group(1) for c in "(){}"):
        return None
    head = text[m.end() : eq.start()]
    unfolds = []
    u = re.search(r"(?m)^unfolding (.*)$", head)
    if u:
        unfolds = u.group(1).split()
        head = head[: u.start()]
    body = text[eq.end() :].strip()
    if len(params) > 1:
        body = "λ " + " ".join(params[1:]) + ". " + body
    as_c = lambda x, v: re.sub(r"(?<![\w.'′-])" + re.escape(v) + r"(?![\w'′-])", "c", x) if v and v != "c" else x
    type_ = as_c(head.strip(), m.group(3))
    body = flat(as_c(body, params[0]))
    type_ = flat(type_)
    if "→" not in m.group(4):
        type_ = "§" + type_
    kind = "place" if re.fullmatch(r"c(\.before)*", body) else "value" if m.group(1) else "law"
    return name, kind, type_, unfolds, body


def by_arm(name, inlined):
    """Whether a helper speaks of an arm, whose facts go by other names in the kit's own record of a place."""
    _, type_, _, body = inlined[name]
    text = type_ + body
    return ".given" in text or any(re.search(r"(?<![\w.'′-])" + re.escape(n) + r" ", text) and by_arm(n, inlined) for n in inlined if n != name)


def inline(text, inlined, special=None):
    """The text with each such helper written out where it is handed a place, and what has to be unfolded for that. A law that unfolds is kept, for that place."""
    unfolds = []
    for name, (kind, type_, unf, body) in reversed(list(inlined.items())):

        def put(w):
            if special is not None and kind == "law" and (LTS or unf or type_.startswith("§")):
                return ("(" if w.group(0).startswith("(") else "") + special(name) + (")" if w.group(0).startswith("(") else "")
            if special is None and kind == "law" and (LTS or unf or type_.startswith("§")):
                return w.group(0)
            if kind == "place":
                return "c"
            if kind == "value" and LTS and not by_arm(name, inlined):
                if special is None:
                    return w.group(0)
                return ("(" if w.group(0).startswith("(") else "") + special(name) + (")" if w.group(0).startswith("(") else "")
            unfolds.extend(unf)
            if kind == "value":
                return f"({body})"
            flat = re.sub(r"\s*\n\s*", " ", type_)
            if not re.search(r"(?<![\w.'′-])(omega|simp|rw|cc|search|grind|record|λ|let|absurd|elim|refl)(?![\w'′-])", body) and "_ " not in body + " ":
                return f"({body})"
            return f"(let it : {flat} = {body} in it)"

        pat = re.escape(name) + r" [\w'′-]+(?:\.before)*(?![\w.'′@-])"
        text = re.sub(r"\(" + pat + r"\)", put, text)
        text = re.sub(r"(?<![\w.'′-])" + pat, put, text)
    return text, unfolds


def freed(term, params):
    """The term with what it binds under a parameter's name bound under another."""
    for p in params:
        for pat in (r"λ [^.]*?(?<![\w.'′-])(" + re.escape(p) + r")(?![\w'′-])[^.]*?\. ", r"\((" + re.escape(p) + r") : [^()]*\) (?:→|×) "):
            at = 0
            while True:
                m = re.compile(pat).search(term, at)
                if not m:
                    break
                depth, i = 0, m.end()
                while i < len(term):
                    if term[i] in "([{":
                        depth += 1
                    if term[i] in ")]}":
                        depth -= 1
                        if depth < 0:
                            break
                    i += 1
                inside = re.sub(r"(?<![\w.'′-])" + re.escape(p) + r"(?![\w'′-])", p + "'", term[m.start() : i])
                term = term[: m.start()] + inside + term[i:]
                at = m.end() + 1
    return term


def answers_of(crate, fn, info, stem, names):
    folder = f"crates/{crate}/proofs/{stem}"
    path = f"{folder}/Proof.antt"
    text = open(path).read()
    said = []
    needs = {}
    for old, new in info["needs"]:
        needs.setdefault(N(old), new)
    goals_file = f"{os.path.dirname(names)}/goals/Rattle-{crate}-proofs/{stem}/Goals.antt"
    goals = re.sub(r"\n\s+", " ", open(goals_file).read()) if os.path.exists(goals_file) else ""
    viewed = lambda at: bool(re.search(r"(?m)^" + re.escape(at) + r" = View\.", goals)) if goals else True
    handed = " tie.handed_clauses" if not goals or "Tie.handed_clauses" in goals else ""
    turn, place_of = path_turner(crate, stem.split("/")[-1], info, said)
    STEPS.clear()
    STEPS.update(N(step) for a in info["arms"] if a for _, step, fields in a[2] if fields)
    asked = {}
    for (old, new), at in zip(info["needs"], info["asked_at"]):
        asked[new] = at[1]
    uses, helpers, invs, answers, head = [], [], [], [], []
    loops = {}
    for loop, changed in zip(info["loops"], info["changed"]):
        loops[N(loop[0][0])] = (loop[0][1], loop[1], changed)
    for b in blocks_of(text):
        h = head_of(b)
        if b.startswith("--") and not h:
            head.append(b)
            continue
        if h.startswith("use "):
            for l in b.split("\n"):
                if l.startswith("--"):
                    head.append(l)
                elif l.strip() and not re.search(r"\.(Statement|Tie)\b", l):
                    uses.append(l)
            continue
        if re.search(r": (\{[^}]*\} → )*statement\b", h) or "→ statement M" in b:
            continue
        m = SIG.match(h)
        if not m:
            helpers.append(b)
            continue
        name, goal = m.group(1), m.group(2)
        lines = b.split("\n")
        comments = [l for l in lines if l.startswith("--")]
        rest = [l for l in lines if not l.startswith("--")]
        body = "\n".join(rest[1:])
        if goal.startswith("Need-"):
            key = N(goal[5:])
            new = needs.get(key) or needs.get(re.sub(r"^overflow-", "", key)) or next((n for _, n in info["needs"] if N(n) == key), None) or needs.get(N(name))
            if new is None:
                said.append("goal " + goal)
                new = "UNKNOWN-" + goal[5:]
            body = re.sub(r"(?m)^" + re.escape(name) + r"(?= )", new, body)
            body = re.sub(r"(?m)^(" + re.escape(new) + r" [^=\n]*?) κs(?= )", r"\1", body)
            answers.append((new, comments, body, key, name))
        else:
            kind, loop = goal.split("-", 1)
            got = loops.get(N(loop))
            if not got:
                said.append("loop " + goal)
                helpers.append(b)
                continue
            new, vars_, changed = got
            new = f"{kind}-{new}"
            eq = re.search(r"(?m)^" + re.escape(name) + r"((?:\s+\S+)*?)\s=((?:.|\n)*)$", body)
            if not eq:
                said.append("form " + goal)
                helpers.append(b)
                continue
            params = eq.group(1).split()
            pre = body[: eq.start()]
            term = eq.group(2)
            wanted = [f"l.initial.{v}" if c else f"l.{v}" for v, c in zip(vars_, changed)] + [f"l.{v}" for v, c in zip(vars_, changed) if c]
            if len(params) != len(wanted):
                said.append(f"params {goal} {params} {wanted}")
            sub = dict(zip(params, wanted))
            term = freed(term, params)
            term = re.sub(r"[^\s(){}\[\],;.«»:]+", lambda q: q.group(0) if term[q.start() - 1 : q.start()] == "." else sub.get(q.group(0), q.group(0)), term)
            invs.append((new, comments, f"{pre}{new} l ={term}"))
    # A lemma over a place of the walk stands, in the newer form, where it is used.
    inlined = {}
    homes = {}
    rest = []
    for b in helpers:
        q = inline_of(b)
        home = re.search(r": ?(?:\(\S+ : )?tie\.([^\s()]+)", b.replace("\n   ", ""))
        if q is not None and home:
            homes[q[0]] = place_of(home.group(1))
        if q is None:
            if "tie." in b:
                said.append("helper " + (names_in(b) or ["?"])[0])
            rest.append(b)
        else:
            name, kind, type_, unfolds, body = q
            body, more = inline(body, inlined)
            type_, more2 = inline(type_, inlined)
            inlined[name] = (kind, flat(type_), unfolds + more + more2, flat(body))
    helpers = rest
    # An answer that is cited by another is kept, under its new name.
    local = {n0: new for new, _, _, _, n0 in answers}
    turned = []
    specials, stay_laws, places_said = {}, [], {}
    callees = {}
    for p in info["places"]:
        if p[3] and "::" in p[3]:
            callees[p[3].split("::")[-1]] = p[3]
    cited = set()
    for new, comments, body, key, name in answers:
        for other, to in local.items():
            if other != name:
                body, k = re.subn(r"(?<=[ (])" + re.escape(other) + r"(?= c\b)", to, body)
                if k:
                    cited.add(to)
        q = re.match(r"((?:.|\n)*?^" + re.escape(new) + r" )(\S+)( [^=\n]*)?=", body, re.M)
        if q and q.group(2) != "c" and q.group(2) != "_":
            said.append("argument of " + new)
        body = flat(body)
        place = asked.get(new)

        def special(name):
            if (name, place) not in specials:
                if inlined[name][0] == "value" and LTS:
                    said.append("value " + name)
                as_ = name if not any(n == name for n, _ in specials) else f"{name}_{1 + sum(n == name for n, _ in specials)}"
                specials[(name, place)] = as_
                kind, type_, unf, law = inlined[name]
                type_, more1 = inline(type_, {k: v for k, v in inlined.items() if k != name}, choose)
                law, more2 = inline(law, {k: v for k, v in inlined.items() if k != name}, choose)
                unf = list(dict.fromkeys(unf + more1 + more2))
                arrow = " " if type_.startswith("§") else " → "
                type_ = type_.lstrip("§")
                stay_laws.append("\n".join([f"{as_} : (c : goal.{place}){arrow}{turn(type_, place, {})}"] + (["unfolding " + " ".join(unf)] if unf else []) + [f"{as_} c = {turn(law, place, {})}"]))
            return specials[(name, place)] + " c"

        def shared(at):
            """In the form in which a law over a place is said once, of the kit's own record of that place."""

            def f(name):
                to = homes[name]
                k = turn.up(at, to)
                if k is None:
                    said.append(f"no way from {at} to {to}")
                    k = 0
                if name not in [n for n, _ in specials]:
                    specials[(name, to)] = name
                    kind, type_, unf, law = inlined[name]
                    rest_ = {k2: v for k2, v in inlined.items() if k2 != name}
                    type_, more1 = inline(type_, rest_, shared(to))
                    law, more2 = inline(law, rest_, shared(to))
                    unf = list(dict.fromkeys(unf + more1 + more2))
                    arrow = " " if type_.startswith("§") else " → "
                    alias = "At-" + to
                    if alias not in places_said:
                        places_said[alias] = turn.old_of(to)
                    if kind == "value":
                        stay_laws.append("\n".join([f"abbrev {name} : {alias} → {turn(type_, to, {})}"] + (["unfolding " + " ".join(unf)] if unf else []) + [f"{name} c = {turn(law, to, {})}"]))
                        return f"{name} c" + "@before" * k
                    stay_laws.append("\n".join([f"{name} : (c : {alias}){arrow}{turn(type_.lstrip('§'), to, {})}"] + (["unfolding " + " ".join(unf)] if unf else []) + [f"{name} c = {turn(law, to, {})}"]))
                return f"{name} c" + "@before" * k

            return f

        def choose(name):
            if not LTS or by_arm(name, inlined):
                return special(name)
            return shared(place)(name).replace(" c", " c@before" if viewed(place) else " c", 1)

        if LTS:
            body, more = inline(body, inlined, choose)
        else:
            body, more = inline(body, inlined, special)
        body = flat(body)
        if more:
            had = re.search(r"(?m)^unfolding (.*)$", body)
            all_ = list(dict.fromkeys((had.group(1).split() if had else []) + more))
            body = (body[: had.start()] + body[had.end() :].lstrip("\n") if had else body).lstrip("\n")
            body = "unfolding " + " ".join(all_) + "\n" + body
        body = turn(body, asked.get(new), {})
        q = re.match(r"^(\w+?)(?:-.*)?-requires", new)
        if q and q.group(1) in callees:
            of = FUNCTIONS.get((callees[q.group(1)].split("::")[0], q.group(1)))
            if of and of[0]:
                if not re.search(r"(search rules|omega arith)\s*$", body):
                    r = as_record(body, of[0])
                    if r is None:
                        said.append(f"clauses of {new}: {of[0]}")
                    else:
                        body = r
        turned.append((new, comments, body))
    answers = turned
    # What an invariant speaks of goes with it.
    inv_text = "\n".join(i[2] for i in invs)
    moved = []
    more = True
    while more:
        more = False
        for b in helpers:
            if b in moved:
                continue
            if set(names_in(b)) & tokens(inv_text + "\n".join(moved)):
                moved.append(b)
                more = True
    moved = [b for b in helpers if b in moved]
    stay = [b for b in helpers if b not in moved] + stay_laws
    base = f"Rattle.{crate}.proofs.{stem.replace('/', '.')}"

    def needed(text, lines):
        out = []
        ts = tokens(text)
        for l in lines:
            m = re.match(r"use (\S+?)\.\{(.*)\}$", l)
            if m:
                keep = []
                for n in m.group(2).split(","):
                    n = n.strip()
                    bare = n.split(" as ")[-1].strip()
                    sym = bare.strip("◌")
                    if bare == "[]" or bare in ts or (bare != sym and any(s and s in ts for s in sym.split("◌"))) or bare in ("arith",) and "arith" in ts:
                        keep.append(n)
                if keep:
                    out.append(f"use {m.group(1)}.{{{', '.join(keep)}}}")
            else:
                out.append(l)
        return out

    files = {}
    if invs:
        body = "\n\n".join([public(b) for b in moved] + ["\n".join(c + [f"abbrev pub {n} : goal.{n}", t]) for n, c, t in invs])
        files["Invariants.antt"] = "\n".join(needed(body, uses) + [f"use {base}.Given as goal", "", body, ""])
    trivial = [a for a in answers if a[0] not in cited and re.fullmatch(r"\s*" + re.escape(a[0]) + r" [^=]*=\s*(search rules|omega arith)\s*", a[2])]
    keep = [a for a in answers if a not in trivial]
    aside = f"/tmp/answers/{crate}/{stem.replace('/', '.')}"
    os.makedirs(aside, exist_ok=True)
    for n, c, t in answers:
        with open(f"{aside}/{n}", "w") as f:
            f.write("\n".join(c + [f"pub {n} : goal.{n}", t.strip("\n"), ""]))
    if keep or stay:
        loop_args = " ".join(f"goal.the-invariant-{new} goal.the-decreases-{new}" for new, _, _ in loops.values())
        stay = [f"abbrev {a} : Type 0\n{a} = lts.{o} tie.the-claims reads.Pre reads.Post{' ' + loop_args if loop_args else ''}{handed}" for a, o in places_said.items()] + stay
        body = "\n\n".join(stay + ["\n".join(c + [f"pub {n} : goal.{n}", t.strip("\n")]) for n, c, t in keep])
        own = [n for b in moved for n in (names_in(b)[:1] if re.match(r"(pub |abbrev )*record ", head_of(b)) else names_in(b))]
        used = [n for n in dict.fromkeys(own) if n in tokens(body)]
        lines = needed(body, uses)
        if used:
            lines.append(f"use {base}.Invariants.{{{', '.join(used)}}}")
        if "lts." in body:
            lines.append(f"use {base}.Lts as lts")
        if "tie.the-claims" in body:
            lines += [f"use {base}.Tie as tie", f"use {base}.Reads as reads"]
        files["Answers.antt"] = "\n".join(head + lines + [f"use {base}.Goals as goal", "", body, ""])
    if head and "Answers.antt" not in files and "Invariants.antt" in files:
        files["Invariants.antt"] = "\n".join(head) + "\n" + files["Invariants.antt"]
    os.makedirs(f"{aside}/was", exist_ok=True)
    os.rename(path, f"{aside}/was/Proof.antt")
    for n, t in files.items():
        with open(f"{folder}/{n}", "w") as f:
            f.write(t)
    if not os.listdir(folder):
        os.rmdir(folder)
    with open(f"{aside}/was/uses", "w") as f:
        f.write("\n".join(head + uses))
    print(f"{crate}::{stem}: {len(invs)} invariants and measures, {len(keep)} answers, {len(trivial)} left out" + ("; NOT TURNED: " + "; ".join(dict.fromkeys(said)) if said else ""))


def back(crate, stem, goals):
    aside = f"/tmp/answers/{crate}/{stem.replace('/', '.')}"
    path = f"crates/{crate}/proofs/{stem}/Answers.antt"
    base = f"Rattle.{crate}.proofs.{stem.replace('/', '.')}"
    if os.path.exists(path):
        text = open(path).read().rstrip("\n")
    else:
        os.makedirs(os.path.dirname(path), exist_ok=True)
        text = open(f"{aside}/was/uses").read() + f"\nuse {base}.Goals as goal"
    uses = [l for l in open(f"{aside}/was/uses").read().split("\n") if "arith}" in l or "Rules.{rules}" in l]
    for u in uses:
        if u not in text:
            text = u + "\n" + text
    for g in goals:
        text += "\n\n" + open(f"{aside}/{g}").read().rstrip("\n")
    with open(path, "w") as f:
        f.write(text + "\n")


def main():
    if sys.argv[1] == "--back":
        return back(sys.argv[2], sys.argv[3], sys.argv[4:])
    crate, names = sys.argv[1:3]
    only = sys.argv[3:]
    table = json.load(open(names))
    for key, info in table.items():
        m = re.match(rf"Rattle-{crate}-proofs\.(.+)\.Lts$", key)
        if not m:
            continue
        stem = m.group(1).replace(".", "/")
        if only and stem not in only:
            continue
        if os.path.exists(f"crates/{crate}/proofs/{stem}/Proof.antt"):
            answers_of(crate, stem, info, stem, names)


if __name__ == "__main__":
    main()
