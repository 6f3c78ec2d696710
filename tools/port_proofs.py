#!/usr/bin/env python3
"""Turns the older Proof.antt files of crates into today's Invariants.antt and Answers.antt.

usage: port_proofs.py first ROOT OLD NAMES CRATE..    moves each crates/CRATE/proofs/**/Proof.antt below OLD/CRATE and writes Invariants.antt
       port_proofs.py answers ROOT OLD NAMES SAID CRATE   writes Answers.antt with the old answers of the goals that SAID names as open
       port_proofs.py all ROOT OLD NAMES CRATE..      writes Answers.antt with every old answer that is more than a tactic's call

NAMES is a folder with CRATE/names.json, which `rt check --generated NAMES/CRATE --old-names` writes in the crate's folder.
SAID is a file with what `rt check` printed. Prints what it could not turn, one line each, after 'left:'.
"""
import json
import os
import re
import shutil
import sys

WORD = r"[\w'+-]+"
PATH = re.compile(r"[\w'-]+(?:\.[\w'-]+)*")


def norm(s):
    s = re.sub(r"^(?:overflow|nonzero)-(?=.)", "", s)
    return s.replace("_", "-")


def read(p):
    with open(p, encoding="utf-8") as f:
        return f.read()


def write(p, text):
    os.makedirs(os.path.dirname(p), exist_ok=True)
    with open(p, "w", encoding="utf-8") as f:
        f.write(text)


class Old:
    """An older Proof.antt: its head, imports, loops' terms, answers and helpers."""

    def __init__(self, text):
        self.head, self.uses, self.items, self.plumbing = [], [], [], []
        self.tie = None
        blocks = re.split(r"\n\s*\n", text.strip("\n"))
        first = blocks[0].split("\n")
        rest = blocks[1:]
        while first and first[0].startswith("--"):
            self.head.append(first.pop(0))
        if first:
            rest.insert(0, "\n".join(first))
        # a block of imports may have comments and declarations after it
        for b in rest:
            lines = b.split("\n")
            while lines and lines[0].startswith("use "):
                u = lines.pop(0)
                m = re.match(r"use (Rattle\.[\w.+'-]+)\.Tie as tie\s*$", u)
                if m:
                    self.tie = m.group(1)
                elif ".Statement.{statement}" in u or u.endswith(".{statement}"):
                    pass
                else:
                    self.uses.append(u)
            if not lines:
                continue
            b = "\n".join(lines)
            self.items.append(self.item(b))

    def item(self, b):
        lines = b.split("\n")
        notes = []
        while lines and lines[0].startswith("--"):
            notes.append(lines.pop(0))
        body = "\n".join(lines)
        it = {"notes": notes, "text": body, "kind": "helper"}
        m = re.match(r"(?:abbrev )?(" + WORD + r")\s*:\s*(?:\n\s*)?tie\.((?:invariant|decreases)-" + WORD + r")\s*$", lines[0] if lines else "")
        if m:
            it["kind"], it["old"] = "loop", m.group(2)
            it["name"] = m.group(1)
            return it
        m = re.match(r"(?:pub )?(" + WORD + r")\s*:\s*(?:\n\s*)?tie\.Need-(" + WORD + r")(.*)", body)
        if m:
            it["kind"], it["old"], it["name"] = "answer", m.group(2), m.group(1)
            return it
        if "tie.close" in body or "tie.spec" in body or re.search(r"\bstatement M\b", body):
            it["kind"] = "plumbing"
        return it


def equation(it):
    """The binders and the body of an item's one equation, with its unfolding line, or None."""
    lines = it["text"].split("\n")
    i = 1
    while i < len(lines) and not lines[i].startswith(it["name"]) and not lines[i].startswith("unfolding "):
        i += 1
    unfolding = None
    if i < len(lines) and lines[i].startswith("unfolding "):
        unfolding = lines[i]
        i += 1
    rest = "\n".join(lines[i:])
    if not rest.startswith(it["name"]):
        return None
    m = re.match(re.escape(it["name"]) + r"((?:\s+(?:" + WORD + r"|\([^()=]*\)|\{[^{}=]*\}))*)\s*=(?=\s)", rest)
    if not m:
        return None
    return m.group(1).split(), rest[m.end():], unfolding


class Names:
    """What names.json says of one function."""

    def __init__(self, d):
        self.d = d
        self.needs = {}
        for i, (o, n) in enumerate(d["needs"]):
            at = d["asked_at"][i][0] if i < len(d["asked_at"]) else None
            self.needs.setdefault(norm(o), (n, at))
        self.places = {p[0]: p for p in d["places"]}
        self.byname = {p[0]: n for p, n in zip(d["places"], d["places_by_name"])}
        self.loops = [(o, n, v, d["changed"][i] if i < len(d["changed"]) else []) for i, ((o, n), v) in enumerate(d["loops"])]
        self.args = {}
        for o, n in d["args"]:
            m, k = re.match(r"\.args \.(\S+)", o), re.match(r"\.args \.(\S+)", n)
            if m and k:
                self.args[m.group(1)] = k.group(1)

    def need(self, old):
        return self.needs.get(norm(old))

    def loop(self, old):
        for o, n, v, c in self.loops:
            if norm(o) == norm(old):
                return n, v, c
        return None

    def chain(self, place):
        out = []
        while place:
            out.append(place)
            place = self.places[place][1] if place in self.places else None
        return out


class Contracts:
    """The names of the clauses of each function of the crates' sources, by its path; an unnamed clause has None."""

    def __init__(self, root):
        self.root, self.seen = root, {}

    def crate(self, c):
        if c in self.seen:
            return self.seen[c]
        out = self.seen[c] = {}
        src = os.path.join(self.root, "crates", c, "src")
        for folder, _, files in os.walk(src):
            for f in files:
                if not f.endswith(".rt"):
                    continue
                mod = os.path.relpath(os.path.join(folder, f), src)[:-3].split(os.sep)
                mod = [m for m in mod if m not in ("lib", "main", "mod")]
                lines = read(os.path.join(folder, f)).split("\n")
                now, impl = None, None
                for line in lines:
                    m = re.match(r"impl(?:<[^>]*>)?\s+(?:.*\bfor\s+)?([\w]+)", line)
                    if m:
                        impl = m.group(1)
                    elif line.startswith("}"):
                        impl = None
                    m = re.match(r"(\s*)(?:pub(?:\([^)]*\))?\s+)?(?:const\s+|unsafe\s+|extern\s+\S+\s+)*fn\s+(\w+)", line)
                    if m:
                        now = {"requires": [], "ensures": []}
                        out["::".join([c] + mod + ([impl] if impl and m.group(1) else []) + [m.group(2)])] = now
                        continue
                    m = re.match(r"\s+(requires|ensures)\*?\s+(?:(\w+)\s+)?\{", line)
                    if m and now is not None:
                        now[m.group(1)].append(m.group(2))
        return out

    def of(self, path):
        got = self.crate(path.split("::")[0])
        if path in got:
            return got[path]
        last = [k for k in got if k.split("::")[-1] == path.split("::")[-1]]
        return got[last[0]] if len(last) == 1 else None

    def named(self, path, kind):
        """The clauses' names, or [] where a lone clause has none or the function is not known."""
        got = path and self.of(path)
        names = got[kind] if got else []
        return names if names and all(names) else []


def by_clause(rest, names):
    """The rest of a path after .ensures or .requires, by the clauses' names."""
    if not names:
        return rest
    if len(names) == 1:
        return names + rest
    if rest and rest[0].isdigit() and int(rest[0]) < len(names):
        return [names[int(rest[0])]] + rest[1:]
    return rest


def joined(path, rest):
    """A path, or the tuple of its clauses where it ends in the names of several."""
    if rest and isinstance(rest[-1], tuple):
        return "(" + ", ".join(f"{path}.{k}" for k in rest[-1]) + ")"
    return path


class Turner:
    def __init__(self, names, say, contracts, me):
        self.names, self.say = names, say
        self.contracts, self.me = contracts, me
        self.sides = set()
        self.nots = False

    def step(self, place, word):
        """Today's step for an old step's word at a place or above it."""
        for p in self.names.chain(place):
            s = self.names.places[p][2]
            if s[0] and norm(s[0]) == norm(word):
                return s[1], p
        return None, None

    def field(self, rest):
        out = []
        for w in rest:
            out.append({"taken": "true", "left": "false"}.get(w, w))
        return out

    def path(self, parts, base, place):
        """A path after its first word, which stands for the place. Returns ('place', p) or ('path', text)."""
        names = self.names
        while parts and parts[0] == "before":
            up = names.places[place][1] if place in names.places else None
            if up is None:
                self.say(f"no place above {place} for {'.'.join(parts)}")
                return "path", base + "." + ".".join(parts)
            place = up
            parts = parts[1:]
        if not parts:
            return "place", place
        w = parts[0]
        new, p = self.step(place, w)
        if new:
            rest = parts[1:]
            if rest and re.match(r"if\d*$", w):
                rest = self.field(rest)
            rest = self.clauses(rest, names.places[p][3])
            return "path", self.negated(new, rest, joined(".".join([base, new] + [r for r in rest if isinstance(r, str)]), rest))
        if w == "args" and len(parts) > 1:
            parts = [w, names.args.get(parts[1], parts[1])] + parts[2:]
        elif w == "ranges" and len(parts) > 1:
            parts = [w, names.args.get(parts[1], parts[1])] + parts[2:]
        elif w not in ("args", "requires", "ranges", "auto", "type_inv", "utf8", "inv"):
            self.say(f"no step {w} at {place}: {base}.{'.'.join(parts)}")
        if w == "requires":
            mine = self.contracts.named(self.me, "requires")
            if len(mine) > 1 and len(parts) == 1:
                return "path", joined(base + ".requires", [tuple(mine)])
            parts = [w] + by_clause(parts[1:], mine)
        return "path", base + "." + ".".join(parts)

    def negated(self, step, rest, path):
        """A test of `!x`: its fact was on `not x`, and is now on x."""
        if step.startswith("if-not-") and rest in (["true"], ["false"]):
            self.nots = True
            return f"(ap not {path})"
        return path

    def clauses(self, rest, callee):
        if rest and rest[0] == "ensures" and callee:
            if callee.split("::")[0] in ("std", "core") or not self.contracts.of(callee):
                if len(rest) > 1 and rest[1].isdigit():
                    self.say(f"a clause of {callee} by number: .{'.'.join(rest)}")
                return rest
            names = self.contracts.named(callee, "ensures")
            if len(names) > 1 and len(rest) == 1:
                return ["ensures", tuple(names)]
            return ["ensures"] + by_clause(rest[1:], names)
        return rest

    def arms(self, body, base, place):
        """Turns `⊎_elim (λ w. A) (λ w. B) c.ifN.branch` to an elim over today's branches."""
        while True:
            i = body.find("⊎_elim")
            if i < 0:
                return body
            j = i + len("⊎_elim")
            args = []
            while len(args) < 2:
                while j < len(body) and body[j].isspace():
                    j += 1
                if j >= len(body) or body[j] != "(":
                    self.say("an ⊎_elim that is not over two λ")
                    return body.replace("⊎_elim", "⊎_elim ", 1) if False else body
                k, depth = j, 0
                while True:
                    depth += {"(": 1, ")": -1}.get(body[k], 0)
                    k += 1
                    if not depth:
                        break
                args.append(body[j + 1:k - 1])
                j = k
            m = re.compile(r"\s*(\(?)([\w'.-]+)(\)?)").match(body, j)
            parts = m.group(2).split(".") if m else []
            joined = None
            if parts and parts[-1] == "branch":
                for p in self.names.chain(place):
                    s = self.names.places[p][2]
                    if p.startswith("Joined") and norm(s[0]) == norm(parts[-2]):
                        joined = p
                        break
            if not joined:
                self.say("an ⊎_elim over " + (m.group(2) if m else "?"))
                return body
            up = self.names.places[joined][1]
            old = self.names.places[joined][2][0]
            heads = [p for p in self.names.places if self.names.places[p][1] == up and self.names.places[p][2][0] == old and p != joined]
            out = []
            for a, p in zip(args, heads[:2]):
                n = self.names.byname[p]
                side = n[0].lower() + n[1:]
                self.sides.add(side)
                lam = re.match(r"\s*λ\s+(\w+)\.\s*", a)
                if not lam:
                    self.say("an arm of ⊎_elim that is no λ")
                    return body
                w, arm = lam.group(1), a[lam.end():]
                line = [p]
                while True:
                    below = [q for q in self.names.places if self.names.places[q][1] == line[-1] and not q.startswith("Joined")]
                    if len(below) != 1:
                        break
                    line.append(below[0])
                steps = [self.names.places[q][2] for q in line]

                def turn(m):
                    k = int(m.group(1))
                    rest = m.group(2) or ""
                    if k < len(steps):
                        rest = rest.replace(".taken", ".true").replace(".left", ".false")
                        more = self.clauses(rest.split(".")[1:], self.names.places[line[k]][3])
                        if more and isinstance(more[-1], tuple):
                            return joined(f"{w}.{steps[k][1]}." + ".".join(more[:-1]), more)
                        rest = "".join("." + x for x in more)
                        return self.negated(steps[k][1], rest.split(".")[1:], f"{w}.{steps[k][1]}{rest}")
                    return f"{w}.VALUE{k - len(steps)}-is{rest}"

                arm = re.sub(r"(?<![\w.'-])" + w + r"\.(\d+)((?:\.[\w'-]+)*)", turn, arm)
                out.append(f"{side} {w} ↦ {arm}")
            body = body[:i] + f"elim {m.group(2)} [ " + " | ".join(out) + " ]" + body[m.end():].replace("", "", 0)

    def record(self, goal_, c, to):
        """The record of a place, as a lemma over it takes."""
        n = self.names.byname.get(to, to)
        if goal_ is None:
            self.say(f"the record of {n} in a helper")
            return f"{c}.{n}"
        return f"(goal.at.{goal_} {c}).{n}"

    def body(self, body, c, place, goal_=None, takers=()):
        body = self.arms(body, c, place)
        alias, arguments = {c: place}, set()
        # lets of a place go, in order
        out, i = "", 0
        let = re.compile(r"let (" + WORD + r") = ([\w'.-]+) in(\s*)")
        while i < len(body):
            m = let.match(body, i)
            if m:
                parts = m.group(2).split(".")
                if parts[0] in alias:
                    kind, to = self.path(parts[1:], c, alias[parts[0]])
                    if kind == "place":
                        alias[m.group(1)] = to
                        i = m.end()
                        continue
                    if to == c + ".args":
                        arguments.add(m.group(1))
            m = PATH.match(body, i)
            if m and (i == 0 or not re.match(r"[\w.'-]", body[i - 1])):
                t = m.group(0)
                parts = t.split(".")
                if parts[0] in alias and len(parts) > 1:
                    kind, to = self.path(parts[1:], c, alias[parts[0]])
                    if kind == "place":
                        out += self.record(goal_, c, to)
                    else:
                        out += to
                elif len(parts) == 1 and parts[0] in alias and parts[0] != c:
                    out += self.record(goal_, c, alias[t])
                elif t == c and re.search(r"(?<![\w.'-])(?:" + "|".join(map(re.escape, takers)) + r")\s+$", out) if takers else False:
                    out += self.record(goal_, c, place)
                elif len(parts) > 1 and parts[0] in arguments:
                    out += ".".join([parts[0], self.names.args.get(parts[1], parts[1])] + parts[2:])
                else:
                    out += t
                i = m.end()
                continue
            out += body[i]
            i += 1
        return out


def keep_uses(uses, text):
    """The lines of uses whose names stand in text, each with those names alone."""
    out = []
    words = set(re.findall(r"[^\s(){}\[\],.;]+", text)) | set(re.findall(r"[\w'+-]+", text)) | set(re.findall(r"[^\s(){}\[\],;]+", text))
    for u in uses:
        m = re.match(r"(use [^{]*\.)\{(.*)\}\s*$", u)
        if not m:
            m = re.match(r"use .* as ([\w'-]+)\s*$", u)
            if not m or m.group(1) in words or re.search(r"(?<![\w.])" + re.escape(m.group(1)) + r"\.", text):
                out.append(u)
            continue
        kept = []
        for n in m.group(2).split(","):
            n = n.strip()
            bare = n.split(" as ")[-1]
            ops = [o for o in bare.split("◌") if o]
            if bare in words or (("◌" in bare) and all(o in words or o in text for o in ops)):
                kept.append(n)
        if kept:
            out.append(m.group(1) + "{" + ", ".join(kept) + "}")
    return out


def loop_term(it, names, say):
    eq = equation(it)
    m = re.match(r"(invariant|decreases)-(.*)", it["old"])
    found = names.loop(m.group(2))
    if not eq or not found:
        say(f"{it['old']}: " + ("no such loop now" if eq else "its equation was not read"))
        return None
    binders, body, unfolding = eq
    new, vs, changed = found
    kind = m.group(1)
    lead = []
    if binders and binders[0] == "g" and "g" not in vs:
        lead, binders = ["g"], binders[1:]
    still = [v for v, x in zip(vs, changed) if not x]
    moved = [v for v, x in zip(vs, changed) if x]
    expect = [f"l.{v}" for v in still] + [f"l.initial.{v}" for v in moved] + [f"l.{v}" for v in moved]
    table = {}
    for b in binders:
        plain = b.rstrip("₀₁₂")
        if b != plain and plain in moved:
            table[b] = "l.initial." + plain
        elif b in vs:
            table[b] = "l." + b
    if len(expect) == len(binders):
        for b, e in zip(binders, expect):
            if b not in table:
                table[b] = e
                if norm(b.rstrip("₀₁₂")) != norm(e.split(".")[-1]):
                    say(f"{it['old']}: {b} is taken for {e}")
    else:
        say(f"{it['old']}: {len(binders)} variables {' '.join(binders)}, now {' '.join(expect)}")
    local = set()
    for mm in re.finditer(r"\(([^():]+) :", body):
        local |= set(mm.group(1).split())
    for mm in re.finditer(r"λ ([^.()]+)\. ", body):
        local |= set(mm.group(1).split())

    live = next(x for x in ("l", "live", "live'") if x not in local)
    if live != "l":
        table = {b: live + e[1:] for b, e in table.items()}

    def turn(mm):
        parts = mm.group(0).split(".")
        if parts[0] in table and parts[0] not in local:
            return ".".join([table[parts[0]]] + parts[1:])
        if parts[0] in table:
            say(f"{it['old']}: {parts[0]} is bound again inside")
        return mm.group(0)

    body = re.sub(r"(?<![\w.'-])[\w'-]+(?:\.[\w'-]+)*", turn, body)
    name = f"{kind}-{new}"
    head = "\n".join(it["notes"] + [f"abbrev pub {name} : goal.{name}"] + ([unfolding] if unfolding else []))
    return head + "\n" + " ".join([name] + lead + [live]) + " =" + body


def folder_key(crate, rel, d):
    rel = rel.replace("/", ".")
    for k in (f"Rattle-{crate}-proofs.{rel}.Lts", f"Rattle-{crate}-proofs.{rel.replace('+', '')}.Lts"):
        if k in d:
            return k
    last = rel.replace("+", "").split(".")[-1]
    for k in d:
        if k.startswith(f"Rattle-{crate}-proofs.{rel}.Lts") or k == f"Rattle-{crate}-proofs.{rel}.Lts-{last}":
            return k
    return None


def old_files(top):
    for folder, _, files in os.walk(top):
        if "Proof.antt" in files:
            yield os.path.relpath(folder, top), os.path.join(folder, "Proof.antt")


def names_of(where, crate):
    p = os.path.join(where, crate, "names.json")
    if not os.path.exists(p):
        print(f"left: {crate}: no {p}")
        return {}
    return json.loads(read(p))


def first(root, old, where, crate):
    proofs = os.path.join(root, "crates", crate, "proofs")
    for rel, p in list(old_files(proofs)):
        to = os.path.join(old, crate, rel, "Proof.antt")
        os.makedirs(os.path.dirname(to), exist_ok=True)
        shutil.move(p, to)
    d = names_of(where, crate)
    n = 0
    for rel, p in sorted(old_files(os.path.join(old, crate))):
        def say(s):
            print(f"left: {crate}/{rel}: {s}")
        o = Old(read(p))
        if not o.tie:
            say("not of the form that ends in tie.close: by hand")
            continue
        loops = [it for it in o.items if it["kind"] == "loop"]
        if not loops:
            continue
        key = folder_key(crate, rel, d)
        if not key:
            say("names.json has no such function")
            continue
        names = Names(d[key])
        terms = [t for t in (loop_term(it, names, say) for it in loops) if t]
        text = "\n\n".join(terms)
        helpers = helpers_for(o, text)
        if helpers:
            text = "\n\n".join(helpers) + "\n\n" + text
        uses = keep_uses(o.uses, text) + [f"use {o.tie}.Given as goal"]
        write(os.path.join(proofs, rel, "Invariants.antt"), "\n".join(o.head + uses) + "\n\n" + text + "\n")
        n += 1
    print(f"{crate}: {n} files Invariants.antt")


def defined(text):
    """The names that a block declares."""
    return set(re.findall(r"(?m)^(?:abbrev |unfoldable |pub |private )*(?:record |data )?(" + WORD + r")(?=[^\n=]*:)", text))


def helpers_for(o, text):
    """The helpers of the old file that text names, in order."""
    out, need = [], set(re.findall(r"[\w'-]+", text))
    hs = [it for it in o.items if it["kind"] == "helper"]
    keep = set()
    for k in range(len(hs) - 1, -1, -1):
        if defined(hs[k]["text"]) & need:
            keep.add(k)
            need |= set(re.findall(r"[\w'-]+", hs[k]["text"]))
    for k, it in enumerate(hs):
        if k in keep:
            out.append("\n".join(it["notes"] + [it["text"]]))
    return out


SMALL = re.compile(r"\s*(?:omega arith|search rules|omega \(arith\))\s*$")


def lets_of(body):
    """Where the lets at the head of a body end."""
    i = 0
    while True:
        m = re.compile(r"\s*let\s").match(body, i)
        if not m:
            return i
        depth, k, lets = 0, m.end(), 1
        while k < len(body):
            ch = body[k]
            if ch in "([{":
                depth += 1
            elif ch in ")]}":
                depth -= 1
            elif depth == 0:
                w = re.compile(r"(?<![\w.'-])(let|in)(?![\w'-])").match(body, k)
                if w:
                    lets += 1 if w.group(1) == "let" else -1
                    k = w.end()
                    if lets == 0:
                        break
                    continue
            k += 1
        i = k


def parts_of(body):
    """The lets of a body, and the parts of its tuple: (text before, [part, ..]), or None."""
    i = lets_of(body)
    m = re.compile(r"\s*\(").match(body, i)
    if not m:
        return None
    depth, start, parts = 0, m.end(), []
    for k in range(m.end() - 1, len(body)):
        ch = body[k]
        if ch in "([{":
            depth += 1
        elif ch in ")]}":
            depth -= 1
            if depth == 0:
                parts.append(body[start:k].strip())
                if body[k + 1:].strip():
                    return None
                break
        elif ch == "," and depth == 1:
            parts.append(body[start:k].strip())
            start = k + 1
    parts = [q for q in parts if q]
    return (body[:i], parts) if len(parts) > 1 else None


def clause_names(new, contracts, me, callees):
    """The names of the clauses that a goal has, in order, or []."""
    if new == "returns" or new.startswith("returns-"):
        return contracts.named(me, "ensures")
    m = re.match(r"(.*)-requires(?:-.*)?$", new)
    if m:
        for step, callee in callees.items():
            if step == m.group(1) or step.startswith(m.group(1)):
                return contracts.named(callee, "requires")
    return []


def answers(root, old, where, crate, open_goals):
    """open_goals: a map from a function's folder to its open goals, or None for all."""
    contracts = Contracts(root)
    proofs = os.path.join(root, "crates", crate, "proofs")
    d = names_of(where, crate)
    n = 0
    for rel, p in sorted(old_files(os.path.join(old, crate))):
        def say(s):
            print(f"left: {crate}/{rel}: {s}")
        want = None if open_goals is None else open_goals.get(rel)
        if open_goals is not None and not want:
            continue
        o = Old(read(p))
        key = folder_key(crate, rel, d)
        if not o.tie or not key:
            say("by hand, whole: no tie.close or no such function in names.json")
            continue
        names = Names(d[key])
        me = "::".join([crate] + [w.strip("+") for w in rel.split("/")])
        t = Turner(names, say, contracts, me)
        callees = {}
        for pl in names.places.values():
            if pl[3]:
                callees[pl[2][1]] = pl[3]
        done, texts = set(), []
        # the old answers by their own names, since one may cite another
        own = {}
        for it in o.items:
            if it["kind"] == "answer":
                found = names.need(it["old"])
                eq = equation(it)
                if found and eq:
                    own[it["name"]] = (found, eq, it)
                elif found is None and eq and open_goals is None and not SMALL.match(eq[1]):
                    say(f"{it['old']}: no such goal now")
                elif not eq:
                    say(f"{it['old']}: its equation was not read")
        chosen = set()
        for name, ((new, place), (binders, body, unfolding), it) in own.items():
            bases = {new} | {w for w in (want or ()) if w.startswith(new + "-clause-")}
            if want is not None and not (bases & set(want)):
                continue
            if want is None and SMALL.match(body) and not unfolding:
                continue
            done |= bases
            chosen.add(name)
        # and those that the chosen ones cite
        grown = True
        while grown:
            grown = False
            for name in list(chosen):
                for w in re.findall(r"(?<![\w.'-])[\w'-]+", own[name][1][1]):
                    if w in own and w not in chosen:
                        chosen.add(w)
                        grown = True
        order = [n for n in own if n in chosen]
        placed = []
        while order:
            for name in order:
                cites = set(re.findall(r"(?<![\w.'-])[\w'-]+", own[name][1][1])) & set(order) - {name}
                if not cites:
                    break
            else:
                name = order[0]
            order.remove(name)
            placed.append(name)
        # helpers over the record of a place take that record
        takers = [w for it in o.items if it["kind"] == "helper" and re.search(r"\btie\.[A-Z]", it["text"]) for w in defined(it["text"])]
        for name in placed:
            (new, place), (binders, body, unfolding), it = own[name]
            ks = [b for b in binders if b == "κs"]
            binders = [b for b in binders if b != "κs"]
            if ks and "κs" in body:
                say(f"{it['old']}: κs is used")
            c = binders[-1]
            if not re.match(r"[\w']+$", c):
                say(f"{it['old']}: the answer takes {c}")
            body = t.body(body, c, place, new, takers)

            def spread(m):
                names_, terms = m.group(1).split(", "), m.group(2).split(", ")
                if len(names_) != len(terms):
                    return m.group(0)
                return " ".join(f"let {a} = {b} in" for a, b in zip(names_, terms))

            body = re.sub(r"let \(([^()]+)\) = \(([^()]+)\) in", spread, body)
            if "VALUE" in body:
                say(f"{new}: write the joined variable's name for VALUE0")
            body = re.sub(r"(?<![\w.'-])[\w'-]+(?![\w'-])", lambda m: own[m.group(0)][0][0] if m.group(0) in own and own[m.group(0)][0][0] != new else m.group(0), body)
            clauses = clause_names(new, contracts, me, callees)
            pieces = [(new, body)]
            if clauses:
                got = parts_of(body)
                tactic = re.match(r"\s*(?:let [\w'-]+ = c\.args in\s*)?(?:omega|search|grind|cc)(?![\w'-])", body)
                some = [k for k in clauses if want is None or f"{new}-clause-{k}" in want]
                if len(clauses) == 1:
                    if not tactic:
                        cut = lets_of(body)
                        pieces = [(new, body[:cut].rstrip() + ("\n    " if cut else " ") + "record { " + clauses[0] + " = " + body[cut:].strip() + " }")]
                elif got and len(got[1]) == len(clauses):
                    lets, parts = got
                    if want is not None and some:
                        pieces = [(f"{new}-clause-{k}", lets + " " + q) for k, q in zip(clauses, parts) if k in some]
                    else:
                        pieces = [(new, lets.rstrip() + ("\n    " if lets.strip() else " ") + "record { " + "; ".join(f"{k} = {q}" for k, q in zip(clauses, parts)) + " }")]
                elif want is not None and some and tactic:
                    pieces = [(f"{new}-clause-{k}", body) for k in some]
                elif not tactic and re.match(r"\s*(?!elim |⊎_elim|rw |simp |λ )[\w'-]", body[lets_of(body):]):
                    cut = lets_of(body)
                    lets, term = body[:cut].rstrip(), body[cut:].strip()
                    gap = "\n    " if lets.strip() else " "
                    if some:
                        pieces = [(f"{new}-clause-{k}", f"{lets}{gap}({term}).{i}") for i, k in enumerate(clauses) if k in some]
                    else:
                        pieces = [(new, f"{lets}{gap}let all-clauses = {term} in record {{ " + "; ".join(f"{k} = all-clauses.{i}" for i, k in enumerate(clauses)) + " }")]
                elif not tactic:
                    say(f"{new}: has the clauses {', '.join(clauses)}, and its old answer is no tuple of as many")
            for name, body in pieces:
                texts.append("\n".join(it["notes"] + [f"pub {name} : goal.{name}"] + ([unfolding] if unfolding else [])) + "\n" + " ".join([name] + binders) + " =" + body)
        for w in sorted(set(want or ()) - done):
            say(f"open: {w} has no old answer")
        if not texts:
            continue
        text = "\n\n".join(texts)
        helpers = helpers_for(o, text)
        hs = []
        for h in helpers:
            def tie(m):
                for pl, nm in names.byname.items():
                    if norm(pl) == norm(m.group(1)):
                        return "goal." + nm
                say(f"tie.{m.group(1)} in a helper")
                return m.group(0)
            over = re.search(r"\((\w+) : tie\.([A-Z][\w'-]*)", h)
            if over:
                pl = next((x for x in names.places if norm(x) == norm(over.group(2))), None)
                if pl:
                    h = t.body(h, over.group(1), pl)
            h = re.sub(r"tie\.([\w'-]+)(?: invariant-loop\w*)*(?: decreases-loop\w*)*", tie, h)
            hs.append(h)
        if hs:
            text = "\n\n".join(hs) + "\n\n" + text
        uses = keep_uses(o.uses, text)
        if t.nots:
            have = " ".join(uses)
            for word, home in (("ap", "mathlib.Core.Path"), ("not", "mathlib.Core.Bool")):
                if not re.search(r"[{ ]" + word + r"[,}]", have):
                    uses.append(f"use {home}.{{{word}}}")
        if t.sides:
            uses.append(f"use {o.tie}.Goals.{{{', '.join(sorted(t.sides))}}}")
        uses.append(f"use {o.tie}.Goals as goal")
        has = os.path.exists(os.path.join(proofs, rel, "Invariants.antt"))
        write(os.path.join(proofs, rel, "Answers.antt"), "\n".join(([] if has else o.head) + uses) + "\n\n" + text + "\n")
        n += 1
    print(f"{crate}: {n} files Answers.antt")


def open_of(said):
    """What a check's output says is open: a map from a function's folder to goals."""
    out = {}
    for line in read(said).split("\n"):
        m = re.search(r"expected answers in \./proofs/(\S+)/Answers\.antt; `search` did not prove (.*)", line)
        if m:
            out.setdefault(m.group(1), []).extend(w for w in re.findall(r"`([^`]+)`", m.group(2).split("; it calls")[0]) if "::" not in w)
        for m in re.finditer(r"`([\w'-]+)` of (?:\./)?proofs/(\S+)/Answers\.antt must prove", line):
            g = out.setdefault(m.group(2), [])
            if m.group(1) not in g:
                g.append(m.group(1))
    return out


def main(argv):
    if len(argv) < 5:
        print(__doc__)
        return 2
    what, root, old, where = argv[:4]
    if what == "first":
        for c in argv[4:]:
            first(root, old, where, c)
    elif what == "answers" and len(argv) == 6:
        answers(root, old, where, argv[5], open_of(argv[4]))
    elif what == "all":
        for c in argv[4:]:
            answers(root, old, where, c, None)
    else:
        print(__doc__)
        return 2
    return 0


if __name__ == "__main__":
    raise SystemExit(main(sys.argv[1:]))
