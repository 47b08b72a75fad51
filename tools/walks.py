#!/usr/bin/env python3
"""Turns proofs that walked the code by hand (Proof.antt) into invariants and answers, once, for the port.

usage: python3 tools/walks.py NAMES CRATE [FUNCTION..]   at the top of the repository

NAMES is the folder that `rt names NAMES` wrote. Each crates/CRATE/proofs/F/Proof.antt is replaced by Answers.antt and,
where there are loops, Invariants.antt: goals and steps get today's names, `.before` goes, clauses go by their names.
It prints what is left to do by hand.
"""

import glob
import json
import os
import re
import sys

NAME = r"[^\s(){}\[\],;.:=λ|\"@]+"
PATH = re.compile(r"(?<![\w.'\-])(" + NAME + r")((?:\." + NAME + r")+)")


def clauses(kind):
    """The names of each function's clauses, where it has several, by its name."""
    found = {}
    for path in glob.glob("crates/*/src/**/*.rt", recursive=True):
        text = open(path, encoding="utf-8").read()
        for m in re.finditer(r"(?m)^ *(?:pub )?fn (\w+)", text):
            head = re.split(r"\n *\{\n", text[m.end() :], maxsplit=1)[0]
            head = re.split(r"(?m)^(?:pub )?fn ", head)[0]
            names = re.findall(r"(?m)^ *" + kind + r" (\w+) \{", head)
            if names:
                found[(path.split("/")[1], m.group(1))] = names
    return found


def references():
    """The parameters of each function that are no plain numbers, by its name."""
    found = {}
    for path in glob.glob("crates/*/src/**/*.rt", recursive=True):
        text = open(path, encoding="utf-8").read()
        for m in re.finditer(r"(?m)^ *(?:pub )?fn (\w+)\s*\(([^)]*)\)", text):
            found[m.group(1)] = [n for n, of in re.findall(r"(\w+)\s*:\s*([^,]+)", m.group(2))
                                 if not re.fullmatch(r"(?:[ui](?:8|16|32|64|size)|bool|char)\s*", of)]
    return found


ENSURES, REQUIRES, REFERENCES = clauses("ensures"), clauses("requires"), references()


def last_tuple(body):
    """Where the tuple at the end of a term stands, and its parts."""
    end = len(body.rstrip())
    if not body[:end].endswith(")"):
        return None
    depth, start, cuts = 0, None, []
    for i in range(end - 1, -1, -1):
        ch = body[i]
        if ch in ")]}":
            depth += 1
        elif ch in "([{":
            depth -= 1
            if depth == 0:
                start = i
                break
        elif ch == "," and depth == 1:
            cuts.append(i)
    if start is None or not cuts:
        return None
    before = body[:start].rstrip()
    if not (before.endswith("=") or before.endswith(" in") or before.endswith("\nin")):
        return None
    edges = [start] + sorted(cuts) + [end - 1]
    parts = [body[a + 1 : b].strip() for a, b in zip(edges, edges[1:])]
    return start, [p for p in parts if p]


def by_clauses(eqs, names):
    """A goal of several clauses is a record of them."""
    if len(names) == 1:
        head, _, body = eqs.partition(" =")
        return head + " = record { " + names[0] + " = " + body.strip() + " }"
    got = last_tuple(eqs)
    if got:
        start, parts = got
        if len(parts) > len(names):
            parts = parts[: len(names) - 1] + ["(" + ", ".join(parts[len(names) - 1 :]) + ")"]
        if len(parts) == len(names):
            return eqs[:start] + "record { " + "; ".join(f"{n} = {p}" for n, p in zip(names, parts)) + " }"
    return None


def alike(name):
    return re.sub(r"[-_]", "", name).lower()


def blocks(text):
    """Imports, and the declarations with the comments that stand before them."""
    uses, decls, notes, head = [], [], [], []
    current = None
    for line in text.split("\n"):
        if line.startswith("use "):
            uses.append(line)
            if not decls and notes:
                head, notes = head + notes, []
            current = None
        elif line.startswith("--"):
            notes.append(line)
            current = None
        elif not line.strip():
            if current is None and notes and not decls and not uses:
                head, notes = notes, []
        elif line[0] not in " \t" and re.match(r"(?:(?:abbrev|pub|unfoldable|data|record|module)\s+)*(\S+)\s*(?::|\(|\{|where)", line) \
                and not re.match(r"\S+(?: [^:]*)? = ", line) and not line.startswith("unfolding"):
            m = re.match(r"(?:(?:abbrev|pub|unfoldable|data|record|module)\s+)*(\S+)", line)
            current = {"name": m.group(1), "notes": notes, "lines": [line]}
            notes = []
            decls.append(current)
        elif current is not None:
            current["lines"].append(line)
        elif decls:
            decls[-1]["lines"].append(line)
    return head, uses, decls


class Function:
    def __init__(self, names):
        self.n = names
        self.by_old = {}
        for k, place in enumerate(names["places"]):
            self.by_old[place[0]] = k
        self.args = {}
        for old, new in names["args"]:
            if old.startswith(".args "):
                self.args[alike(old[7:])] = new[7:]

    def goal(self, old):
        for k, (was, now) in enumerate(self.n["needs"]):
            if alike(was) == alike(old) or alike("overflow-" + was) == alike(old):
                return k, now
        for k, (was, now) in enumerate(self.n["needs"]):
            if alike(now) == alike(old):
                return k, now
        return None

    def chain(self, k):
        """The steps before a goal: old label -> (new label, clauses, callee); and what arms say."""
        labels, arms = {}, []
        place = self.n["asked_at"][k][0]
        while place is not None and place in self.by_old:
            i = self.by_old[place]
            old, parent, pair, callee, fields = self.n["places"][i]
            clauses = self.n["clauses"][i]
            labels.setdefault(alike(pair[0]), (pair[1], clauses["fields"] if clauses else [], REFERENCES.get((callee or "").split("::")[-1], [])))
            if self.n["arms"][i]:
                step, _, fs = self.n["arms"][i]
                for new, label, path in fs:
                    arms.append((alike(label), path, step, new))
            place = parent
        arms.sort(key=lambda a: -len(a[1]))
        return labels, arms


def in_step(step, rest):
    """What stands below a step: clauses, references and their lengths by name."""
    new, fields, params = step
    rest = list(rest)
    if rest and rest[0] == "ensures" and len(fields) == 1 and rest[1:2] != fields:
        return ["ensures", fields[0]] + rest[1:]
    if len(rest) >= 2 and rest[0] == "ensures" and rest[1].isdigit() and fields and int(rest[1]) < len(fields):
        rest[1] = fields[int(rest[1])]
    if len(rest) >= 2 and rest[0] in ("new", "auto", "last", "kept"):
        rest[0] = {"last": "new", "kept": "auto"}.get(rest[0], rest[0])
        k = 1
        while k < len(rest) and rest[k] == "1":
            k += 1
        if k < len(rest) and rest[k] == "0" and k - 1 < len(params):
            return [rest[0], params[k - 1]] + rest[k + 1 :]
    return rest


def turned(body, function, k, root="c"):
    labels, arms = function.chain(k)
    alias = {root: None}

    def steps(name, path):
        parts = [p for p in path.split(".")[1:]]
        step = alias[name]
        if step == "args":
            parts[0] = function.args.get(alike(parts[0]), parts[0])
            return name, parts, None
        if step is not None:
            return name, in_step(step, parts), None
        while parts and parts[0] == "before":
            parts = parts[1:]
        if not parts:
            return name, parts, "root"
        for label, inner, new_step, field in arms:
            if alike(parts[0]) == label and parts[1 : 1 + len(inner)] == [str(x) for x in inner]:
                return name, [new_step, field] + parts[1 + len(inner) :], None
        if parts == ["args"]:
            return name, parts, "args"
        if parts[0] == "args" and len(parts) > 1:
            parts[1] = function.args.get(alike(parts[1]), parts[1])
            return name, parts, None
        got = labels.get(alike(parts[0]))
        if got:
            return name, [got[0]] + in_step(got, parts[1:]), got if len(parts) == 1 else None
        return name, parts, None

    out, at = [], 0
    for m in PATH.finditer(body):
        if m.group(1) not in alias:
            continue
        name, parts, kind = steps(m.group(1), m.group(2))
        out.append(body[at : m.start()])
        out.append(name + "".join("." + p for p in parts))
        at = m.end()
        before = body[: m.start()]
        bound = re.search(r"let (" + NAME + r") = $", before)
        if bound and re.match(r"\s+in\b", body[m.end() :]):
            if kind == "root":
                alias[bound.group(1)] = None
            elif kind:
                alias[bound.group(1)] = kind
        elif bound and kind is None and re.match(r"\s+in\b", body[m.end() :]):
            alias.pop(bound.group(1), None)
    out.append(body[at:])
    text = "".join(out)
    for name in [a for a, kind in alias.items() if kind is None and a != root]:
        text = re.sub(r"let " + re.escape(name) + r" = " + re.escape(root) + r" in\s*", "", text)
        text = re.sub(r"(?<![\w.'\-])" + re.escape(name) + r"(?![\w'\-])", root, text)
    return text


def invariant(decl, function, said):
    """The parameters of an invariant are fields of `l` now."""
    text = "\n".join(decl["lines"])
    kind, _, which = decl["name"].partition("-")
    index = None
    m = re.search(r": tie\.((?:invariant|decreases)-(\S+))", text)
    old = m.group(2)
    for i, (pair, live) in enumerate(function.n["loops"]):
        if alike(pair[0]) == alike(old):
            index = i
    if index is None:
        said.append(f"no loop {old}")
        return None
    (_, new), live = function.n["loops"][index]
    changed = function.n["changed"][index]
    body = re.search(r"(?ms)^" + re.escape(decl["name"]) + r"((?: [^=\n]*?)?) =(.*)$", text)
    params = body.group(1).split()
    want = [("i", v) if c else ("u", v) for v, c in zip(live, changed)] + [("c", v) for v, c in zip(live, changed) if c]
    if len(params) != len(want):
        said.append(f"{decl['name']}: {len(params)} parameters, {len(want)} wanted")
    value = body.group(2)
    to = {}
    for p, (kind_of, v) in zip(params, want):
        if p != "_":
            to[p] = ("l.initial." if kind_of == "i" else "l.") + v
    value = re.sub(r"(?<![\w.'\-])(" + "|".join(re.escape(p) for p in sorted(to, key=len, reverse=True)) + r")(?![\w'\-₀])",
                   lambda m: to[m.group(1)], value) if to else value
    kind = m.group(1).split("-")[0]
    return f"abbrev pub {kind}-{new} : goal.{kind}-{new}\n{kind}-{new} l ={value}"


def convert(path, names, crate, rel):
    said = []
    function = Function(names)
    text = open(path, encoding="utf-8").read()
    head, uses, decls = blocks(text)
    module = "Rattle." + crate + ".proofs." + rel.replace("/", ".")
    kept = [u for u in uses if not re.search(r"\.(Statement|Tie|Goals|Given)\b", u)]
    inv, ans, plain = [], [], []
    shared, more = "", []
    for d in decls:
        t = "\n".join(d["lines"])
        sig = t.split("\n" + d["name"])[0]
        if re.search(r": tie\.(invariant|decreases)-", sig):
            got = invariant(d, function, said)
            if got:
                inv.append("\n".join(d["notes"] + [got.rstrip()]))
        elif "statement M" in sig or re.search(r"tie\.(close|spec)", t):
            continue
        elif re.search(r": (?:\{[^}]*\} → )?tie\.Need-", sig):
            old = re.search(r"tie\.Need-(\S+)", sig).group(1)
            got = function.goal(old)
            if not got:
                said.append(f"goal {old} is gone")
                continue
            k, new = got
            unf = re.findall(r"(?m)^unfolding.*$", t)
            eqs = t[t.index("\n" + d["name"]) + 1 :] if ("\n" + d["name"]) in t else ""
            eqs = re.sub(r"(?m)^" + re.escape(d["name"]) + r"(?=\s)", new, eqs)
            eqs = re.sub(r"(?m)^(" + re.escape(new) + r" \S+) κs(?= )", r"\1", eqs)
            root = re.match(re.escape(new) + r" (\S+)", eqs)
            eqs = turned(eqs, function, k, root.group(1) if root else "c")
            names_of = None
            if new == "returns" or new.startswith("returns-"):
                names_of = ENSURES.get((crate, rel.split("/")[-1]))
            elif new.split("-")[-1] == "requires" or re.search(r"-requires-\d+$", new):
                callee = new.split("-")[0]
                names_of = next((v for (c, f), v in REQUIRES.items() if f == callee), None)
            own = REQUIRES.get((crate, rel.split("/")[-1]))
            if own and len(own) > 1:
                eqs = re.sub(r"(?<![\w'\-])c\.requires\.(\d)", lambda m: "c.requires." + own[int(m.group(1))], eqs)
            if names_of:
                r = by_clauses(eqs, names_of)
                if r is None:
                    said.append(f"by hand: {new} has clauses {names_of}")
                else:
                    eqs = r
            ans.append("\n".join(d["notes"] + [f"pub {new} : goal.{new}"] + unf + [eqs.rstrip()]))
            d["new"] = new
        else:
            if "tie." in t:
                said.append(f"by hand: {d['name']} speaks of a place")
            ans.append("\n".join(d["notes"] + [t.rstrip()]))
            plain.append((d["name"], "\n".join(d["notes"] + [t.rstrip()])))
    folder = os.path.dirname(path)
    head = [h for h in head if h.strip()]
    if inv:
        used = "\n".join(inv)
        wanted = [p for p in plain if re.search(r"(?<![\w.'\-])" + re.escape(p[0]) + r"(?![\w'\-])", used)]
        more = []
        if wanted:
            said.append("the invariant uses " + ", ".join(w[0] for w in wanted))
            drop = [w[1] for w in wanted]
            ans = [a for a in ans if a not in drop]
            more = [re.sub(r"(?m)^(abbrev |unfoldable )?(pub )?(record |data )?(?=" + re.escape(w[0]) + r"[ :])",
                           lambda m: (m.group(1) or "") + "pub " + (m.group(3) or ""), w[1], count=1) for w in wanted]
            shared = ", ".join(w[0] for w in wanted)
        body = "\n".join(head + kept + [f"use {module}.Given as goal", ""]) + "\n" + "\n\n".join(more + inv) + "\n"
        open(os.path.join(folder, "Invariants.antt"), "w", encoding="utf-8").write(body)
    if ans:
        if shared:
            kept = kept + [f"use {module}.Invariants.{{{shared}}}"]
        lines = (head if not inv else []) + kept + [f"use {module}.Goals as goal", ""]
        open(os.path.join(folder, "Answers.antt"), "w", encoding="utf-8").write("\n".join(lines) + "\n" + "\n\n".join(ans) + "\n")
    os.remove(path)
    for s in said:
        print(f"{crate}/{rel}: {s}")


def main():
    names_at, crate, only = sys.argv[1], sys.argv[2], sys.argv[3:]
    names = json.load(open(os.path.join(names_at, "crates", crate, "names.json")))
    base = f"crates/{crate}/proofs"
    for path in sorted(glob.glob(base + "/**/Proof.antt", recursive=True)):
        rel = os.path.relpath(os.path.dirname(path), base)
        if only and rel not in only:
            continue
        key = f"Rattle-{crate}-proofs." + rel.replace("/", ".") + ".Lts"
        if key not in names:
            print(f"{crate}/{rel}: no names")
            continue
        convert(path, names[key], crate, rel)


main()
