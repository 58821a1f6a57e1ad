#!/usr/bin/env python3
"""Turns the older proofs that walk a function, proofs/F/Proof.antt, into proofs/F/Invariants.antt and Answers.antt (the port to today's Rattle).

    rt names OUT                                   at the top: what the older proofs' names are now, OUT/crates/NAME/names.json
    python3 tools/port/answers.py OUT CRATE..      in the crates named, each Proof.antt; what it could not turn is printed and marked by TODO

An answer that only says `search rules`, `omega arith` or `tt` is left out, since the check finds it. A module Proof/Turn.antt becomes
Invariants/Turn.antt, or Answers/Turn.antt where the function has no invariant.
"""
import json
import os
import re
import sys

NAME = r"[\w'₀-₉α-ωΑ-Ωκ-]+"
PATH = re.compile(rf"(?<![\w'.-])({NAME})((?:\.{NAME})+)")
TRIVIAL = {"search rules", "search needs", "omega arith", "tt"}
DROPPED = re.compile(
    r"\.(Statement|Tie|Kinds|Reads|Lts(-[\w+]+)?)( as |\.\{|$)|^use borrow\.Fn\.|\.\{statement\}|\.Tie\.\{|\.proofs\.[\w.+]+\.Lts"
)


def norm(name):
    name = re.sub(r"^overflow[-_]", "", name).replace("-", "_").removesuffix("_lem")
    return re.sub(r"^slice_bounds_", "part_", name)


class Walk:
    """What names.json says of one function's places."""

    def __init__(self, data):
        self.data = data
        self.parent, self.step, self.callee = [], [], []
        index = {}
        for i, (name, parent, step, callee, _) in enumerate(data["places"]):
            index.setdefault(name, i)
            self.parent.append(None if parent is None else index[parent])
            self.step.append(step)
            self.callee.append(callee)
            index[name] = i
        self.by_new = {}
        for i, name in enumerate(data["places_by_name"]):
            self.by_new[name] = i
        self.by_old = index

    def place_of_need(self, k):
        old, new = self.data["asked_at"][k]
        if new in self.by_new:
            return self.by_new[new]
        return self.by_old.get(old)


def split_top(text, sep):
    """The parts of text at sep outside brackets."""
    parts, depth, at, i = [], 0, 0, 0
    while i < len(text):
        ch = text[i]
        if ch in "([{":
            depth += 1
        elif ch in ")]}":
            depth -= 1
        elif depth == 0 and text.startswith(sep, i):
            parts.append(text[at:i])
            at = i + len(sep)
            i += len(sep)
            continue
        i += 1
    parts.append(text[at:])
    return parts


class Term:
    def __init__(self, walk, place, notes, where, pre, cycle):
        self.walk, self.place, self.notes, self.where, self.cycle = walk, place, notes, where, cycle
        self.alias = {"c"}
        self.pre = pre

    def note(self, text):
        self.notes.append(f"{self.where}: {text}")

    def lets(self, text):
        """Takes out `let NAME = c.before.. in` where it names a place."""
        while True:
            m = re.search(rf"\blet ({NAME}) = ({NAME})((?:\.before)*) in\s*", text)
            found = None
            for m in re.finditer(rf"\blet ({NAME}) = ({NAME})((?:\.before)*) in\s*", text):
                if m.group(2) in self.alias:
                    found = m
                    break
            if not found:
                return text
            self.alias.add(found.group(1))
            text = text[: found.start()] + text[found.end():]

    def steps(self, text):
        """Writes a step where `let NAME = c.before..STEP in` names it, and takes that let out."""
        while True:
            m = re.search(rf"\blet ({NAME}) = (({NAME})(?:\.before)*\.({NAME})) in\s*", text)
            at = 0
            while m and (m.group(3) not in self.alias or m.group(4) == "before"):
                at = m.end()
                m = re.compile(rf"\blet ({NAME}) = (({NAME})(?:\.before)*\.({NAME})) in\s*").search(text, at)
            if not m:
                return text
            text = text[: m.start()] + text[m.end():]
            text = re.sub(rf"(?<![\w'.-]){re.escape(m.group(1))}(?![\w'-])", lambda _: m.group(2), text)

    def path(self, m):
        root, rest = m.group(1), m.group(2).split(".")[1:]
        if root not in self.alias:
            return m.group(0)
        w = self.walk
        place = self.place
        while rest and rest[0] == "before":
            rest = rest[1:]
        if not rest:
            self.note(f"a place is passed whole: {m.group(0)}")
            return "TODO-" + m.group(0)
        s, r = rest[0], rest[1:]
        if norm(s) in ("args", "ranges", "lifetimes", "well_formed"):
            return "c." + ".".join([norm(s)] + [x.replace("-", "_") if i == 0 else x for i, x in enumerate(r)])
        if s == "requires":
            if self.cycle and r and r[0] in "01":  # the pair of what the measure says and what is required
                if r[0] == "0":
                    return "c." + ".".join(["decreases"] + r[1:])
                r = r[1:]
            if self.pre and r and r[0].isdigit() and int(r[0]) < len(self.pre):
                r = [self.pre[int(r[0])]] + r[1:]
            return "c." + ".".join(["requires"] + r)
        q = place
        while q is not None and norm(w.step[q][0]) != norm(s):
            q = w.parent[q]
        if q is None:
            q, bare = place, {"type_inv": "typed"}.get(norm(s), norm(s)).rstrip("0123456789")
            while q is not None and norm(w.step[q][0]).rstrip("0123456789") != bare:
                q = w.parent[q]
            if q is not None:
                s = w.step[q][0]
        if q is None:
            self.note(f"no step {s} in {m.group(0)}")
            return "TODO-" + m.group(0)
        x = self.place
        while x is not None:
            arm = w.data["arms"][x]
            if arm:
                for new, old, path in arm[2]:
                    if norm(old) == norm(s) and path and r[: len(path)] == path:
                        return "c." + ".".join([arm[0], new] + r[len(path):])
                for new, old, path in arm[2]:
                    if norm(old) == norm(s) and not path and r and (r[0] == "rest" or r[0].startswith("keys")):
                        return "c." + ".".join([arm[0], new] + r)
            if x == q:
                break
            x = w.parent[x]
        if r and r[0] == "given":
            for var, by in w.data["typed"][self.place] + w.data["typed"][q]:
                if norm(by) == norm(s):
                    return "c." + ".".join(["type_inv", var] + r[1:])
        step = w.step[q][1]
        if r and r[0] == "ensures" and len(r) > 1 and r[1].isdigit():
            clause = w.data["clauses"][q]
            if clause and clause["fields"]:
                last, k = len(clause["fields"]) - 1, 1  # the clauses stood as a pair of the first and the rest
                while k < last and r[k : k + 1] == ["1"]:
                    k += 1
                if r[k : k + 1] and r[k] in "01":
                    r = ["ensures", clause["fields"][k - 1 + int(r[k])]] + r[k + 1:]
        if r and r[0] in ("auto", "new", "kept"):
            n, k = 0, 1
            while k < len(r) and r[k] == "1":
                n, k = n + 1, k + 1
            params = w.data["params"].get(w.callee[q] or "", [])
            if k < len(r) and r[k] == "0" and n < len(params):  # an older name of `auto` was `kept`
                r = ["auto" if r[0] == "kept" else r[0], params[n]] + r[k + 1:]
            else:
                self.note(f"{'.'.join(r)} of {s}")
        if r and r[0] == "type-inv":
            r[0] = "type_inv"
        if r and r[0].startswith("keys") or r and r[0] == "rest":
            self.note(f"a key of a match: {m.group(0)}")
        return "c." + ".".join([step] + r)

    def turn(self, text):
        return PATH.sub(self.path, self.steps(self.lets(text)))


def tail(text):
    """Splits `let .. in E` into what comes before E, and E."""
    depth, at, i = 0, 0, 0
    for m in re.finditer(r"[(\[{]|[)\]}]|\bin\b", text):
        if m.group(0) in "([{":
            depth += 1
        elif m.group(0) in ")]}":
            depth -= 1
        elif depth == 0:
            at = m.end()
    return text[:at], text[at:]


def as_record(text, fields):
    head, last = tail(text)
    e = last.strip()
    if e.startswith("(") and e.endswith(")"):
        inner = e[1:-1].strip().rstrip(",")
        depth, ok = 0, True
        for i, ch in enumerate(e):
            depth += ch in "([{"
            depth -= ch in ")]}"
            if depth == 0 and i < len(e) - 1:
                ok = False
                break
        parts = [p.strip() for p in split_top(inner, ",")] if ok else []
        while ok and len(parts) < len(fields) and parts and parts[-1].startswith("(") and parts[-1].endswith(")"):
            parts = parts[:-1] + [p.strip() for p in split_top(parts[-1][1:-1].strip().rstrip(","), ",")]
        if len(parts) == len(fields):
            sp = " " if head and not head.endswith((" ", "\n")) else ""
            return head + sp + "record { " + " ".join(f"{f} = {p};" for f, p in zip(fields, parts)) + " }"
    sp = " " if head and not head.endswith((" ", "\n")) else ""
    if e.startswith("search"):
        return head + sp + e
    return head + sp + f"let both = {e} in record {{ " + " ".join(f"{f} = both.{i};" for i, f in enumerate(fields)) + " }"


def blocks(text):
    """The top-level pieces: a piece begins at a line in the first column that follows a blank line or the start."""
    out, cur = [], []
    lines = text.split("\n")
    for i, line in enumerate(lines):
        if cur and line and not line[0].isspace() and lines[i - 1].strip() == "" and not line.startswith(")"):
            out.append("\n".join(cur).rstrip())
            cur = []
        cur.append(line)
    if cur:
        out.append("\n".join(cur).rstrip())
    return [b for b in out if b.strip()]


def public(b):
    """The same piece, with its name and a record's fields pub."""
    b = re.sub(r"^(record|data) ", r"pub \1 ", b, flags=re.M)
    b = re.sub(r"^(abbrev|unfoldable) (?!pub )", r"\1 pub ", b, flags=re.M)
    b = re.sub(rf"^({NAME} :)", r"pub \1", b, flags=re.M)
    if re.search("^pub record", b, re.M):
        b = re.sub(rf"^(  )(?!pub )({NAME} :)", r"\1pub \2", b, flags=re.M)
    return b


def turn(crate, folder, names, notes):
    """folder: the path below proofs/, as sums/sum or check/+walk."""
    base = os.path.join("crates", crate, "proofs", folder)
    with open(os.path.join(base, "Proof.antt"), encoding="utf-8") as f:
        text = f.read()
    module = f"Rattle.{crate}.proofs." + folder.replace("/", ".")
    key = f"Rattle-{crate}-proofs." + folder.replace("/", ".") + ".Lts"
    walks = {k[len(key):]: Walk(v) for k, v in names.items() if k.startswith(key)}
    if not walks:
        notes.append(f"{crate} {folder}: no names")
        return
    lines = text.split("\n")
    head = []
    while lines and lines[0].startswith("--"):
        head.append(lines.pop(0))
    mods, uses = [], []
    while lines and (lines[0].startswith(("use ", "mod ", "pub mod ")) or not lines[0].strip()):
        line = lines.pop(0)
        if line.startswith(("mod ", "pub mod ")):
            mods.append(line.split()[-1])
        elif line.strip():
            uses.append(line)
    alias_of = {"tie": ""}
    for u in uses:
        m = re.match(r"use .*\.Lts(-[\w]+)? as ([\w-]+)$", u)
        if m:
            alias_of[m.group(2)] = m.group(1) or ""
    kept = [u for u in uses if not DROPPED.search(u)]
    needs, measures, invariants, helpers = {}, [], [], []
    for whole in blocks("\n".join(lines)):
        b = re.sub(r"\A(--[^\n]*\n)*", "", whole)
        sig = re.match(rf"({NAME}) :\s+(?:\(t : ℕ\) →\s+)?({NAME})\.Need-({NAME})", b)
        if sig and sig.group(2) in alias_of:
            needs[(alias_of[sig.group(2)], norm(sig.group(3)))] = (sig.group(1), b)
            continue
        if re.match(rf"abbrev (pub )?(invariant|decreases)-", b):
            (invariants if "invariant-" in b.split("\n")[0] else measures).append(b)
            continue
        if re.search(r"tie\.close|\.Tie|close\b", b) and re.match(r"pub [\w-]+[-_]spec", b) or re.match(r"(pub )?[+\w-]+ :\s*\{M : Type 1\}", b):
            continue
        if re.match(r"abbrev (pub )?[\w-]+[-_](at|below|callees) :", b) or re.match(r"abbrev (pub )?μ", b):
            if "μ" in b.split("\n")[0]:
                measures.append(b)
            continue
        helpers.append(whole)
    out_inv, out_ans, used_inv = [], [], False
    # measures of recursion
    for b in measures:
        m = re.match(rf"abbrev (?:pub )?μ-?({NAME})?", b)
        if not m:
            continue
        eq = b.split("\n", 1)[1]
        body = eq.split("=", 1)[1].strip()
        stem = m.group(1)
        params = next((p for w in walks.values() for f, p in w.data["params"].items() if stem and norm(f.split("::")[-1]) == norm(stem)), [])

        def place(m):
            path = m.group(1).split(".")
            n = sum(1 for x in path[:-1] if x == "1") if path[-1] == "0" else None
            return f"l.{params[n]}" if n is not None and n < len(params) else m.group(0)

        body = re.sub(r"(?<![\w.])a\.((?:1\.)*0)", place, body)
        out_inv.append((f"decreases-{(stem or folder.split('+')[-1]).replace('-', '_')}", body, "measure"))
    loops_by_old = {}
    for sfx, w in walks.items():
        for i, (loop, vs) in enumerate(w.data["loops"]):
            loops_by_old[(sfx, norm(loop[0]))] = (loop[1], vs, w.data["changed"][i])
    for b in invariants + [m for m in measures if re.match(r"abbrev (pub )?decreases-", m)]:
        name = re.match(rf"abbrev (?:pub )?({NAME})", b).group(1)
        kind, loop = name.split("-", 1)
        found = [v for (sfx, old), v in loops_by_old.items() if old == norm(loop)]
        if not found:
            notes.append(f"{crate} {folder}: no loop {loop}")
            continue
        new, vs, changed = found[0]
        rest = b.split("\n", 1)[1]
        m = re.search(rf"^{re.escape(name)}((?:\s+[^\s=:]+)*)\s*=", rest, re.M)
        args = m.group(1).split()
        extra = rest[: m.start()].strip()
        body = rest[m.end():].strip()
        want = vs + [v for v, ch in zip(vs, changed) if ch]
        if len(args) != len(want):
            notes.append(f"{crate} {folder}: {name} has {len(args)} arguments, not {len(want)}: {want}")
        sub = {}
        for i, a in enumerate(args):
            if i < len(vs):
                sub[a] = f"l.initial.{vs[i]}" if i < len(changed) and changed[i] else f"l.{vs[i]}"
            elif i < len(want):
                sub[a] = f"l.{want[i]}"
        body = re.sub(rf"(?<![\w'.₀-₉-])({NAME})(?![\w'₀-₉-])", lambda m: sub.get(m.group(1), m.group(1)), body)
        out_inv.append((f"{kind}-{new}", body, extra))
    # needs
    for sfx, w in walks.items():
        pre = w.data["pre"]["fields"] if w.data["pre"] else None
        for k, (old, new) in enumerate(w.data["needs"]):
            got = needs.pop((sfx, norm(old)), None)
            if got is None:
                continue
            name, b = got
            if new in w.data["settled"]:
                continue
            cut = re.search(rf"^{re.escape(name)}((?:[ \t]+[^\s=:]+)*)[ \t]*=\s", b, re.M)
            if not cut:
                notes.append(f"{crate} {folder}: cannot read {name}")
                continue
            middle = "\n".join(x for x in b[: cut.start()].split("\n")[1:] if x.strip().startswith("unfolding"))
            body = b[cut.end():].strip()
            if body in TRIVIAL:
                continue
            binders = cut.group(1).split()
            place = w.place_of_need(k)
            if place is None:
                notes.append(f"{crate} {folder}: no place for {new}")
            term = Term(w, place, notes, f"{crate} {folder} {new}", pre, "+" in folder)
            if "c" not in binders:
                cname = [x for x in binders if x not in ("κs", "t")]
                if cname:
                    term.alias.add(cname[0])
            body = term.turn(body)
            fields = w.data["asked"].get(old)
            if fields:
                body = as_record(body, fields)
            bind = [x for x in binders if x != "κs"]
            # in a cycle of several functions each goal has its function's name before it
            out_ans.append((sfx[1:] + "-" + new if len(walks) > 1 else new, middle, " ".join(bind), body))
    for (sfx, old), (name, b) in needs.items():
        notes.append(f"{crate} {folder}: the goal {old} ({name}) is not there now")
    # files
    has_inv = bool(out_inv)
    inv_text = "\n".join(x[1] for x in out_inv)
    pub_helpers = []
    helper_names = {}
    for b in helpers:
        m = re.match(rf"(?:--[^\n]*\n)*(?:pub |abbrev |unfoldable |data |record )*({NAME})", b)
        if m:
            helper_names[m.group(1)] = b
    shared, grown = [], inv_text
    while True:
        more = [b for n, b in helper_names.items() if b not in shared and re.search(rf"(?<![\w'.-]){re.escape(n)}(?![\w'-])", grown)]
        if not more:
            break
        shared += more
        grown += "\n".join(more)
    shared = [b for b in helpers if b in shared]
    if shared:
        notes.append(f"{crate} {folder}: the invariant names helpers of the proof: {[n for n, b in helper_names.items() if b in shared]}")
    title = "\n".join(head)
    home = "Invariants" if has_inv else "Answers"
    for md in mods:
        os.makedirs(os.path.join(base, home), exist_ok=True)
        os.rename(os.path.join(base, "Proof", md + ".antt"), os.path.join(base, home, md + ".antt"))
    if os.path.isdir(os.path.join(base, "Proof")) and not os.listdir(os.path.join(base, "Proof")):
        os.rmdir(os.path.join(base, "Proof"))

    def used(lines, body):
        """Only the imports that the body names."""
        out = []
        for u in lines:
            m = re.match(r"use ([^{]+)\.\{(.*)\}$", u)
            if m:
                items = [x.strip() for x in split_top(m.group(2), ",")]
                keep = []
                for it in items:
                    word = it.split(" as ")[-1].strip()
                    word = word.replace("◌", " ").strip() if "◌" in word else word
                    pieces = [p for p in word.split() if p]
                    if all(p in body for p in pieces):
                        keep.append(it)
                if keep:
                    out.append(f"use {m.group(1)}.{{{', '.join(keep)}}}")
            else:
                m = re.match(r"use (.+) as ([\w-]+)$", u)
                word = m.group(2) if m else u.split(".")[-1]
                if re.search(rf"(?<![\w'.-]){re.escape(word)}\.", body):
                    out.append(u)
        return out

    if has_inv:
        body = "\n\n".join(
            f"abbrev pub {n} : goal.{n}\n" + (f"{extra}\n" if extra and extra != "measure" else "") + f"{n} l = {b}" for n, b, extra in out_inv
        )
        if shared:
            body = "\n\n".join(public(b) for b in shared) + "\n\n" + body
        us = used([u if not any(u.startswith(f"use {md}.") for md in mods) else u for u in kept], body)
        with open(os.path.join(base, "Invariants.antt"), "w", encoding="utf-8") as f:
            f.write(title + "\n" + "".join(f"pub mod {md}\n" for md in mods) + "\n".join(us + [f"use {module}.Given as goal"]) + "\n\n" + body + "\n")
    rest = [b for b in helpers if b not in shared]
    if out_ans or rest:
        body = "\n\n".join(rest + [
            f"pub {n} : goal.{n}\n" + (mid + "\n" if mid else "") + f"{n} {bind} = {b}" for n, mid, bind, b in out_ans
        ])
        us = kept
        if has_inv:
            us = [re.sub(rf"^use ({'|'.join(mods)})\.", lambda m: f"use {module}.Invariants.{m.group(1)}.", u) if mods else u for u in us]
        us = used(us, body)
        if shared:
            us.append(f"use {module}.Invariants.{{{', '.join(n for n, b in helper_names.items() if b in shared)}}}")
        mod_lines = "" if has_inv else "".join(f"mod {md}\n" for md in mods)
        with open(os.path.join(base, "Answers.antt"), "w", encoding="utf-8") as f:
            f.write(title + "\n" + mod_lines + "\n".join(us + [f"use {module}.Goals as goal"]) + "\n\n" + body + "\n")
    os.remove(os.path.join(base, "Proof.antt"))


def main():
    out, crates = sys.argv[1], sys.argv[2:]
    notes = []
    for crate in crates:
        with open(os.path.join(out, "crates", crate, "names.json"), encoding="utf-8") as f:
            names = json.load(f)
        names = {k: v for k, v in names.items() if isinstance(v, dict) and "needs" in v}
        top = os.path.join("crates", crate, "proofs")
        for folder, dirs, files in sorted(os.walk(top)):
            if "Proof.antt" in files:
                turn(crate, os.path.relpath(folder, top), names, notes)
    print("\n".join(notes))


main()
