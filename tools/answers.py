#!/usr/bin/env python3
"""Turns the proofs of an older Rattle, one walk by hand a function, into today's two files: Invariants.antt and Answers.antt.

usage: tools/answers.py CRATE NAMES [FUNCTION ..]     at the top of the repository

NAMES is the file names.json that `rt check --generated FOLDER --old-names` writes in the crate's folder: the old and the new name of each goal,
step and loop. In a Proof.antt each declaration of a goal (`tie.Need-..`) becomes an answer, each invariant and measure goes by the record of the
loop's variables, and paths lose their `.before`, since every step is a field of `c` now. The old file is kept as Proof.antt.old until it is
removed by hand. What it can't turn it leaves as it stands: the check decides.
"""
import json
import os
import re
import sys

EDGE = r"[^\s(){}\[\]:;,.\"`⊕⊖⊗⊘]"


def plain(name):
    return name.replace("_", "-")


def blocks(text):
    """The header comment, the use lines, and the declarations with their comments."""
    lines = text.split("\n")
    at = 0
    header = []
    while at < len(lines) and lines[at].startswith("--"):
        header.append(lines[at])
        at += 1
    uses, rest, cur = [], [], []
    while at < len(lines):
        line = lines[at]
        if line.startswith("use "):
            uses.append(line)
        elif not line.strip():
            if cur:
                rest.append(cur)
                cur = []
        else:
            cur.append(line)
        at += 1
    if cur:
        rest.append(cur)
    joined = []
    for b in rest:
        head = next((x for x in b if not x.startswith("--")), None)
        if joined and (head is None or head[0] in " \t" or all(x.startswith("--") for x in joined[-1])):
            joined[-1] = joined[-1] + ([] if all(x.startswith("--") for x in joined[-1]) else [""]) + b
        else:
            joined.append(b)
    return header, uses, joined


def split_uses(uses):
    out = []
    for u in uses:
        m = re.match(r"use (\S+?)\.\{(.*)\}\s*$", u)
        if m:
            out.append((m.group(1), [x.strip() for x in m.group(2).split(",")], u))
        else:
            out.append((None, None, u))
    return out


def used_lines(uses, text):
    words = set(re.findall(EDGE + r"+", text))
    out = []
    for path, names, line in split_uses(uses):
        if ".Statement" in line or ".Tie as" in line or ".Lts" in line:
            continue
        if path is None:
            m = re.search(r" as (\S+)$", line)
            name = m.group(1) if m else line.split(".")[-1]
            if name in words:
                out.append(line)
            continue
        keep = []
        for n in names:
            short = n.split(" as ")[-1].strip()
            bare = short.replace("◌", "")
            if "◌" in short:
                parts = [p for p in short.split("◌") if p]
                if all(p in text for p in parts):
                    keep.append(n)
            elif short in words or bare in words or short == "[]" and "[]" in text:
                keep.append(n)
        if keep:
            out.append(f"use {path}.{{{', '.join(keep)}}}")
    return out


def substituted(body, table):
    """Puts the table's terms for its names, but not where a λ or a binder has the name again, nor behind a dot."""
    tokens = re.findall(EDGE + r"+|\s+|.", body)
    out = []
    stack = [set()]
    i = 0
    while i < len(tokens):
        t = tokens[i]
        if t in "([{":
            names = set()
            j = i + 1
            got = []
            while j < len(tokens) and (tokens[j].isspace() or re.fullmatch(EDGE + r"+", tokens[j])) and tokens[j] != ":":
                if not tokens[j].isspace():
                    got.append(tokens[j])
                j += 1
            if t == "(" and j < len(tokens) and tokens[j] == ":" and got:
                depth, k = 0, i
                while k < len(tokens):
                    if tokens[k] in "([{":
                        depth += 1
                    elif tokens[k] in ")]}":
                        depth -= 1
                        if depth == 0:
                            break
                    k += 1
                after = "".join(tokens[k + 1:k + 4]).strip()
                if after.startswith(("→", "×", "(")) or (out and "λ" in "".join(out[-3:])):
                    names = set(got)
            if names:
                stack[-1] = stack[-1] | names
            stack.append(set(stack[-1]))
            out.append(t)
        elif t in ")]}":
            if len(stack) > 1:
                stack.pop()
            out.append(t)
        elif t.startswith("λ"):
            out.append(t)
            j = i + 1
            names = set()
            while j < len(tokens) and tokens[j] != ".":
                if tokens[j] == "(":
                    break
                if re.fullmatch(EDGE + r"+", tokens[j]):
                    names.add(tokens[j])
                j += 1
            if j < len(tokens) and tokens[j] == ".":
                stack[-1] = stack[-1] | names
                out.extend(tokens[i + 1:j + 1])
                i = j
        elif t in table and t not in stack[-1] and (not out or out[-1] != "."):
            before = "".join(out).rstrip()[-1:]
            after = "".join(tokens[i + 1:i + 3]).lstrip()[:1]
            field = before in ("{", ";") and after == "="
            out.append(t if field else table[t])
        else:
            out.append(t)
        i += 1
    return "".join(out)


def wrapped(text):
    """An invariant with a line that is too long, broken at its outermost ×."""
    if all(len(line) < 160 for line in text.split("\n")):
        return text
    head, _, term = text.partition(" = ")
    term = " ".join(x.strip() for x in term.split("\n"))
    parts, depth, start = [], 0, 0
    for i, ch in enumerate(term):
        if ch in "([{":
            depth += 1
        elif ch in ")]}":
            depth -= 1
        elif ch == "×" and depth == 0:
            parts.append(term[start:i].strip())
            start = i + 1
    parts.append(term[start:].strip())
    lines = ["    " + parts[0]]
    for part in parts[1:]:
        if len(lines[-1]) + len(part) + 3 < 140:
            lines[-1] += " × " + part
        else:
            lines.append("    × " + part)
    return head + " =\n" + "\n".join(lines)


class Function:
    def __init__(self, names, params):
        self.params = params
        self.needs = {}
        for old, new in names["needs"]:
            self.needs[plain(old)] = new
        for old, new in names["needs"]:
            self.needs.setdefault(plain(new), new)
            m = re.match(r"(?:overflow|slice_bounds|bounds|offset_bounds|nonzero)_?-?(.*)", new)
        self.loops = {old: (new, vs, ch) for ((old, new), vs), ch in zip(names["loops"], names["changed"])}
        self.fields = {}
        self.callees = {}
        for place, parent, (old, new), callee, extra in names["places"]:
            if callee:
                self.callees[new] = callee.split("::")
            if old:
                self.fields.setdefault(plain(old), [])
                if new not in self.fields[plain(old)]:
                    self.fields[plain(old)].append(new)
        self.arms = {}
        for arm in names["arms"]:
            if arm:
                for member, old, path in arm[2]:
                    self.arms[(plain(old), tuple(path))] = (arm[0], member)
        self.pre = (names["pre"] or {}).get("fields")
        self.asked = {}
        for old, clauses in names["asked"].items():
            self.asked[self.need(old) or old] = clauses

    def need(self, old):
        old = plain(old)
        for form in (old, re.sub(r"^overflow-", "", old), re.sub(r"^(overflow|bounds|offset-bounds|slice-bounds|nonzero)-", "", old)):
            if form in self.needs:
                return self.needs[form]
        return None

    def clauses(self, goal, text):
        """A tuple at the end of an answer of several clauses becomes a record of them."""
        named = self.asked.get(goal)
        if not named or not text.rstrip().endswith(")"):
            return text
        text = text.rstrip()
        depth, at = 0, len(text) - 1
        while at >= 0:
            if text[at] in ")]}":
                depth += 1
            elif text[at] in "([{":
                depth -= 1
                if depth == 0:
                    break
            at -= 1
        before = text[:at].rstrip()
        if not (before.endswith("=") or before.endswith(" in") or before.endswith("\nin")):
            return text
        inner, parts, depth, start = text[at + 1:-1], [], 0, 0
        for i, ch in enumerate(inner):
            if ch in "([{":
                depth += 1
            elif ch in ")]}":
                depth -= 1
            elif ch == "," and depth == 0:
                parts.append(inner[start:i].strip())
                start = i + 1
        parts.append(inner[start:].strip())
        if len(parts) != len(named):
            return text
        return text[:at] + "record { " + "; ".join(f"{n} = {p}" for n, p in zip(named, parts)) + " }"

    def path(self, m):
        """A path behind c, its parts renamed."""
        parts = [p for p in m.group(2).split(".") if p and p != "before"]
        if not parts:
            return m.group(1)
        if parts[0] == "well-formed":
            parts[0] = "well_formed"
        if parts[0].endswith("_lem") and plain(parts[0]) not in self.fields:
            parts[0] = parts[0][:-len("_lem")]
        first = plain(parts[0])
        if parts[0] == "args":
            if len(parts) > 1:
                parts[1] = parts[1].replace("-", "_")
                # An array passed by value went by its place, t1 for the first.
                place = re.fullmatch(r"t([0-9]+)", parts[1])
                if place and parts[1] not in self.params and 0 < int(place.group(1)) <= len(self.params):
                    parts[1] = self.params[int(place.group(1)) - 1]
            return ".".join([m.group(1)] + parts)
        if parts[0] in ("requires", "pre"):
            parts[0] = "requires"
            if self.pre and len(parts) > 1 and parts[1].isdigit() and int(parts[1]) < len(self.pre):
                parts[1] = self.pre[int(parts[1])]
            return ".".join([m.group(1)] + parts)
        for n in (3, 2, 1):
            key = (first, tuple(parts[1:1 + n]))
            if len(parts) > n and key in self.arms:
                arm, member = self.arms[key]
                return ".".join([m.group(1), arm, member] + parts[1 + n:])
        if first in self.fields:
            new = self.fields[first]
            parts[0] = new[0] if len(new) == 1 else next((x for x in new if x == parts[0]), new[0])
            callee = self.callees.get(parts[0])
            if callee and len(parts) > 2 and parts[1] == "ensures" and parts[2].isdigit():
                named = NAMED.get((callee[0], callee[-1], "ensures"), [])
                if int(parts[2]) < len(named):
                    parts[2] = named[int(parts[2])]
        return ".".join([m.group(1)] + parts)

    def body(self, text):
        alias = {"c"}
        while True:
            m = re.search(r"(?<!" + EDGE + r")let (" + EDGE + r"+) = (" + "|".join(re.escape(a) for a in alias) + r")((?:\.before)*) in\s*", text)
            if not m:
                break
            name = m.group(1)
            text = text[:m.start()] + text[m.end():]
            text = re.sub(r"(?<!" + EDGE + r")(?<!\.)" + re.escape(name) + r"(?!" + EDGE + r"|\s*=\s)", "c", text)
        for m in re.finditer(r"let (" + EDGE + r"+) = c(?:\.before)*\.args in\b", text):
            text = re.sub(r"(?<!" + EDGE + r")(?<!\.)(" + re.escape(m.group(1)) + r"\.)(" + EDGE + r"*-" + EDGE + r"*)",
                          lambda x: x.group(1) + x.group(2).replace("-", "_"), text)
            text = re.sub(r"(?<!" + EDGE + r")(?<!\.)" + re.escape(m.group(1)) + r"\.t(?=[0-9])", "c.args.t", text)
            own = r"(?<!" + EDGE + r")(?<!\.)" + re.escape(m.group(1)) + r"\.[a-z0-9]+(?:-[a-z0-9]+)+"
            text = re.sub(own, lambda x: x.group(0).replace("-", "_"), text)
        text = re.sub(r"(?<!" + EDGE + r")(?<!\.)(c)((?:\." + EDGE + r"+)+)", self.path, text)
        return re.sub(r"(?<!" + EDGE + r")not-(?:true|false) (?:\([^()]*\)|[^\s()]+) (c\.if-not-" + EDGE + r"+\.(?:true|false))", r"\1", text)


def named_clauses():
    """The names of the `ensures` and `requires` of each function that has such, by crate and function."""
    out = {}
    for folder in sorted(os.listdir("crates")):
        src = os.path.join("crates", folder, "src")
        for file in sorted(os.listdir(src)) if os.path.isdir(src) else []:
            if not file.endswith(".rt"):
                continue
            fn = None
            with open(os.path.join(src, file), encoding="utf-8") as f:
                for line in f:
                    m = re.match(r"\s*(?:pub )?fn (\w+)", line)
                    if m:
                        fn = m.group(1)
                    m = re.match(r"\s*(ensures|requires) (\w+) \{", line)
                    if m and fn:
                        out.setdefault((folder, fn, m.group(1)), []).append(m.group(2))
    return out


NAMED = named_clauses()


def fresh(body):
    words = set(re.findall(EDGE + r"+", body))
    return next(n for n in ("l", "v", "z", "here", "turn") if n not in words)


def turn(crate, name, names, params):
    folder = os.path.join("crates", crate, "proofs", *name.split("."))
    path = os.path.join(folder, "Proof.antt")
    with open(path, encoding="utf-8") as f:
        text = f.read()
    fn = Function(names, params)
    header, uses, decls = blocks(text)
    inv, ans, left = [], [], []
    for b in decls:
        notes = [x for x in b if x.startswith("--")]
        code = [x for x in b if not x.startswith("--")]
        if not code:
            ans.append("\n".join(b))
            continue
        sig = code[0]
        m = re.match(r"(?:abbrev )?(?:pub )?(" + EDGE + r"+) : tie\.(invariant|decreases|ghost)-(" + EDGE + r"+)", sig)
        if m:
            old, kind, loop = m.group(1), m.group(2), m.group(3)
            if loop not in fn.loops:
                left.append(f"{kind} {loop}")
                continue
            new, vs, ch = fn.loops[loop]
            body = "\n".join(code[1:])
            body = re.sub(r"^unfolding .*\n", "", body)
            eq = re.match(re.escape(old) + r"\s+(.*?)=\s?(.*)", body, re.S)
            params = eq.group(1).split()
            term = eq.group(2)
            v = fresh(term)
            terms = [f"{v}.initial.{x}" if c else f"{v}.{x}" for x, c in zip(vs, ch)] + [f"{v}.{x}" for x, c in zip(vs, ch) if c]
            table = {p: t for p, t in zip(params, terms) if p != "_"}
            if len(params) != len(terms):
                left.append(f"{kind} {loop}: {len(params)} parameters, {len(terms)} variables")
            inv.append("\n".join(notes + [f"abbrev pub {kind}-{new} : goal.{kind}-{new}", wrapped(f"{kind}-{new} {v} = {substituted(term, table).strip()}")]))
            continue
        m = re.match(r"(?:pub )?(" + EDGE + r"+) : tie\.Need-(" + EDGE + r"+)", sig)
        if m:
            old = m.group(1)
            new = fn.need(m.group(2))
            if new is None:
                left.append(f"goal {m.group(2)}")
                new = m.group(2)
            body = "\n".join(code[1:])
            body = re.sub(r"(?m)^" + re.escape(old) + r" c κs\b", new + " c", body)
            body = re.sub(r"(?m)^" + re.escape(old) + r"(?!" + EDGE + r")", new, body)
            ans.append("\n".join(notes + [f"pub {new} : goal.{new}", fn.clauses(new, fn.body(body))]))
            continue
        if re.match(r"pub \S+[-_]spec\b", sig):
            continue
        ans.append("\n".join(b))
    module = "Rattle." + crate + ".proofs." + name
    for file, parts, at in (("Invariants.antt", inv, "Given"), ("Answers.antt", ans, "Goals")):
        if not parts:
            continue
        text = "\n\n".join(parts)
        lines = used_lines(uses, text) + [f"use {module}.{at} as goal"]
        with open(os.path.join(folder, file), "w", encoding="utf-8") as f:
            f.write("\n".join(header + lines) + "\n\n" + text + "\n")
    os.rename(path, path + ".old")
    return left


def main():
    crate, names = sys.argv[1], json.load(open(sys.argv[2], encoding="utf-8"))
    only = sys.argv[3:]
    for key, value in names.items():
        m = re.fullmatch(r"Rattle-" + re.escape(crate) + r"-proofs\.(.+)\.Lts", key)
        if not m:
            continue
        name = m.group(1)
        if only and name not in only:
            continue
        if os.path.exists(os.path.join("crates", crate, "proofs", *name.split("."), "Proof.antt")):
            own = f"{crate}::{name.replace('.', '::')}"
            params = next((v["params"][own] for v in names.values() if isinstance(v, dict) and own in v.get("params", {})), [])
            left = turn(crate, name, value, params)
            print(name + (": left " + "; ".join(left) if left else ""))


if __name__ == "__main__":
    main()
