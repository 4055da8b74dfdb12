#!/usr/bin/env python3
"""Gives this repository's own definitions and lemmas the spelling of today's Rattle: snake case, capitals for facts and types.

usage: tools/respell.py [--say]     at the top of the repository, once, right after the kit's port.py

It knows a name by its declaration in specs/ or proofs/ (a signature, a field of a record, a module) and turns it wherever it stands as a
whole word: in .antt and .rt files, in must-fail edits, and between backticks in pages. Functions of src/, exports, strings and values keep
their names. A dash becomes an underscore, but stays beside a part with a capital, which names a fact or a type (`R-mono`). Where two names
would fall together, or a definition would take the name of a parameter, field or constant of src/, MENDED says what it is called.
"""
import os
import re
import sys

# Names that would fall together with another one, or with a parameter or a field of src/.
MENDED = {
    name: name.replace("-", "_") + "_lem"
    for name in (
        "best-after block-of cached-score column-of direct-seed disk-answer disk-answered disk-inputs disk-length disk-line disk-places disk-text "
        "estimate-by near-at near-delta ring-length ring-line ring-looked ring-text root-units table-looked too-low"
    ).split()
}

# Bound variables of specs/, or names that src/ has only in a comment.
HARMLESS = {"centeredVar", "qCentered", "qMean", "bestDiskFit", "gradAngles", "gradWeights", "valEnergy", "valsCentered", "fitOf"}

WORD = r"[^\s(){}\[\]:;,.\"`⊕⊖⊗⊘]+"
DECLARED = re.compile(r"^\s*(?:(?:pub|abbrev|unfoldable|record|data|module)\s+)*(" + WORD + r")\s*(?:\([^)]*\)\s*|\{[^}]*\}\s*)*:(?:\s|$)")


def files(top, *ends):
    for folder, dirs, names in os.walk(top):
        dirs[:] = sorted(d for d in dirs if d not in ("out", "target", ".git"))
        for n in sorted(names):
            if n.endswith(ends):
                yield os.path.join(folder, n)


def read(path):
    with open(path, encoding="utf-8") as f:
        return f.read()


def declared():
    """Every name that specs/ and proofs/ declare; names of goals, which the prover gives, are left out."""
    found = set()
    for p in files("crates", ".antt"):
        for line in read(p).splitlines():
            m = DECLARED.match(line)
            if m and "tie." not in line and not line.lstrip().startswith("--"):
                found.add(m.group(1))
    return found


def bound():
    """Variables of specs/ and proofs/ in camel case, so that a definition reads alike in all its names."""
    found = set()
    for p in files("crates", ".antt"):
        for line in read(p).splitlines():
            if not line.lstrip().startswith("--"):
                found |= set(re.findall(r"(?<![\w'-])[a-z][a-z0-9₀-₉]*[A-Z][A-Za-z0-9]*(?![\w'-])", line))
    return found


def spoken(part):
    """A part without dashes: camel case to snake case, unless it begins with a capital."""
    if part[:1].isupper():
        return part
    return re.sub(r"(?<=[a-z0-9₀-₉])([A-Z])", lambda m: "_" + m.group(1).lower(), part)


def spelled(name):
    if name in MENDED:
        return MENDED[name]
    parts = [spoken(p) for p in name.split("-")]
    out = parts[0]
    for a, b in zip(parts, parts[1:]):
        out += ("-" if a[:1].isupper() or b[:1].isupper() else "_") + b
    return out


def taken():
    """Names in src/ that a clause could take a definition for: parameters, fields, locals of a contract, constants."""
    found = set()
    for p in files("crates", ".rt"):
        found |= set(re.findall(r"\b([a-z_][a-z0-9_]*)\s*:(?!:)", read(p)))
    return found


def turned(text, table, pattern):
    return pattern.sub(lambda m: table[m.group(0)], text)


def main():
    names = declared() | bound()
    table = {n: spelled(n) for n in names if spelled(n) != n}
    back = {}
    for n, to in table.items():
        back.setdefault(to, []).append(n)
    bad = 0
    params = taken()
    for to, olds in sorted(back.items()):
        if len(olds) > 1 or (to in names and to not in table and not set(olds) <= HARMLESS):
            print(f"falls together: {', '.join(sorted(olds))} -> {to}{' (which is there)' if to in names else ''}")
            bad += 1
        elif to in params and not set(olds) <= HARMLESS and olds[0] in declared():
            print(f"is a parameter or field: {olds[0]} -> {to}")
            bad += 1
    if "--say" in sys.argv:
        for n in sorted(table):
            print(n, table[n])
    if bad:
        print(f"{bad} names to mend: nothing was changed")
        return 1
    if "--say" in sys.argv:
        return 0
    edge = r"[^\s(){}\[\]:;,.\"`⊕⊖⊗⊘]"
    word = re.compile(r"(?<!" + edge + r")(?<!tie\.)(?:" + "|".join(re.escape(n) for n in sorted(table, key=len, reverse=True)) + r")(?!" + edge + r")")
    inside = re.compile(r"`[^`\n]*`")
    for p in files(".", ".antt", ".rt", ".edit", ".md"):
        text = read(p)
        if p.endswith(".md"):
            new = inside.sub(lambda m: turned(m.group(0), table, word), text)
        else:
            lines = []
            for line in text.split("\n"):
                if line.lstrip().startswith(("--", "//")):
                    lines.append(inside.sub(lambda m: turned(m.group(0), table, word), line))
                else:
                    lines.append(turned(line, table, word))
            new = "\n".join(lines)
        if new != text:
            with open(p, "w", encoding="utf-8") as f:
                f.write(new)
    print(f"{len(table)} names turned")
    return 0


if __name__ == "__main__":
    sys.exit(main())
