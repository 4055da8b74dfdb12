#!/usr/bin/env python3
"""narrow.py [--check] FILE..: breaks lines of more than 160 characters in .antt and .rt files; --check only lists them.

A signature is broken behind an arrow, a comment between words, a list of imports into two lines, anything else at the space
that stands least deep in brackets. Run `rt fmt` and the prover afterwards: the text must mean what it meant."""
import re
import sys

LIMIT = 160
AIM = 150
CLOSED, OPEN = ")}]⌝", "({[⌜"


def depths(text):
    """The depth in brackets at each place."""
    depth, out = 0, []
    for char in text:
        depth -= char in CLOSED
        out.append(depth)
        depth += char in OPEN
    return out


def best_break(text, indent):
    """The space to break at: least deep, and late; behind an arrow, a comma or a composition where there is one."""
    at = depths(text)
    found = []
    for place in range(indent + 30, min(AIM, len(text) - 1)):
        if text[place] != " ":
            continue
        before = text[:place]
        good = before.endswith(("→", "∙", ",", " in", "×"))
        found.append((at[place] - (2 if good else 0), -place))
    return -min(found)[1] if found else None


def wrapped(line):
    out, text = [], line
    indent = len(line) - len(line.lstrip())
    more = " " * (indent + 4)
    while len(text) > LIMIT:
        place = best_break(text, len(text) - len(text.lstrip()))
        if place is None:
            break
        out.append(text[:place].rstrip())
        text = more + text[place + 1:]
    return out + [text]


def comment(line, sign):
    indent = line[:len(line) - len(line.lstrip())]
    words, out = line.strip()[len(sign):].split(), [indent + sign]
    for word in words:
        if len(out[-1]) + len(word) + 1 > AIM:
            out.append(indent + sign)
        out[-1] += " " + word
    return out


def imports(line):
    head, names = re.match(r"(.*?\.\{)(.*)\}(;?)$", line.rstrip()).group(1, 2)
    end = "};" if line.rstrip().endswith(";") else "}"
    out = []
    for name in names.split(", "):
        if not out or len(out[-1]) + len(name) + 4 > LIMIT:
            out.append(head + name)
        else:
            out[-1] += ", " + name
    return [part + end for part in out]


def narrowed(line):
    text = line.lstrip()
    for sign in ("--", "//"):
        if text.startswith(sign + " "):
            return comment(line, sign)
    if re.match(r"(pub |ghost )*use .*\.\{", text):
        return imports(line)
    found = re.match(r"(\s*(?:\S+ )*?\S+ =) (.*)$", line)
    if found and depths(line)[len(found.group(1))] == 0 and " : " not in found.group(1) and not text.startswith("let "):
        indent = len(line) - len(text)
        return [found.group(1)] + wrapped(" " * (indent + 4) + found.group(2))
    return wrapped(line)


def main():
    check, wide = "--check" in sys.argv[1:], 0
    for path in [word for word in sys.argv[1:] if word != "--check"]:
        with open(path, encoding="utf-8") as file:
            lines = file.read().split("\n")
        long = [number for number, line in enumerate(lines, 1) if len(line) > LIMIT]
        if check:
            wide += len(long)
            for number in long:
                print(f"{path}:{number}: {len(lines[number - 1])} characters")
        elif long:
            out = [part for line in lines for part in (narrowed(line) if len(line) > LIMIT else [line])]
            with open(path, "w", encoding="utf-8") as file:
                file.write("\n".join(out))
    return 1 if wide else 0


if __name__ == "__main__":
    sys.exit(main())
