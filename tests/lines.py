#!/usr/bin/env python3
"""Holds the program funclines against Rust's own f32 functions, by function lines.

    lines.py sample    20,000 lines a function
    lines.py all       1,000,000 lines a function

Lines 10 (rem_euclid by PI and TAU), 11 (max), 12 (min), 15 (total order), 16 (to_radians) and 17 (bin) are made from
limit values, crossed with each other, and from random patterns. funclines and tests/lines.rs, built by rustc, answer
them; the first differing answer fails. FUNCLINES names another program than target/bin/funclines. Without rustc there
is nothing to compare with: the script says so and exits 0.
"""
import os
import random
import shutil
import struct
import subprocess
import sys

ROOT = os.path.dirname(os.path.dirname(os.path.abspath(__file__)))
WORK = os.path.join(ROOT, "target", "tests", "lines")
SIGN = 0x80000000
PI, TAU = 0x40490FDB, 0x40C90FDB
NAMES = {10: "rem_euclid", 11: "max", 12: "min", 15: "total order", 16: "to_radians", 17: "bin"}
PAIRS = (11, 12, 15)


def pattern(value):
    return struct.unpack("<I", struct.pack("<f", value))[0]


def number(bits):
    return struct.unpack("<f", struct.pack("<I", bits))[0]


def both_signs(patterns):
    return [p ^ s for p in patterns for s in (0, SIGN)]


def around(patterns, reach):
    """Neighbours too: a limit is where an answer turns."""
    return sorted({p + k for p in patterns for k in range(-reach, reach + 1) if p + k >= 0})


# Zeros, subnormals, powers of two, where floats become whole numbers, where casts saturate, infinity, NaNs.
PLAIN = [0, 1, 2, 0x7FFFFF, 0x800000, 0x800001, 0x33800000, 0x3F000000, 0x3F7FFFFF, 0x3F800000, 0x3F800001, 0x40000000,
         0x3F490FDB, 0x3FC90FDB, PI, TAU, 0x43340000, 0x43B40000, 0x4B000000, 0x4B800000, 0x5F000000, 0x5F800000,
         0x7F7FFFFF, 0x7F800000, 0x7F800001, 0x7FBFFFFF, 0x7FC00000, 0x7FFFFFFF]


def turns(unit, count):
    """Patterns around the multiples of unit: where a remainder or a bin turns over."""
    return around([pattern(unit * k) for k in range(1, count)], 3)


def limits(function):
    tiny = [e << 23 for e in range(0, 255, 8)]    # a small negative number plus the divisor rounds to the divisor
    if function == 10:
        return both_signs(sorted(set(around(PLAIN, 1) + tiny + turns(number(PI), 200))))
    if function == 17:
        return both_signs(sorted(set(around(PLAIN, 1) + tiny + turns(number(PI) / 72, 300))))
    return both_signs(PLAIN)


def random_pattern():
    """Any bits; or a number of the size that angles have; or a pattern next to a limit."""
    kind = random.random()
    if kind < 0.5:
        return random.getrandbits(32)
    if kind < 0.9:
        return pattern(random.uniform(-20.0, 20.0))
    return (random.choice(PLAIN) + random.randint(-50, 50)) % SIGN ^ random.choice((0, SIGN))


def random_partner(x):
    """Mostly another pattern; else the same one, its neighbour or its negative, which order and max must tell apart."""
    kind = random.random()
    if kind < 0.7:
        return random_pattern()
    return (x, x ^ 1, x ^ SIGN)[int(kind * 1000) % 3]


def line(function, *words):
    return "%02d" % function + "".join("%08x" % w for w in words)


def limit_lines(function):
    points = limits(function)
    if function in PAIRS:
        return [line(function, a, b) for a in points for b in points]
    if function == 10:
        return [line(10, x, d) for x in points for d in (PI, TAU)]
    return [line(function, x) for x in points]


def random_line(function):
    x = random_pattern()
    if function in PAIRS:
        return line(function, x, random_partner(x))
    if function == 10:
        return line(10, x, random.choice((PI, TAU)))
    return line(function, x)


def lines_of(function, count):
    chosen = limit_lines(function)
    return chosen + [random_line(function) for _ in range(count - len(chosen))]


def answers(program, path):
    with open(path, "rb") as source:
        done = subprocess.run(program, stdin=source, stdout=subprocess.PIPE)
    if done.returncode != 0:
        sys.exit("FAIL: %s ended with status %d on %s" % (" ".join(program), done.returncode, path))
    return done.stdout.decode("ascii", "replace").splitlines()


def compare(function, count, ours, rust):
    lines = lines_of(function, count)
    path = os.path.join(WORK, "%02d.txt" % function)
    with open(path, "w") as out:
        out.write("\n".join(lines) + "\n")
    got, want = answers(ours, path), answers([rust], path)
    if not len(got) == len(want) == len(lines):
        sys.exit("FAIL: %d lines of %s, %d answers, %d from Rust" % (len(lines), NAMES[function], len(got), len(want)))
    for asked, a, b in zip(lines, got, want):
        if a != b:
            sys.exit("FAIL: %s, line %s: funclines answers %s, Rust %s" % (NAMES[function], asked, a, b))
    return len(lines)


def build_rust(rustc):
    program = os.path.join(ROOT, "target", "tests", "lines_rs")
    subprocess.run([rustc, "--edition", "2021", "-O", "-o", program, os.path.join(ROOT, "tests", "lines.rs")], check=True)
    return program


def main():
    if sys.argv[1:] not in (["all"], ["sample"]):
        sys.exit("usage: lines.py all|sample")
    rustc = shutil.which("rustc")
    if rustc is None:
        print("NOT RUN: lines: no rustc to build the Rust side")
        return
    given = os.environ.get("FUNCLINES")
    ours = [os.path.join(ROOT, given)] if given else [os.path.join(ROOT, "tools/program"), "funclines"]
    if not os.access(ours[0], os.X_OK):
        sys.exit("FAIL: there is no program %s to ask" % ours[0])
    os.makedirs(WORK, exist_ok=True)
    random.seed(20240607)                         # fixed, so that a failure can be run again
    rust = build_rust(rustc)
    count = 1000000 if sys.argv[1] == "all" else 20000
    total = sum(compare(function, count, ours, rust) for function in NAMES)
    print("%d lines of %d functions (rem_euclid, max, min, order, to_radians, bin), 0 differ from Rust" % (total, len(NAMES)))


if __name__ == "__main__":
    main()
