#!/usr/bin/env python3
"""Where the constants of the five functions come from: works each out again and looks for it in crates/elementary/specs/Elementary.antt.

A coefficient belongs to the polynomial of its degree with the least greatest error, weighted, on the interval that the
argument's reduction leaves (exchange algorithm of Remez), and is then rounded to an f32. The eight of atan were afterwards
moved in their last digits by a search over the f32 steps themselves, so that atan2 of two equal numbers is the f32 next to
PI/4; they are held to within 32 last digits. PI/2 and ln 2 are cut into parts whose products with small whole numbers are exact.

Needs the Python library mpmath; two seconds. Status 0: every constant stands there. 1: one does not.
"""
import pathlib
import re
import struct
import sys

try:
    from mpmath import atan, cos, coth, exp, floor, log, lu_solve, matrix, mp, mpf, pi, sin, sqrt
except ImportError:
    sys.exit("tools/coefficients.py: the Python library mpmath is missing")

mp.dps = 50
TEXT = (pathlib.Path(__file__).resolve().parent.parent / "crates/elementary/specs/Elementary.antt").read_text()
STANDING = {int(digits.replace("_", ""), 16) for digits in re.findall(r"\b0x([0-9a-f]{4}_[0-9a-f]{4})\b", TEXT)}
TINY = mpf("1e-12")


def value(polynomial, x):
    total = mpf(0)
    for coefficient in reversed(polynomial):
        total = total * x + coefficient
    return total


def levelled(function, weight, nodes, degree):
    """The polynomial whose weighted errors at the nodes have one size and alternating signs."""
    size = degree + 2
    left, right = matrix(size, size), matrix(size, 1)
    for row, x in enumerate(nodes):
        for column in range(degree + 1):
            left[row, column] = x ** column
        left[row, size - 1] = (-1) ** (row + 1) * weight(x)
        right[row] = function(x)
    solved = lu_solve(left, right)
    return [solved[k] for k in range(degree + 1)], abs(solved[size - 1])


def peaks(errors):
    """The place of the greatest error of each run of one sign."""
    runs = [[0]]
    for place in range(1, len(errors)):
        if (errors[place] > 0) == (errors[place - 1] > 0):
            runs[-1].append(place)
        else:
            runs.append([place])
    return [max(run, key=lambda place: abs(errors[place])) for run in runs]


def remez(function, weight, low, high, degree, grid=1500):
    """The polynomial of that degree with the least greatest |p - function| / weight on low .. high."""
    low, high, size = mpf(low), mpf(high), degree + 2
    points = [(low + high) / 2 - (high - low) / 2 * cos(pi * k / grid) for k in range(grid + 1)]
    wanted = [(function(x), weight(x)) for x in points]
    nodes = [points[round(grid * k / (size - 1))] for k in range(size)]
    best = None
    for _ in range(40):
        polynomial, level = levelled(function, weight, nodes, degree)
        errors = [(value(polynomial, x) - f) / w for x, (f, w) in zip(points, wanted)]
        greatest = max(map(abs, errors))
        if best is None or greatest < best[0]:
            best = (greatest, polynomial)
        tops = peaks(errors)
        if greatest <= level * mpf("1.0005") or len(tops) < size:
            break
        while len(tops) > size:
            tops.pop(0 if abs(errors[tops[0]]) < abs(errors[tops[-1]]) else -1)
        nodes = [points[place] for place in tops]
    return best[1]


def near(x, limit, otherwise):
    """A function of z by its series below a limit, where the quotient would be 0 / 0."""
    return lambda z: x(z) if abs(z) < limit else otherwise(z)


def cut(x, bits):
    """The first bits of x, cut and not rounded: all parts are then above 0, which keeps the sign of sin(-0)."""
    scale = mpf(2) ** (bits - 1 - int(floor(log(x, 2))))
    return floor(x * scale) / scale


def constants():
    """Name, values, how many last digits each may be off."""
    first = cut(pi / 2, 18)
    second = cut(pi / 2 - first, 18)
    yield "2/PI and PI/2 in three parts", [2 / pi, first, second, pi / 2 - first - second], 0
    quarter = (pi / 4 * mpf("1.002")) ** 2
    sine = near(lambda z: mpf(1) / 6 - z / 120, TINY, lambda z: (1 - sin(sqrt(z)) / sqrt(z)) / z)
    yield "sine", remez(sine, lambda z: 1 / max(z, mpf("1e-6")), 0, quarter, 2), 0
    cosine = near(lambda z: mpf(1) / 24 - z / 720, TINY, lambda z: (cos(sqrt(z)) - 1 + z / 2) / z ** 2)
    yield "cosine", remez(cosine, lambda z: 1 / max(z * z, mpf("1e-6")), 0, quarter, 2), 0
    scale = mpf(2) ** 15
    high = floor(log(2) * scale + mpf("0.5")) / scale
    yield "1/ln 2, ln 2 in two parts and its half", [1 / log(2), high, log(2) - high, log(2) / 2], 0
    half = log(mpf(2)) / 2 * mpf("1.002")
    power = near(lambda r: mpf(1) / 2 + r / 6, TINY, lambda r: (exp(r) - 1 - r) / r ** 2)
    yield "exp", remez(power, lambda r: exp(r) / max(r * r, mpf("1e-6")), -half, half, 4), 0
    # r coth r - 1 = r^2 (c1 + c2 r^2), with |r| below 0.2 where the slope of tanh counts
    rest = near(lambda z: mpf(1) / 3 - z / 45, TINY, lambda z: (sqrt(z) * coth(sqrt(z)) - 1) / z)
    yield "tanh", remez(rest, lambda z: 1 / max(z, mpf("1e-6")), 0, mpf("0.2") ** 2, 1), 0
    angle = near(lambda z: -mpf(1) / 3 + z / 5, TINY, lambda z: (atan(sqrt(z)) / sqrt(z) - 1) / z)
    yield "atan", remez(angle, lambda z: 1 / max(z, mpf("1e-6")), 0, 1, 7), 32
    rounded = [mpf(struct.unpack("<f", struct.pack("<f", float(x)))[0]) for x in (pi / 2, pi)]
    yield "what PI/2 and PI lack as f32", [rounded[0] - pi / 2, rounded[1] - pi], 0


def main():
    wrong = 0
    for name, values, slack in constants():
        bits = [struct.unpack("<I", struct.pack("<f", abs(float(x))))[0] for x in values]
        lost = [f"{pattern:08x}" for pattern in bits if not any(abs(pattern - other) <= slack for other in STANDING)]
        wrong += bool(lost)
        print(f"{'WRONG' if lost else 'ok   '}  {name}: {' '.join(f'{pattern:08x}' for pattern in bits)}"
              f"{'; not there: ' + ' '.join(lost) if lost else ''}")
    return 1 if wrong else 0


if __name__ == "__main__":
    sys.exit(main())
