"""The ring fit a second time, over any number of points: docs/RULES.md, Ring, with the Rust's order of operations.

oracle/check holds the oracle to it. For 16 points it must answer as the Rust text does, and so its word counts for 24, for
which there is no Rust; and with stored tables of seed models, for which the Rust has one fixed ring, as the text does with the
first table that the angles fit.

Each operator is one `f32` operation: a double's result, rounded once. What has no number of points in it is asked by function
lines: sine, cosine, tanh, atan2, square root, radians, elimination (40), errors (41), the degenerate fit (42), canonical axes
(43), allowed pairs (51), suspicion (61). So the functions here are generators, which yield lines and are sent the answers;
`side_by_side` runs many of them, and asks for a step of all of them at once. Values that overflow are not provided for.
"""
import math
import struct

QUARTER_PI = 0x3F490FDB
STEPS, STEP_DEGREES, SLOPE = 23, 8.0, 4.0


def rounded(x):
    return struct.unpack(">f", struct.pack(">f", x))[0]


def word(x):
    return struct.pack(">f", x).hex()


def value(text):
    return struct.unpack(">f", bytes.fromhex(text))[0]


SMALL, FAINT, MARGIN = rounded(1e-4), rounded(1e-6), rounded(1e-3)


def summed(terms):
    total = 0.0
    for term in terms:
        total = rounded(total + term)
    return total


def product(first, *factors):
    for factor in factors:
        first = rounded(first * factor)
    return first


def called(number, *columns):
    """A function of one value or two, at many places."""
    answers = yield [number + "".join(map(word, row)) for row in zip(*columns)]
    return [value(answer) for answer in answers]


def asked(line):
    [answer] = yield [line]
    return answer


def sine_and_cosine(angles):
    sines = yield from called("20", angles)
    cosines = yield from called("21", angles)
    return list(zip(sines, cosines))


def harmonic(deviations, angles):
    """The direction and the magnitude of the second harmonic."""
    turned = yield from sine_and_cosine([rounded(2.0 * angle) for angle in angles])
    c2 = summed(product(v, c) for v, (_, c) in zip(deviations, turned))
    s2 = summed(product(v, s) for v, (s, _) in zip(deviations, turned))
    [theta] = yield from called("24", [s2], [c2])
    [size] = yield from called("13", [rounded(product(c2, c2) + product(s2, s2))])
    return product(0.5, theta), rounded(size / (len(angles) / 2))


def across(points, axis):
    """tanh of the slope times the sine between each point and an axis, and the cosine."""
    [(s_t, c_t)] = yield from sine_and_cosine([axis])
    steps = yield from called("22", [rounded(SLOPE * rounded(product(s, c_t) - product(c, s_t))) for s, c in points])
    return steps, [rounded(product(c, c_t) + product(s, s_t)) for s, c in points]


def normal(samples, points, parameters):
    """The normal matrix by rows, its right-hand side, the sum of squares."""
    mu, amp, theta1, theta2 = parameters
    h1, c1 = yield from across(points, theta1)
    h2, c2 = yield from across(points, theta2)
    rows, residuals = [], []
    for k, sample in enumerate(samples):
        residuals.append(rounded(sample - rounded(mu + product(amp, h1[k], h2[k]))))
        fall1, fall2 = rounded(1.0 - product(h1[k], h1[k])), rounded(1.0 - product(h2[k], h2[k]))
        rows.append([1.0, product(h1[k], h2[k]), product(-amp, fall1, SLOPE, c1[k], h2[k]), product(-amp, h1[k], fall2, SLOPE, c2[k])])
    matrix = [summed(product(row[k], row[l]) for row in rows) for k in range(4) for l in range(4)]
    right = [summed(product(row[k], r) for row, r in zip(rows, residuals)) for k in range(4)]
    return "".join(map(word, matrix)), "".join(map(word, right)), summed(product(r, r) for r in residuals)


def known(matrix, ssr, n):
    """Whether the errors of a last pass are known: docs/RULES.md, Known. A unit column's solution has its own entry on the
    diagonal of the inverse."""
    finite = n > 4 and math.isfinite(ssr)
    for column in (2, 3):
        unit = "".join(word(float(row == column)) for row in range(4))
        solved = yield from asked("40" + matrix + unit)
        finite = finite and solved != "00000000" and math.isfinite(value(solved[8 + 8 * column:16 + 8 * column]))
    return finite


def start(samples, angles, parameters, variance):
    """The words of a fit from a seed (mu, amp, theta1, theta2) and its mean, its updates, and whether its errors are known."""
    n, updates = len(samples), 0
    if abs(parameters[1]) < SMALL or variance < FAINT:
        fit = yield from asked("42" + word(variance))
        return fit + word(parameters[0]), 0, False
    points = yield from sine_and_cosine(angles)
    while True:
        matrix, right, ssr = yield from normal(samples, points, parameters)
        solved = "00000000" if updates == 6 else (yield from asked("40" + matrix + right))
        if solved == "00000000":
            break
        steps = [value(solved[at:at + 8]) for at in range(8, 40, 8)]
        steps[2:] = [min(max(step, -0.5), 0.5) for step in steps[2:]]
        if all(abs(step) < SMALL for step in steps[1:]):
            break
        parameters = [rounded(parameter + step) for parameter, step in zip(parameters, steps)]
        updates += 1
    errors = yield from asked(f"41{matrix}{word(ssr)}{n:08x}")
    [rms] = yield from called("13", [rounded(ssr / n)])
    mu, amp, theta1, theta2 = parameters
    axes = yield from asked("43" + word(theta1) + word(theta2) + word(amp))
    errors = errors[8:] + errors[:8] if axes[24:] == "00000001" else errors
    standing = yield from known(matrix, ssr, n)
    return axes[16:24] + axes[:16] + errors + word(rms) + word(mu), updates, standing


def scored(deviations, square, mean, first, second):
    """Mu, amplitude and the mean square of one pair; nothing where the model hardly varies."""
    n = len(deviations)
    q = [product(a, b) for a, b in zip(first, second)]
    total = summed(q)
    q_mean = rounded(total / n)
    denominator = rounded(summed(product(x, x) for x in q) - product(total, q_mean))
    if denominator <= FAINT:
        return None
    share = summed(product(v, x) for v, x in zip(deviations, q))
    amp = rounded(share / denominator)
    ssr = max(rounded(square - rounded(product(share, share) / denominator)), 0.0)
    return rounded(mean - product(amp, q_mean)), amp, rounded(ssr / n)


def grid_of(angles):
    """The allowed pairs of the grid: both axes and the row of each."""
    points = yield from sine_and_cosine(angles)
    [step] = yield from called("16", [STEP_DEGREES])
    thetas = [rounded(k * step) for k in range(STEPS)]
    rows = []
    for theta in thetas:
        steps, _ = yield from across(points, theta)
        rows.append(steps)
    pairs = [(a, b) for a in range(STEPS) for b in range(a + 1, STEPS)]
    allowed = yield ["51" + word(thetas[a]) + word(thetas[b]) for a, b in pairs]
    pairs = [pair for pair, answer in zip(pairs, allowed) if answer == "00000001"]
    return [(thetas[a], thetas[b], rows[a], rows[b]) for a, b in pairs]


def least(seeds):
    """Of mu, amplitude, mean square and both axes, or nothing: the seed of least rms, the earlier on a tie."""
    seeds = [(scores, axes) for scores, axes in seeds if scores is not None]
    sizes = yield from called("13", [scores[2] for scores, _ in seeds])
    (mu, amp, _), axes = seeds[sizes.index(min(sizes))]
    return [mu, amp, *axes]


def grid(deviations, angles, mean):
    square = summed(product(v, v) for v in deviations)
    pairs = yield from grid_of(angles)
    seeds = [(scored(deviations, square, mean, h1, h2), (theta1, theta2)) for theta1, theta2, h1, h2 in pairs]
    return (yield from least(seeds))


def models_of(angles):
    """A table: both axes, the mean of the products, the products less it, and their spread."""
    models = []
    for theta1, theta2, h1, h2 in (yield from grid_of(angles)):
        q = [product(a, b) for a, b in zip(h1, h2)]
        total = summed(q)
        q_mean = rounded(total / len(q))
        spread = rounded(summed(product(x, x) for x in q) - product(total, q_mean))
        if spread > FAINT:
            models.append(((theta1, theta2), q_mean, [rounded(x - q_mean) for x in q], spread))
    return models


def by_models(deviations, table, mean):
    """As `grid`, the products being a table's."""
    square, n, seeds = summed(product(v, v) for v in deviations), len(deviations), []
    for axes, q_mean, q, spread in (yield from models_of(table)):
        share = summed(product(v, x) for v, x in zip(deviations, q))
        amp = rounded(share / spread)
        ssr = max(rounded(square - rounded(product(share, share) / spread)), 0.0)
        seeds.append(((rounded(mean - product(amp, q_mean)), amp, rounded(ssr / n)), axes))
    return (yield from least(seeds))


def first_within(angles, tables):
    """The place of the first table all of whose angles are within 1e-6 of the ring's."""
    for place, table in enumerate(tables):
        if all(abs(rounded(got - want)) <= FAINT for got, want in zip(angles, table)):
            return place
    return None


def fit(samples, angles, tables=()):
    """The words of a ring's record: the fit, its mean, the starts, the updates of each, whether the errors are known."""
    n = len(samples)
    mean = rounded(summed(samples) / n)
    deviations = [rounded(sample - mean) for sample in samples]
    variance = rounded(summed(product(v, v) for v in deviations) / n)
    theta, amp = yield from harmonic(deviations, angles)
    quarter = value(f"{QUARTER_PI:08x}")
    seed = [mean, amp, rounded(theta + quarter), rounded(theta + product(3.0, quarter))]
    answer, first, standing = yield from start(samples, angles, seed, variance)
    suspicious = yield from asked("61" + answer[:48])
    if suspicious == "00000000":
        return f"{answer}{1:08x}{first:08x}{0:08x}{standing:08x}"
    place = first_within(angles, tables)
    seed = yield from grid(deviations, angles, mean) if place is None else by_models(deviations, tables[place], mean)
    other, second, at_second = yield from start(samples, angles, seed, variance)
    if value(other[40:48]) < rounded(value(answer[40:48]) - MARGIN):
        answer, standing = other, at_second
    return f"{answer}{2:08x}{first:08x}{second:08x}{standing:08x}"


def side_by_side(works, answer):
    """What each generator returns; `answer` takes the lines of one step of all of them."""
    results = [None] * len(works)
    waiting = [(k, next(work)) for k, work in enumerate(works)]
    while waiting:
        answers = iter(answer([line for _, lines in waiting for line in lines]))
        waiting_before, waiting = waiting, []
        for k, lines in waiting_before:
            try:
                waiting.append((k, works[k].send([next(answers) for _ in lines])))
            except StopIteration as end:
                results[k] = end.value
    return results
