#!/usr/bin/env python3
"""Draws one ring frame, of 16 samples or of 24, and its answer as SVG, on standard output.

    plot.py FRAME ANSWER > ring.svg      the two lines as arguments
    plot.py < TWO-LINES > ring.svg       or as two lines of standard input

Left: the samples over the angle, the fitted curve, and below it what the fit leaves over. Right: the ring as the
camera sees it, with both axes. A fan around an axis is its standard error to either side. ring.svg beside this file
is the third frame of examples/frames/rings.txt.

Status 0: drawn. 2: a line can not be drawn, and one sentence on standard error says why.
"""
import math
import re
import struct
import sys

# A ring by the type of its frame: its name, its number of samples, the type of its answer.
RINGS = {"01": ("ring", 16, "81"), "03": ("24-point ring", 24, "83")}
DIGITS = re.compile(r"[0-9a-f]*")
REFUSAL = re.compile(r"(?:8[123]|ff)(0[1-9])([0-9a-f]{4})")

# One colour for each axis, and warm greys for all that stands behind.
INK, FAINT, RULE, PAPER = "#22262b", "#6f7178", "#e4e2dc", "#fdfcfa"
AXES = ("#1b6ca8", "#c4501b")
BAND, DARK = "#efe7d3", "#dcdad4"

WIDTH, HEIGHT = 960, 480
LEFT, RIGHT = 76, 592           # of both charts
CURVE = (104, 312)              # top and bottom of the upper chart
REST = (338, 414)               # and of the lower one
CENTRE = (784, 250)
BOARD, RING, REACH = 72, 104, 144    # radius of the board, of the samples and of the axes


class Bad(Exception):
    """A sentence that says why there is no picture."""


# ---- the two lines

def words(digits):
    """The f32 numbers of a run of hexadecimal digits, eight each."""
    return [struct.unpack(">f", bytes.fromhex(digits[i:i + 8]))[0] for i in range(0, len(digits), 8)]


def has(line, first, digits):
    """Whether a line is its first characters and so many lower-case hexadecimal digits."""
    return line.startswith(first) and len(line) == len(first) + digits and DIGITS.fullmatch(line)


def read_frame(line):
    """The samples and the angles."""
    name, samples, _ = RINGS[line[:2]]
    if not has(line, line[:2], 16 * samples):
        raise Bad(f"the frame is no {name} line: {line[:2]} and {16 * samples} lower-case hexadecimal digits")
    values = words(line[2:])
    for place, value in enumerate(values):
        if not math.isfinite(value):
            raise Bad(f"the frame's value at place {place} is not finite")
    return values[:samples], values[samples:]


def read_answer(frame, line):
    """The six values, and whether the errors are known, of an answer to a frame."""
    if frame[:2] not in RINGS:
        raise Bad("the frame is no ring line: it begins with 01, or with 03 where it has 24 samples")
    name, _, first = RINGS[frame[:2]]
    refusal = REFUSAL.fullmatch(line)
    if refusal:
        number, place = (int(digits, 16) for digits in refusal.groups())
        raise Bad(f"the answer is a refusal, number {number} at place {place}: there is no fit to draw")
    if not has(line, first + "00", 56):
        raise Bad(f"the answer is no {name} answer: {first}00 and 56 lower-case hexadecimal digits")
    values = words(line[4:52])
    if not all(map(math.isfinite, values)):
        raise Bad("the answer has a value that is not finite, as after an overflow")
    return values, line[58:60] == "01"


class Fit:
    """The answer, and what follows from it: the offset, the curve and the residuals."""

    def __init__(self, values, known, samples, angles):
        self.amp, theta1, theta2, error1, error2, self.rms = values
        self.thetas, self.errors, self.known = (theta1, theta2), (error1, error2), known
        # The answer has no offset. Its least-squares value is the mean of what the product leaves.
        self.mu = 0.0
        self.mu = sum(v - self.at(phi) for v, phi in zip(samples, angles)) / len(samples)
        self.rests = [v - self.at(phi) for v, phi in zip(samples, angles)]

    def at(self, phi):
        """The model, at an angle in radians."""
        h1, h2 = (math.tanh(4 * math.sin(phi - theta)) for theta in self.thetas)
        return self.mu + self.amp * h1 * h2


# ---- SVG

def num(value):
    """A coordinate: two places at most, and no minus before a zero."""
    text = f"{value:.2f}".rstrip("0").rstrip(".")
    return "0" if text == "-0" else text


def tag(name, content=None, **attributes):
    parts = [f'{key.replace("_", "-")}="{num(value) if isinstance(value, (int, float)) else value}"'
             for key, value in attributes.items()]
    head = " ".join([name, *parts])
    return f"<{head}/>" if content is None else f"<{head}>{content}</{name}>"


def text(x, y, content, size=12, fill=FAINT, **more):
    return tag("text", content, x=x, y=y, font_size=size, fill=fill, **more)


def line(x1, y1, x2, y2, stroke, width=1, **more):
    return tag("line", x1=x1, y1=y1, x2=x2, y2=y2, stroke=stroke, stroke_width=width, **more)


def say(value, form=".4g"):
    """A number to be read, with a true minus sign."""
    return format(value, form).replace("-", "\u2212")


def say_angle(radians, places_below_one=1):
    value = math.degrees(radians)
    return say(value, f".{places_below_one if value < 1 else 1}f") + "\u00b0"


def degrees(radians):
    return math.degrees(radians) % 360


# ---- the charts on the left

def ticks(low, high, most):
    """Round numbers between two ends, with their text: a step of 1, 2 or 5 times a power of ten."""
    raw = (high - low) / most
    power = 10.0 ** math.floor(math.log10(raw))
    step = next(k * power for k in (1, 2, 5, 10, 20) if k * power >= raw)
    places = max(0, -math.floor(math.log10(step)))
    form = f".{places}f" if places <= 3 and high < 1e5 else ".3g"
    steps = range(math.ceil(low / step), math.floor(high / step) + 1)
    return [(k * step, say(k * step, form)) for k in steps]


def spread(values, share):
    """The ends of a chart: those of the values, and a share of their distance more."""
    low, high = min(values), max(values)
    room = (high - low) * share or max(1.0, abs(high) * 0.1)
    return low - room, high + room


def across(angle):
    return LEFT + (RIGHT - LEFT) * angle / 360


def scale(ends, box):
    """From a value to its height on the page."""
    (low, high), (top, bottom) = ends, box
    return lambda value: bottom - (bottom - top) * (value - low) / (high - low)


def grid(box, ends, most):
    height_of, out = scale(ends, box), []
    for value, label in ticks(*ends, most):
        y = height_of(value)
        out.append(line(LEFT, y, RIGHT, y, RULE))
        out.append(text(LEFT - 8, y + 4, label, 11, text_anchor="end"))
    return out


def strips(fit):
    """Where each axis crosses the ring, over both charts: a line, and its error to either side."""
    out = []
    for name, theta, error, colour in zip("12", fit.thetas, fit.errors, AXES):
        for half in (0, 180):
            middle = degrees(theta + math.radians(half))
            if fit.known:
                out += strip(middle, min(math.degrees(error), 90), colour)
            dash = {} if fit.known else {"stroke_dasharray": "5 4"}
            out.append(line(across(middle), CURVE[0], across(middle), REST[1], colour, 1.2, **dash))
            out.append(text(across(middle), CURVE[0] - 6, f"axis {name}", 11, colour, text_anchor="middle"))
    return out


def strip(middle, reach, colour):
    """A strip that runs over an end of the chart comes in again at the other."""
    out = []
    for turn in (-360, 0, 360):
        low, high = max(middle - reach + turn, 0), min(middle + reach + turn, 360)
        if low < high:
            out.append(tag("rect", x=across(low), y=CURVE[0], width=across(high) - across(low),
                           height=REST[1] - CURVE[0], fill=colour, fill_opacity=0.12))
    return out


def upper(samples, angles, fit):
    curve = [fit.at(math.radians(angle)) for angle in range(361)]
    ends = spread(samples + curve, 0.08)
    y = scale(ends, CURVE)
    path = "M" + " L".join(f"{num(across(angle))} {num(y(value))}" for angle, value in enumerate(curve))
    out = [tag("path", d=path, fill="none", stroke=INK, stroke_width=2, stroke_linejoin="round")]
    for value, phi, rest in zip(samples, angles, fit.rests):
        x = across(degrees(phi))
        out.append(line(x, y(value), x, y(value - rest), FAINT))
        out.append(tag("circle", cx=x, cy=y(value), r=4.5, fill=INK, stroke=PAPER, stroke_width=1.5))
    return grid(CURVE, ends, 5), out


def lower(angles, fit):
    most = max([abs(rest) for rest in fit.rests] + [fit.rms]) or 1.0
    ends = (-1.15 * most, 1.15 * most)
    y = scale(ends, REST)
    behind = [tag("rect", x=LEFT, y=y(fit.rms), width=RIGHT - LEFT, height=y(-fit.rms) - y(fit.rms), fill=BAND)]
    out = [line(LEFT, y(0), RIGHT, y(0), FAINT)]
    for rest, phi in zip(fit.rests, angles):
        x = across(degrees(phi))
        out.append(line(x, y(0), x, y(rest), INK, 1.6))
        out.append(tag("circle", cx=x, cy=y(rest), r=2.6, fill=INK))
    # A narrow band has no room for two labels.
    wide = y(-fit.rms) - y(fit.rms) > 14
    labels = [(fit.rms, "+rms"), (-fit.rms, "\u2212rms")] if wide else [(0, "\u00b1rms")]
    out += [text(RIGHT + 6, y(value) + 4, label, 10.5) for value, label in labels]
    return behind + grid(REST, ends, 4), out


def charts(samples, angles, fit):
    (back1, front1), (back2, front2) = upper(samples, angles, fit), lower(angles, fit)
    out = back1 + back2 + strips(fit) + front1 + front2
    for angle in range(0, 361, 45):
        out.append(text(across(angle), REST[1] + 18, f"{angle}\u00b0", 11, text_anchor="middle"))
    out.append(text(across(180), REST[1] + 38, "angle on the ring", text_anchor="middle"))
    for label, (top, bottom) in (("brightness", CURVE), ("residual", REST)):
        middle = (top + bottom) / 2
        out.append(text(26, middle, label, text_anchor="middle", transform=f"rotate(-90 26 {num(middle)})"))
    return out


# ---- the ring on the right: angles run clockwise, since y points down in an image

def polar(angle, radius):
    return CENTRE[0] + radius * math.cos(angle), CENTRE[1] + radius * math.sin(angle)


def sector(start, end, radius, **look):
    (x1, y1), (x2, y2) = polar(start, radius), polar(end, radius)
    large = 1 if end - start > math.pi else 0
    path = (f"M{CENTRE[0]} {CENTRE[1]} L{num(x1)} {num(y1)} "
            f"A{radius} {radius} 0 {large} 1 {num(x2)} {num(y2)} Z")
    return tag("path", d=path, **look)


def corner(fit):
    """The dark squares of the chessboard, as the fit has them: between the first axis and the second."""
    out = [tag("circle", cx=CENTRE[0], cy=CENTRE[1], r=BOARD, fill="#ffffff", stroke=RULE)]
    if fit.amp > 0:
        theta1, theta2 = fit.thetas
        out += [sector(theta1 + turn, theta2 + turn, BOARD, fill=DARK) for turn in (0, math.pi)]
    return out + [tag("circle", cx=CENTRE[0], cy=CENTRE[1], r=RING, fill="none", stroke=RULE, stroke_width=1.5)]


def axis(name, theta, error, colour, known):
    out = []
    if known:
        reach = min(error, math.pi / 2)
        look = {"fill": colour, "fill_opacity": 0.2}
        out += [sector(theta + turn - reach, theta + turn + reach, REACH, **look) for turn in (0, math.pi)]
    dash = {} if known else {"stroke_dasharray": "7 5"}
    out.append(line(*polar(theta, REACH), *polar(theta + math.pi, REACH), colour, 2.2, stroke_linecap="round", **dash))
    # The number stands at the end that the angle names; the other end is the same axis, turned by 180 degrees.
    x, y = polar(theta, REACH + 4)
    out.append(tag("circle", cx=x, cy=y, r=11, fill=colour, stroke=PAPER, stroke_width=2))
    out.append(text(x, y + 4.5, name, 13, PAPER, text_anchor="middle", font_weight="bold"))
    return out


def ring(samples, angles, fit):
    out = corner(fit)
    for name, theta, error, colour in zip("12", fit.thetas, fit.errors, AXES):
        out += axis(name, theta, error, colour, fit.known)
    low, high = min(samples), max(samples)
    size = 224 / len(samples)   # so that neighbours do not touch
    for value, phi in zip(samples, angles):
        level = round(40 + 210 * (value - low) / (high - low)) if high > low else 145
        x, y = polar(phi, RING)
        out.append(tag("circle", cx=x, cy=y, r=size, fill=f"rgb({level},{level},{level})", stroke=INK, stroke_width=1.2))
    greys = f"from {say(low)} (dark) to {say(high)} (light)"
    out.append(text(CENTRE[0], REST[1] + 18, greys, 11, text_anchor="middle"))
    out.append(text(CENTRE[0], REST[1] + 38, "as in an image: 0\u00b0 to the right, clockwise", text_anchor="middle"))
    return out


# ---- the whole

def heading(samples):
    return f"A ring of {len(samples)} samples and the two axes fitted to it"


def title(samples, fit):
    def part(content, **look):
        return tag("tspan", content, dx=10, **look)

    def axis_part(name, theta, error, colour):
        more = " or more" if error >= math.pi else ""   # an estimate above PI is capped
        fan = f" \u00b1 {say_angle(error, 2)}{more}" if fit.known else ""
        return part(f"axis {name} at {say_angle(theta)}{fan}", fill=colour, font_weight="bold")

    parts = [f"amplitude {say(fit.amp)}", *map(axis_part, "12", fit.thetas, fit.errors, AXES)]
    parts += [] if fit.known else [part("errors unknown")]
    parts.append(part(f"rms {say(fit.rms)}"))
    return [text(26, 38, heading(samples), 19, INK, font_weight="bold"),
            text(26, 64, part("\u00b7", fill=FAINT).join(parts), 14, INK)]


def picture(samples, angles, fit):
    head = (f'<svg xmlns="http://www.w3.org/2000/svg" width="{WIDTH}" height="{HEIGHT}" viewBox="0 0 {WIDTH} {HEIGHT}" '
            'font-family="Helvetica, Arial, \'DejaVu Sans\', sans-serif">')
    body = [tag("title", heading(samples)), tag("rect", width=WIDTH, height=HEIGHT, fill=PAPER), *title(samples, fit),
            *charts(samples, angles, fit), *ring(samples, angles, fit)]
    return "\n".join([head, *body, "</svg>"]) + "\n"


def given(arguments):
    """The two lines, from the arguments or from standard input."""
    lines = arguments or sys.stdin.buffer.read().decode("ascii", "replace").splitlines()
    if len(lines) != 2:
        raise Bad("it takes two lines, a frame and its answer: plot.py FRAME ANSWER")
    return lines


def main():
    try:
        frame, answer = given(sys.argv[1:])
        values, known = read_answer(frame, answer)
        samples, angles = read_frame(frame)
        drawn = picture(samples, angles, Fit(values, known, samples, angles))
    except Bad as bad:
        print(f"plot.py: {bad}.", file=sys.stderr)
        return 2
    sys.stdout.buffer.write(drawn.encode("utf-8"))
    return 0


if __name__ == "__main__":
    sys.exit(main())
