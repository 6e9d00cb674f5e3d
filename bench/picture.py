"""Draws the ratios of bench/in_process as SVG: a panel per act, a line per file, and a mark per library in each line."""

import math
from html import escape

from speeds import mean, ratios
from tables import OURS

PANELS = ["reading", "writing", "all three"]
COLOURS = ["#0072b2", "#56b4e9", "#009e73", "#d55e00", "#cc79a7", "#e69f00", "#000000", "#888888"]
MEAN = "geometric mean"

# In pixels.
LABELS, PANEL, GAP = 150, 270, 40
TOP, LINE = 96, 26
LEGEND_COLUMNS = 4


def text(x, y, words, anchor="middle", weight="normal"):
    return f'<text x="{x:.0f}" y="{y:.0f}" text-anchor="{anchor}" font-weight="{weight}">{escape(words)}</text>'


def line(x1, y1, x2, y2, colour):
    return f'<line x1="{x1:.1f}" y1="{y1:.1f}" x2="{x2:.1f}" y2="{y2:.1f}" stroke="{colour}"/>'


def mark(x, y, colour, is_full, words=""):
    """Returns a mark, which is filled if order and digits are kept, and is a ring otherwise."""
    inside = colour if is_full else "none"
    return f'<circle cx="{x:.1f}" cy="{y:.1f}" r="5" fill="{inside}" stroke="{colour}" stroke-width="2"><title>{escape(words)}</title></circle>'


class Scale:
    """A logarithmic scale from the power of two below all ratios to the power of two above them."""

    def __init__(self, all_ratios):
        exponents = [math.log2(ratio) for ratio in all_ratios]
        self.least = math.floor(min(exponents))
        self.most = max(math.ceil(max(exponents)), self.least + 1)

    def marks(self):
        return [2.0**exponent for exponent in range(self.least, self.most + 1)]

    def place(self, ratio):
        return PANEL * (math.log2(ratio) - self.least) / (self.most - self.least)


def legend(libraries, colours):
    """Returns the first lines of the picture."""
    parts = [text(LABELS, 20, "Time relative to ijson, minimum of all passes. Right of 1, ijson takes less.", "start", "bold")]
    parts.append(text(LABELS, 38, "Filled: order and digits are kept. Ring: not both are.", "start"))
    for number, (name, colour) in enumerate(colours.items()):
        x, y = LABELS + number % LEGEND_COLUMNS * 230, 58 + number // LEGEND_COLUMNS * 18
        parts += [mark(x + 6, y - 5, colour, is_exact(libraries[name])), text(x + 18, y, name, "start")]
    return parts


def is_exact(library):
    return library.order and library.numbers == "digits"


def panel(left, act, by_line, scale, libraries, colours):
    """Returns the panel of an act. `by_line` has the ratios by the name of the line and then by the library."""
    bottom = TOP + 24 + LINE * len(by_line)
    parts = [text(left + PANEL / 2, TOP + 4, act, weight="bold")]
    for ratio in scale.marks():
        x = left + scale.place(ratio)
        parts += [line(x, TOP + 12, x, bottom, "#000000" if ratio == 1 else "#dddddd"), text(x, bottom + 16, f"{ratio:g}")]
    for number, (name, by_library) in enumerate(by_line.items()):
        y = TOP + 24 + LINE * (number + 0.5)
        for library, colour in colours.items():
            ratio = by_library.get(library)
            if ratio is None:
                continue
            words = f"{name}, {act}: {library} {ratio:.2f}"
            parts.append(mark(left + scale.place(ratio), y, colour, is_exact(libraries[library]), words))
    return parts


def picture(passes, libraries):
    """Returns the picture, from the minimum of the passes."""
    colours = dict(zip((name for name in libraries if name != OURS), COLOURS))
    acts = {}
    for act in PANELS:
        by_file = ratios(passes, act, "min")
        acts[act] = by_file | {MEAN: {name: mean(by_file, name) for name in libraries}}
    scale = Scale([ratio for by_line in acts.values() for by_library in by_line.values() for ratio in by_library.values() if ratio])
    names = list(passes) + [MEAN]
    parts = legend(libraries, colours)
    for number, name in enumerate(names):
        parts.append(text(LABELS - 14, TOP + 28 + LINE * (number + 0.5), name, "end", "bold" if name == MEAN else "normal"))
    for number, (act, by_line) in enumerate(acts.items()):
        parts += panel(LABELS + number * (PANEL + GAP), act, by_line, scale, libraries, colours)
    width, height = LABELS + len(PANELS) * (PANEL + GAP), TOP + 54 + LINE * len(names)
    opening = f'<svg xmlns="http://www.w3.org/2000/svg" width="{width}" height="{height}" font-family="sans-serif" font-size="13">'
    return "\n".join([opening, f'<rect width="{width}" height="{height}" fill="white"/>', *parts, "</svg>"]) + "\n"
