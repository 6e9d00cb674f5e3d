"""Makes the tables of the benchmarks. A number in brackets is the ratio to ijson: above 1, ijson takes less. A figure
is bold if ijson takes more."""

import datetime
import statistics

from measure import FIGURES
from peers import compilers, kit_version, package_versions

OURS = "ijson"
EARLIER = "earlier build"
ORIGINAL = "Rust crate ijson"
BEST = "best peer"


def print_conditions(turns, passes=None):
    """Prints the first lines of a report: date, kit, machine, turns."""
    with open("/proc/cpuinfo", encoding="utf-8") as lines:
        models = [line.partition(":")[2].strip() for line in lines if line.startswith("model name")]
    print(f"{datetime.date.today()}, {kit_version()}, {len(models)} processors {models[0]}, {turns} turns" + (f" of {passes} passes." if passes else "."))
    print(compilers(), package_versions(), sep="\n", end="\n\n", flush=True)


def row(*cells):
    return "| " + " | ".join(cells) + " |"


def head(*cells):
    return row(*cells) + "\n" + "|" + "---|" * len(cells)


def marked(words, ratio):
    """Returns the words, in bold if the ratio is below 1."""
    return f"**{words}**" if round(ratio, 2) < 1 else words


def with_ratio(words, ratio):
    return marked(f"{words} ({ratio:.2f})", ratio)


def shown(figure, value):
    return f"{value:.1f} MB" if figure.startswith("memory") else f"{value:.3f} s"


def ratios(figures, peers):
    """Returns the figures of each other program divided by ours, and those of the best peer for each figure."""
    others = {name: it for name, it in figures.items() if name != OURS}
    if peers:
        others[BEST] = {figure: min(figures[name][figure] for name in peers if name in figures) for figure in FIGURES}
    return {name: {figure: it[figure] / figures[OURS][figure] for figure in FIGURES} for name, it in others.items()}


def file_table(title, figures, file_ratios):
    lines = [head(title, *FIGURES)]
    for name, it in figures.items():
        cells = [shown(figure, it[figure]) for figure in FIGURES]
        if name != OURS:
            cells = [with_ratio(cell, file_ratios[name][figure]) for cell, figure in zip(cells, FIGURES)]
        lines.append(row(name, *cells))
    return "\n".join(lines)


def named(name, by_file):
    """Returns the name of a program, and how many files it reads if it does not read all."""
    count = sum(name in it for it in by_file.values())
    return name if count == len(by_file) else f"{name} ({count} of {len(by_file)} files)"


def ratio_table(all_ratios):
    """Returns a table of the ratios to the best peer, with a row per file, and of the geometric means of the ratios to
    each program.

    `all_ratios` is by the name of the file.
    """
    lines = [head(f"Against the {BEST}", *FIGURES)]
    for file, it in all_ratios.items():
        if BEST in it:
            lines.append(row(file, *(marked(f"{it[BEST][figure]:.2f}", it[BEST][figure]) for figure in FIGURES)))
    for name in dict.fromkeys(name for it in all_ratios.values() for name in it):
        means = [statistics.geometric_mean([it[name][figure] for it in all_ratios.values() if name in it]) for figure in FIGURES]
        lines.append(row("geometric mean, " + named(name, all_ratios), *(marked(f"{it:.2f}", it) for it in means)))
    return "\n".join(lines)


def growth_cell(figures, size):
    seconds = figures["processor, min"]
    return f"{seconds * 1e3:.1f} ms, {seconds / size * 1e9:.1f} ns, {figures['memory, max']:.0f} MB"


def growth_table(cells):
    """Returns a table of `cells`, which are by the name of the file and then by the size."""
    lines = [head("Processor time, time per byte, memory", *next(iter(cells.values())))]
    return "\n".join(lines + [row(file, *it.values()) for file, it in cells.items()])
