"""Makes the tables of bench/in_process."""

import statistics
from operator import itemgetter

from tables import OURS, head, marked, named, row

# The figures of the times of a pass, by act. Some programs do not time cloning.
ACTS = {
    "reading": itemgetter(0),
    "writing": itemgetter(1),
    "dropping": itemgetter(2),
    "all three": lambda times: sum(times[:3]),
    "cloning": itemgetter(3),
}
FIGURES = {"min": min, "median": statistics.median}


def times_of(act, by_library):
    """Returns the times of an act in each pass, by the library, for the libraries that time the act."""
    return {name: list(map(ACTS[act], it)) for name, it in by_library.items() if act != "cloning" or len(it[0]) > 3}


def shown_speed(size, nanoseconds, ours):
    return marked(f"{size * 1000 / nanoseconds:.0f}" if size * 1000 < nanoseconds * 100_000 else "> 99999", nanoseconds / ours)


def speed_table(act, passes, sizes, libraries):
    """Returns a table of megabytes of input per second, by the minimum and by the median time.

    `passes` is by the file and then by the library.
    """
    lines = [head(f"{act}, MB/s, {' / '.join(FIGURES)}", *libraries)]
    for file, by_library in passes.items():
        size, times = sizes[file], times_of(act, by_library)
        cells = (" / ".join(shown_speed(size, figure(times[name]), figure(times[OURS])) for figure in FIGURES.values()) if name in times else "-" for name in libraries)
        lines.append(row(f"{file}, {size / 1e6:.1f} MB", *cells))
    return "\n".join(lines)


def ratios(passes, act, figure):
    """Returns the time relative to ours, by the file and then by the library."""
    found = {}
    for file, by_library in passes.items():
        taken = {name: FIGURES[figure](it) for name, it in times_of(act, by_library).items()}
        found[file] = {name: max(it, 1) / max(taken[OURS], 1) for name, it in taken.items()}
    return found


def mean(file_ratios, name):
    """Returns the geometric mean over the files that the library reads, or None if it reads none of them."""
    found = [by_library[name] for by_library in file_ratios.values() if name in by_library]
    return statistics.geometric_mean(found) if found else None


def shown_ratio(ratio):
    if ratio is None:
        return "-"
    return marked(f"{ratio:.2f}" if ratio >= 0.005 else "< 0.01", ratio)


def mean_table(passes, libraries):
    """Returns a table of the geometric means over the files, with a row per library and the properties that the library keeps."""
    lines = [head("time relative to ijson, geometric mean", "order of members", "numbers", *ACTS)]
    by_act = {act: [ratios(passes, act, figure) for figure in FIGURES] for act in ACTS}
    for name, library in libraries.items():
        cells = (" / ".join(shown_ratio(mean(it, name)) for it in both_figures) for both_figures in by_act.values())
        lines.append(row(named(name, passes), "kept" if library.order else "lost", library.numbers, *cells))
    return "\n".join(lines)
