"""Draws the pictures of the last `bench/run lasso` and `bench/run handles`: `plots.py FIGURES PICTURES`, two folders. Colours and letters are legible on white
and on dark pages, and a picture has no background."""

import os
import sys

import matplotlib

matplotlib.use("svg")
import matplotlib.pyplot as pyplot  # noqa: E402
from matplotlib.ticker import FixedLocator, NullLocator, StrMethodFormatter  # noqa: E402

from lasso import CALLS, COUNTS, RIVALS, SIZES, THREADS, Figures, lines_of  # noqa: E402
from measuring import times_by_key  # noqa: E402

GREY = "#7d7d7d"
COLOURS = {"lasso": "#c2571a", "lasso, fastest hasher": "#2f7fd0", "std": "#8a63d2"}
MARKS = {"lasso": "o", "lasso, fastest hasher": "s", "std": "^"}
EQUAL = "as fast"
# How many words of the legend fit side by side.
MOST_IN_A_ROW = 4
# Interners that threads share: of each line in the picture, our program and theirs; of each input, its words and how the line is drawn.
HANDLES = {"C, to GLib under a mutex": ("c", "glib"), "Rust, to lasso 0.7.3": ("rust", "lasso")}
HANDLE_COLOURS = ("#c2571a", "#2f7fd0")
HANDLE_INPUTS = {"zipf": (", few texts often", "-"), "distinct": (", each text once", "--")}
HANDLE_CALLS = {"new": "intern new texts", "present": "intern present texts", "resolve": "resolve keys"}
# The bytes of a text in the picture of single calls.
SIZE = 11

STYLE = {
    "svg.fonttype": "none",
    "svg.hashsalt": "lasso",
    "font.family": "sans-serif",
    "font.size": 11,
    "text.color": GREY,
    "axes.edgecolor": GREY,
    "axes.labelcolor": GREY,
    "axes.titlecolor": GREY,
    "axes.titlesize": 11,
    "xtick.color": GREY,
    "ytick.color": GREY,
    "axes.spines.top": False,
    "axes.spines.right": False,
    "legend.frameon": False,
    "figure.facecolor": "none",
    "axes.facecolor": "none",
    "savefig.facecolor": "none",
}


def save(figure, folder, name, title):
    """Writes the picture, with one legend at its top, and the title as its description."""
    handles, labels = figure.axes[0].get_legend_handles_labels()
    rows = -(-len(labels) // MOST_IN_A_ROW)
    figure.legend(handles, labels, loc="upper center", ncol=-(-len(labels) // rows))
    figure.tight_layout(rect=(0, 0, 1, 1 - 0.08 * rows))
    figure.savefig(os.path.join(folder, name), metadata={"Date": None, "Creator": None, "Title": title})
    pyplot.close(figure)


def draw_equal(axes):
    """The line of a call that takes as long as the other's."""
    axes.axhline(1, color=GREY, linewidth=2, label=EQUAL)


def finish(axes, title, places, words, label):
    """The title of a panel, and what is along its lower edge."""
    axes.set_title(title)
    axes.set_xticks(places, words)
    axes.set_xlabel(label)


def draw_calls(figures, folder):
    figure, panels = pyplot.subplots(1, 4, figsize=(11, 3.4), sharey=True)
    places = range(len(COUNTS))
    for axes, (call, words) in zip(panels, CALLS.items()):
        draw_equal(axes)
        for rival in RIVALS:
            axes.plot(places, [figures.call(count, SIZE, call, rival) for count in COUNTS], color=COLOURS[rival], marker=MARKS[rival], label=rival)
        finish(axes, words, places, ["10 k", "100 k", "1 M"], "texts")
    panels[0].set_ylim(bottom=0)
    panels[0].set_ylabel("our time to theirs")
    save(figure, folder, "calls.svg", f"Time of single calls over texts of {SIZE} bytes, ours to theirs: below 1 ours is faster")


def draw_threads(figures, folder):
    names = figures.inputs()[1]
    calls = {"intern": ("hinted_intern", "intern all lines"), "present": ("hinted_present", "intern present texts"), "resolve": ("resolve", "resolve keys")}
    figure, panels = pyplot.subplots(len(names), len(calls), figsize=(11, 3 * len(names) + 0.6), squeeze=False)
    for name, line in zip(names, panels):
        for axes, (call, (ours, words)) in zip(line, calls.items()):
            draw_equal(axes)
            for rival in RIVALS:
                ratios = [figures.thread(name, ours, call, threads, rival) for threads in THREADS]
                axes.plot(range(len(THREADS)), ratios, color=COLOURS[rival], marker=MARKS[rival], label=rival)
            draw_powers(axes)
            finish(axes, f"{words}, {name}", range(len(THREADS)), list(map(str, THREADS)), "threads")
        line[0].set_ylabel("our time to theirs")
    save(figure, folder, "threads.svg", "Time of calls by threads that share an interner, ours to theirs: below 1 ours is faster; scales are logarithmic")


def draw_powers(axes):
    """A logarithmic scale of ratios, with the powers of two."""
    axes.set_yscale("log")
    axes.yaxis.set_major_locator(FixedLocator([2.0**power for power in range(-10, 4)]))
    axes.yaxis.set_minor_locator(NullLocator())
    axes.yaxis.set_major_formatter(StrMethodFormatter("{x:g}"))


def draw_handles(times, folder):
    figure, panels = pyplot.subplots(1, len(HANDLE_CALLS), figsize=(11, 3.8), sharey=True)
    for axes, (call, title) in zip(panels, HANDLE_CALLS.items()):
        draw_equal(axes)
        for (words, pair), colour in zip(HANDLES.items(), HANDLE_COLOURS):
            for name, (texts, style) in HANDLE_INPUTS.items():
                ours, theirs = ([min(times[name, program, call, str(threads)]) for threads in THREADS] for program in pair)
                ratios = [one / other for one, other in zip(ours, theirs)]
                axes.plot(range(len(THREADS)), ratios, style, color=colour, marker="o", label=words + texts)
        draw_powers(axes)
        finish(axes, title, range(len(THREADS)), list(map(str, THREADS)), "threads")
    panels[0].set_ylabel("our time to theirs")
    save(figure, folder, "handles.svg", "Threads that share an interner from C and Rust, our time to theirs: below 1 ours is faster; scales are logarithmic")


def draw_lines(figures, folder):
    names = figures.inputs()[0]
    figure, panels = pyplot.subplots(1, 2, figsize=(11, 3.8))
    width = 0.26
    for axes, (what, words) in zip(panels, {"seconds": "processor time", "peak": "peak memory"}.items()):
        draw_equal(axes)
        for at, rival in enumerate(RIVALS):
            places = [place + (at - 1) * width for place in range(len(names))]
            axes.bar(places, [figures.line(name, what, rival) for name in names], width, color=COLOURS[rival], label=rival)
        finish(axes, words, range(len(names)), names, "input")
        axes.tick_params(axis="x", rotation=30)
        axes.set_ylim(bottom=0)
    panels[0].set_ylabel("ours to theirs")
    save(figure, folder, "lines.svg", "Numbering the lines of an input: processor time and peak memory, ours to theirs: below 1 ours is better")


def main():
    figures = Figures(sys.argv[1])
    os.makedirs(sys.argv[2], exist_ok=True)
    assert SIZE in SIZES
    with pyplot.rc_context(STYLE):
        for draw, known in ((draw_calls, figures.calls), (draw_threads, figures.threads), (draw_lines, figures.lines)):
            if known:
                draw(figures, sys.argv[2])
        handles = times_by_key(lines_of(sys.argv[1], "handles"), 4)
        if handles:
            draw_handles(handles, sys.argv[2])


main()
