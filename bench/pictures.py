"""Draws what bench/beside.sh measured: two pictures for the README, from FOLDER/beside.json.

    pictures.py FOLDER [INTO]

INTO (docs/pictures) gets beside.svg, bars of time and memory beside html5ever and lexbor, and growth.svg, time against length on
deeply nested pages. Needs Debian's python3-matplotlib.
"""

import json
import sys
from pathlib import Path

import matplotlib

matplotlib.use("svg")
from matplotlib import pyplot  # noqa: E402

COLORS = {"figpliers": "#2f81f7", "html5ever": "#d29922", "lexbor": "#8b949e"}
GRAY = "#7d8590"  # (legible on white and on black)
STYLE = {
    "svg.fonttype": "none", "svg.hashsalt": "figpliers", "font.family": "sans-serif", "font.size": 11, "text.color": GRAY,
    "axes.labelcolor": GRAY, "axes.edgecolor": GRAY, "xtick.color": GRAY, "ytick.color": GRAY, "axes.spines.top": False,
    "axes.spines.right": False, "figure.facecolor": "none", "axes.facecolor": "none", "savefig.facecolor": "none",
}


def bars(axes, pages, key, title):
    """Draws a group of bars for each page, one for each program, with its figure at the end."""
    names = list(COLORS)
    for number, name in enumerate(names):
        places = [page + (number - 1) * 0.27 for page in range(len(pages))]
        values = [page["programs"][name][key] for page in pages]
        drawn = axes.barh(places, values, height=0.25, color=COLORS[name], label=name)
        axes.bar_label(drawn, fmt="%.2f" if key == "seconds" else "%.0f", padding=3, color=GRAY, fontsize=9)
    axes.set_yticks(range(len(pages)), [f"{it['page']}\n{it['bytes'] / 1e6:.1f} MB" for it in pages])
    axes.margins(x=0.12)
    axes.set_title(title, fontsize=11, loc="left")


def save(figure, axes, file):
    """Writes a figure with one legend above it."""
    handles, labels = axes.get_legend_handles_labels()
    figure.legend(handles, labels, frameon=False, ncols=len(labels), loc="upper right")
    figure.tight_layout(rect=(0, 0, 1, 0.91))
    figure.savefig(file, metadata={"Date": None} if file.suffix == ".svg" else None)


def draw_bars(measured, file):
    pages = [it for it in measured if it["bytes"] > 1_000_000]
    figure, (left, right) = pyplot.subplots(1, 2, figsize=(9.5, 1.2 + 0.75 * len(pages)), sharey=True)
    bars(left, pages, "seconds", "processor time, seconds")
    bars(right, pages, "megabytes", "memory, MB")
    left.invert_yaxis()
    save(figure, left, file)


def draw_lines(growth, file):
    figure, all_axes = pyplot.subplots(1, len(growth), figsize=(9.5, 3.4), sharey=True)
    for axes, (label, programs) in zip(all_axes, growth.items()):
        for name, points in programs.items():
            axes.plot([it / 1e6 for it, _ in points], [it for _, it in points], marker="o", color=COLORS[name], label=name)
        axes.set_xscale("log")
        axes.set_yscale("log")
        axes.xaxis.set_major_formatter("{x:g}")
        axes.yaxis.set_major_formatter("{x:g}")
        axes.set_xlabel("MB of page")
        axes.set_title(label, fontsize=11, loc="left")
    all_axes[0].set_ylabel("processor time, seconds")
    save(figure, all_axes[0], file)


def main():
    if len(sys.argv) not in (2, 3):
        sys.exit(__doc__)
    found = json.loads((Path(sys.argv[1]) / "beside.json").read_text(encoding="utf-8"))
    into = Path(sys.argv[2]) if len(sys.argv) > 2 else Path(__file__).resolve().parent.parent / "docs/pictures"
    into.mkdir(parents=True, exist_ok=True)
    with pyplot.rc_context(STYLE):
        draw_bars(found["measured"], into / "beside.svg")
        draw_lines(found["growth"], into / "growth.svg")


if __name__ == "__main__":
    main()
