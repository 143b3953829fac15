"""Draws the estimates of percolation.py with the published threshold, and a lattice when it is first spanned."""

import matplotlib
from matplotlib.colors import ListedColormap
from matplotlib.figure import Figure
from matplotlib.ticker import MaxNLocator
from nanorand import Pcg64
from percolation import DRAWS, SEED, SIDES, TASKS, estimate, neighbours_of, sites_of, sites_until_spanning

PUBLISHED = 0.592746
INK, QUIET, BLUE, ORANGE, OPEN = "#1f2328", "#57606a", "#0072b2", "#d55e00", "#d8dee4"
# With this salt, the same sums produce the same bytes.
matplotlib.rcParams.update({"svg.hashsalt": "nanorand", "font.size": 10, "axes.titlesize": 10, "text.color": INK,
                            "xtick.color": QUIET, "ytick.color": QUIET, "axes.edgecolor": QUIET})


def draw(totals, path):
    """Draws the picture of the sums of all tasks."""
    figure = Figure(figsize=(7.2, 3.3), facecolor="white", constrained_layout=True)
    left, right = figure.subplots(1, 2, width_ratios=[1, 1.35])
    draw_lattice(left, SIDES[-1])
    draw_estimates(right, totals)
    figure.savefig(path, metadata={"Date": None}, dpi=200)


def draw_lattice(axes, side):
    """Draws a lattice from random numbers that no task uses: the part after the last one."""
    order, neighbours = sites_of(side), neighbours_of(side)
    Pcg64(SEED).part(TASKS, DRAWS).shuffle(order)
    opened = set(order[:sites_until_spanning(order, neighbours, side)])
    spanning = reached_from_above(opened, neighbours, side)
    rows = [[(site in opened) + (site in spanning) for site in range(start, start + side)]
            for start in range(side, side * (side + 1), side)]
    axes.imshow(rows, cmap=ListedColormap(["white", OPEN, BLUE]), interpolation="nearest")
    axes.set_title(f"A {side} × {side} lattice when first spanned:\n"
                   f"{len(opened) / side**2:.1%} open; blue: joined to the top")
    axes.set(xticks=[], yticks=[])
    axes.spines[:].set_color(OPEN)


def reached_from_above(opened, neighbours, side):
    """The open sites that are connected to the edge above."""
    reached, frontier = set(), [site for site in range(side, 2 * side) if site in opened]
    while frontier:
        site = frontier.pop()
        if site not in reached:
            reached.add(site)
            frontier += [near for near in neighbours[site] if near in opened]
    return reached


def draw_estimates(axes, totals):
    """Draws the mean share of open sites for each side length, with bars of one standard error up and down."""
    means, errors = zip(*[estimate(side, *sums) for side, sums in zip(SIDES, totals)])
    axes.axhline(PUBLISHED, color=ORANGE, linewidth=1.2)
    axes.annotate(f"published: {PUBLISHED}", (0, PUBLISHED), (-20, 5), textcoords="offset points", color=ORANGE)
    axes.errorbar(range(len(SIDES)), means, errors, fmt="o", color=BLUE, markersize=4, capsize=4)
    for place, (mean, error) in enumerate(zip(means, errors)):
        axes.annotate(f"{mean:.5f}\n± {error:.5f}", (place, mean - error), (0, -6), textcoords="offset points",
                      ha="center", va="top", fontsize=9)
    axes.set_title("Mean share of open sites when first spanned;\nbars: ± one standard error")
    axes.set_xticks(range(len(SIDES)), [f"{side} × {side}" for side in SIDES])
    axes.margins(x=0.16, y=0.3)
    axes.yaxis.set_major_locator(MaxNLocator(5))
    axes.spines[["top", "right"]].set_visible(False)
