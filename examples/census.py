"""Draws the census of a genus: a row for each multiplicity, a column for each conductor, and the number of semigroups as a colour.
Usage: census.py LIBRARY GENUS PICTURE"""
import ctypes
import math
import sys

import matplotlib

matplotlib.use("Agg")
from matplotlib import colors, pyplot, ticker

u64 = ctypes.c_uint64
PLACES = 2210


class Number(ctypes.Structure):
    _fields_ = [("refused", u64), ("value", u64)]


def opened(path):
    """The library with the census call."""
    atlas = ctypes.CDLL(path)
    atlas.atlas_census.restype = Number
    atlas.atlas_census.argtypes = [u64, ctypes.POINTER(u64), ctypes.c_size_t]
    return atlas


def census(atlas, genus):
    """The answer, and the numbers that are not 0 by their multiplicity and conductor."""
    places = (u64 * PLACES)()
    answer = atlas.atlas_census(genus, places, PLACES)
    return answer, {divmod(place, 65): number for place, number in enumerate(places) if number}


def title(genus, count, conductors):
    """What stands above the picture: the number of semigroups, and the mean of their conductors, of which the sum is given."""
    mean = f"mean conductor {conductors}/{count} (about {conductors / count:.2f})"
    return f"Numerical semigroups of genus {genus}: {count},\n{mean}"


def draw_numbers(axes, numbers):
    """The range of multiplicities and conductors that holds any; where there are none it stays white."""
    multiplicities, conductors = (range(min(side), max(side) + 1) for side in zip(*numbers))
    rows = [[numbers.get((m, c), math.nan) for c in conductors] for m in multiplicities]
    edges = (conductors[0] - 0.5, conductors[-1] + 0.5, multiplicities[0] - 0.5, multiplicities[-1] + 0.5)
    scale = colors.LogNorm(1, max(10, *numbers.values()))
    image = axes.imshow(rows, origin="lower", extent=edges, norm=scale, cmap="viridis_r")
    bar = axes.figure.colorbar(image, fraction=0.046, pad=0.03, format="%d", label="number of semigroups")
    bar.ax.yaxis.set_minor_formatter(ticker.NullFormatter())


def draw_line(axes):
    """The line c = 2 m within the range, with its legend below."""
    axes.autoscale(False)
    axes.plot([0, 68], [0, 34], color="red", linewidth=1, label="c = 2 m: the semigroups left of it and on it are elementary")
    axes.legend(loc="upper center", bbox_to_anchor=(0.5, -0.09), frameon=False)


def draw(genus, numbers, conductors, picture):
    """Writes the picture of the numbers, with the sum of the conductors in its title."""
    axes = pyplot.figure(figsize=(8, 8)).add_subplot()
    draw_numbers(axes, numbers)
    draw_line(axes)
    for axis in (axes.xaxis, axes.yaxis):
        axis.set_major_locator(ticker.MaxNLocator(16, integer=True, steps=[1, 2, 5, 10]))
    axes.set(xlabel="conductor c", ylabel="multiplicity m", title=title(genus, sum(numbers.values()), conductors))
    axes.figure.savefig(picture, dpi=120, bbox_inches="tight")


def main(library, genus, picture):
    """Draws the census, or prints the number of the refusal."""
    answer, numbers = census(opened(library), genus)
    if answer.refused:
        print("refused", answer.refused)
        return 1
    draw(genus, numbers, answer.value, picture)
    return 0


sys.exit(main(sys.argv[1], int(sys.argv[2]), sys.argv[3]))
