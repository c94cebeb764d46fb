"""Draws a slice through a field file or a checkpoint, one panel a field, with the edges of the blocks.

    python3 tools/cello_picture.py field-0010.bin --axis z --at 0.5 --to slice.png

`--at` is where the slice lies along its axis, from 0 at the beginning of the domain to 1 at its end. Colours show the
amount per root cell, so that one value looks the same at all levels.
"""

import argparse
import os
import sys

try:
    import numpy
except ImportError:
    sys.exit("numpy is missing: apt-get install python3-numpy")
try:
    import matplotlib
except ImportError:
    sys.exit("matplotlib is missing: apt-get install python3-matplotlib")

import cello_files

matplotlib.use("Agg")
from matplotlib import pyplot  # noqa: E402
from matplotlib.collections import LineCollection  # noqa: E402

AXES = "xyz"


class Slice:
    """The cells of a slice: for each leaf that it meets its corner, its width, and its layer of amounts."""

    def __init__(self, fields, axis, at):
        n, trees = fields.edge, cello_files.trees_of(fields.places)
        self.across = [other for other in range(3) if other != axis]
        self.sizes = [int(trees[other]) * n for other in self.across]
        place = min(max(at, 0.0), 1.0) * int(trees[axis]) * n
        last = int(trees[axis]) * n
        self.blocks = []
        for place_of, amounts in zip(fields.places, fields.amounts):
            level, corner = int(place_of[0]), place_of[1:]
            begin, width = corner[axis] * n / (1 << level), n / (1 << level)
            if begin <= place < begin + width or (place >= last and begin + width >= last):
                layer = min(int((place - begin) * (1 << level)), n - 1)
                cells = numpy.take(amounts, layer, axis=3 - axis)
                low = [corner[other] * n / (1 << level) for other in self.across]
                self.blocks.append((low, width, cells * 8.0 ** level))

    def greatest(self, number):
        return max((float(cells[number].max()) for _, _, cells in self.blocks), default=0.0)


def draw(fields, axis, at, path, title):
    """Draws the slice, one panel a field, and one of the mesh alone where there is no field."""
    layers = Slice(fields, axis, at)
    panels = max(1, fields.count)
    height = 1.5 + 3.6 * layers.sizes[1] / layers.sizes[0]
    figure, axes = pyplot.subplots(1, panels, figsize=(0.6 + 4.4 * panels, height), squeeze=False)
    for number, panel in enumerate(axes[0]):
        edges = []
        most = max(layers.greatest(number), 1.0) if fields.count else 1.0
        for (x, y), width, cells in layers.blocks:
            if fields.count:
                image = panel.imshow(cells[number], origin="lower", extent=(x, x + width, y, y + width), vmin=0,
                                     vmax=most, cmap="viridis", interpolation="nearest")
            edges.append([(x, y), (x + width, y), (x + width, y + width), (x, y + width), (x, y)])
        panel.add_collection(LineCollection(edges, colors="white" if fields.count else "black", linewidths=0.5))
        panel.set_xlim(0, layers.sizes[0])
        panel.set_ylim(0, layers.sizes[1])
        panel.set_aspect("equal")
        panel.set_xlabel(f"{AXES[layers.across[0]]} in root cells")
        panel.set_ylabel(f"{AXES[layers.across[1]]} in root cells")
        if fields.count:
            panel.set_title(f"{fields.name(number)} per root cell")
            figure.colorbar(image, ax=panel, shrink=0.9)
    figure.suptitle(title)
    figure.tight_layout()
    figure.savefig(path, dpi=100)
    pyplot.close(figure)


def main():
    parser = argparse.ArgumentParser(description="Draws a slice through a field file or a checkpoint.")
    parser.add_argument("file", metavar="NAME", help="a field file or a checkpoint")
    parser.add_argument("--axis", choices=AXES, default="z", help="the axis across the slice")
    parser.add_argument("--at", type=float, default=0.5, help="where along that axis, from 0 to 1")
    parser.add_argument("--names", default="", help="the fields' names, as a,b")
    parser.add_argument("--to", metavar="FILE", help="the picture; NAME with .png if left out")
    options = parser.parse_args()
    path = options.to or os.path.splitext(options.file)[0] + ".png"
    try:
        fields = cello_files.read_amounts(options.file, [name for name in options.names.split(",") if name])
        title = f"cycle {fields.cycle}, {len(fields.places)} leaves, {options.axis} at {options.at:g}"
        draw(fields, AXES.index(options.axis), options.at, path, title)
    except (cello_files.Fault, OSError) as fault:
        sys.exit(str(fault))


if __name__ == "__main__":
    main()
