"""Draws streets and routes by matplotlib, for route.py and isochrone.py."""

import io
import math

import matplotlib

matplotlib.use("Agg")
matplotlib.rcParams["svg.hashsalt"] = "hollowbowl"  # so that a picture of the same is the same bytes
from matplotlib import pyplot
from matplotlib.collections import LineCollection

from nearest import EARTH

MARGIN = 0.08  # of the width and the height, around what is drawn
DOTS = 150  # to an inch
FONT = 8
SPOTS = 4  # pixels between points of a line
GAP = 8  # pixels between a line and its name, at least
LEAST_SHARE = 0.5  # of the width of its name, for a street that has one


def begin(streets, places):
    """The axes of a picture that shows some places and the streets around them, in grey."""
    figure, axes = pyplot.subplots(figsize=(7, 5), dpi=DOTS)
    # Many streets are thin, so that they don't grow into one another.
    lines(axes, streets, "0.8", max(0.1, min(0.8, 30 / math.sqrt(len(streets) + 1))))
    (south, north), (west, east) = ((min(each), max(each)) for each in zip(*places))
    middle = math.cos(math.radians((south + north) / 2))
    size = max(north - south, (east - west) * middle, 1e-4) * MARGIN
    axes.set_xlim(west - size / middle, east + size / middle)
    axes.set_ylim(south - size, north + size)
    axes.set_aspect(1 / middle)
    axes.set_axis_off()
    return axes


def lines(axes, pairs, colour, width, label=None):
    """Draws many lines, each from place to place."""
    turned = [[(longitude, latitude) for latitude, longitude in pair] for pair in pairs]
    axes.add_collection(LineCollection(turned, colors=[colour], linewidths=width, capstyle="round", label=label))


def line(axes, places, colour, width):
    """Draws one line through some places."""
    turned = [(longitude, latitude) for latitude, longitude in places]
    axes.plot(*zip(*turned), color=colour, linewidth=width, solid_capstyle="round", zorder=3)


class Page:
    """A picture as its pixels are, with what is taken by names and lines."""

    def __init__(self, axes, routes):
        axes.figure.canvas.draw()
        self.axes, self.taken = axes, []
        self.renderer, self.bounds = axes.figure.canvas.get_renderer(), axes.get_window_extent()
        self.dots = [spot for places in routes for spot in self.spots(places)]

    def pixels(self, places):
        return [tuple(self.axes.transData.transform((longitude, latitude))) for latitude, longitude in places]

    def spots(self, places):
        """Points along a line, some pixels apart."""
        line = self.pixels(places)
        for one, other in zip(line, line[1:]):
            count = 1 + int(math.dist(one, other) / SPOTS)
            yield from (along(one, other, step / count) for step in range(count + 1))

    def size(self, text):
        """The width and height of a name."""
        written = self.axes.text(0, 0, text, fontsize=FONT)
        extent = written.get_window_extent(self.renderer)
        written.remove()
        return extent.width, extent.height

    def is_free(self, box):
        """Whether a name can stand here: within the picture, on no other name and on no line."""
        west, south, east, north = box
        bounds = self.bounds
        if west < bounds.x0 or south < bounds.y0 or east > bounds.x1 or north > bounds.y1:
            return False
        if any(west < other[2] and other[0] < east and south < other[3] and other[1] < north for other in self.taken):
            return False
        return not any(west < x < east and south < y < north for x, y in self.dots)

    def boxes(self, places, text):
        """Where the name of a street could stand: beside its middle first, then farther on, on either side."""
        width, height = self.size(text)
        spots = list(self.spots(places))
        for share in (0.5, 0.4, 0.6, 0.3, 0.7, 0.2, 0.8):
            at = min(int(share * len(spots)), len(spots) - 2)
            (x, y), (x2, y2) = spots[max(at, 0)], spots[max(at, 0) + 1]
            turn = math.atan2(y2 - y, x2 - x) + math.pi / 2
            for side in (1, -1):
                # As far from the line as the name is wide in that direction.
                away = GAP + (abs(math.cos(turn)) * width + abs(math.sin(turn)) * height) / 2
                x3, y3 = x + side * away * math.cos(turn), y + side * away * math.sin(turn)
                yield x3 - width / 2 - 2, y3 - height / 2 - 2, x3 + width / 2 + 2, y3 + height / 2 + 2

    def write(self, text, places):
        """Writes the name of a street beside it, if it is long enough and there is room."""
        line = self.pixels(places)
        if sum(map(math.dist, line, line[1:])) < LEAST_SHARE * self.size(text)[0]:
            return
        box = next(filter(self.is_free, self.boxes(places, text)), None)
        if box:
            self.taken.append(box)
            middle = self.axes.transData.inverted().transform(((box[0] + box[2]) / 2, (box[1] + box[3]) / 2))
            ground = {"boxstyle": "round,pad=0.1", "facecolor": "white", "edgecolor": "none", "alpha": 0.7}
            self.axes.text(*middle, text, fontsize=FONT, ha="center", va="center", bbox=ground, zorder=2)


def along(one, other, share):
    return tuple(here + (there - here) * share for here, there in zip(one, other))


def labels(axes, streets):
    """Writes the names of streets, given as (name, places), beside their lines: the longest first, each name once."""
    page = Page(axes, [places for _, places in streets])
    longest = sorted((street for street in streets if street[0]), key=lambda street: -extent(street[1]))
    for name in dict.fromkeys(name for name, _ in longest):
        page.write(name, next(places for other, places in longest if other == name))


def extent(places):
    """How long a line is, in degrees."""
    return sum(math.hypot(north - south, east - west) for (south, west), (north, east) in zip(places, places[1:]))


def scale(axes):
    """Draws a scale of a round length, a fifth of the picture wide at most."""
    west, east = axes.get_xlim()
    metre = 1 / (math.radians(EARTH) * math.cos(math.radians(sum(axes.get_ylim()) / 2)))
    most = (east - west) / metre / 5
    power = 10 ** math.floor(math.log10(most))
    metres = max(step * power for step in (1, 2, 5) if step * power <= most)
    share = metres * metre / (east - west)
    axes.plot([0.02, 0.02 + share], [-0.02, -0.02], color="0.3", linewidth=2, transform=axes.transAxes, clip_on=False)
    text = f"{metres / 1000:g} km" if metres >= 1000 else f"{metres:g} m"
    axes.text(0.02, -0.035, text, transform=axes.transAxes, fontsize=FONT, va="top", color="0.3")


def dot(axes, place, colour, text):
    """Draws a place."""
    axes.plot(place[1], place[0], "o", color=colour, markersize=8, label=text, zorder=5)


def shade(number, count):
    """A colour for a limit, from dark to light."""
    return pyplot.get_cmap("viridis")(0.1 + 0.8 * number / max(count - 1, 1))


def drawn(axes, form, title="", has_legend=False):
    """The bytes of the picture, in the form png, svg or pdf."""
    axes.set_title(title, fontsize=10)
    scale(axes)
    if has_legend:
        axes.legend(loc="upper center", bbox_to_anchor=(0.5, -0.05), ncol=6, frameon=False, fontsize=FONT)
    no_date = {"svg": {"Date": None}, "pdf": {"CreationDate": None}}.get(form)
    picture = io.BytesIO()
    axes.figure.savefig(picture, format=form, dpi=DOTS, bbox_inches="tight", metadata=no_date)
    return picture.getvalue()
