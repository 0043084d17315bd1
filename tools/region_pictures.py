"""Draws runs with regions as SVG: what tools/regions --picture writes.

`picture` draws a run of `region_runs`. Time goes to the right, in steps. Each region is a bar as high as its pages,
from its first page to its removal. The bars are stacked, those of one place on each other, so that the height of all
is the pages in use. The width is divided into columns. A column is one step if there are few. Otherwise it shows the
regions at that of its steps at which most pages are in use. Regions that are too small to be seen are drawn together.
"""

import bisect
import collections
import html

from error_pages import shown

# The most columns, in pixels, and the most pixels of the height; the pixels of a page if there are few.
WIDTH, HEIGHT, PAGE = 960, 360, 40
LEFT, TOP, RIGHT, LINE = 64, 96, 40, 18
# A bar of fewer pixels in either direction is drawn together with its neighbours.
VISIBLE = 2
# The most bars that are drawn apart.
MOST_BARS = 1500
# Colours that differ also for those who see few. They are given to the places with the most pages. Every second bar of
# a colour is lighter, so that neighbouring bars can be distinguished.
COLOURS = "#4477aa #ee6677 #228833 #ccbb44 #66ccee #aa3377 #ee8866 #44bb99 #99ddff #bbcc33 #aa4499 #ddaa77".split()
PACKAGE_COLOUR, OTHER_COLOUR = "#777777", "#aaaaaa"


def number(count):
    return f"{count:,}"


def counted(count, what):
    return f"{number(count)} {what}{'' if count == 1 else 's'}"


def length(pixels):
    """A number of pixels as it is written."""
    return f"{pixels:.1f}".removesuffix(".0")


def escaped(text):
    return html.escape(shown(text))


# ---- time


class Columns:
    """The columns of a run, and the step at which each shows the regions."""

    def __init__(self, regions, steps):
        self.steps = max(1, steps)
        self.count = min(self.steps, WIDTH)
        # After how many steps the pages in use change, and how many there are from then on.
        self.changed, self.pages = zip((0, 0), *pages_in_use(regions))
        self.moments = [self.moment(column) for column in range(self.count)]

    def first(self, column):
        """The first step of a column."""
        return -(-column * self.steps // self.count)

    def moment(self, column):
        """The step of a column at which most pages are in use, the first of these."""
        first, after = self.first(column), self.first(column + 1)
        changes = range(bisect.bisect_right(self.changed, first) - 1, bisect.bisect_left(self.changed, after))
        return max(first, self.changed[max(changes, key=self.pages.__getitem__)])

    def column(self, step):
        """The first column that shows the state after a number of steps."""
        return bisect.bisect_left(self.moments, step)

    def pixel(self, column):
        return LEFT + column * WIDTH / self.count


def pages_in_use(regions):
    """After how many steps the pages in use change, each with the pages from then on."""
    pages = 0
    for step, change in sorted(changes_of(regions, lambda step: step).items()):
        pages += change
        yield step, pages


def changes_of(regions, time):
    """By how much the pages of some regions change, at which times. `time` is the time of a step."""
    changes = collections.defaultdict(int)
    for region in regions:
        for step in region.pages:
            changes[time(step)] += 1
        if region.removed is not None:
            changes[time(region.removed)] -= len(region.pages)
    return changes


# ---- bars. A bar is a list of regions: one, or several of one place that are drawn together.


def heights(bar, columns):
    """The columns in which the pages of a bar change: each with the pages from there on."""
    pages = 0
    for column, change in sorted(changes_of(bar, columns.column).items()):
        if column < columns.count and change:
            pages += change
            yield column, pages


def size_of(region, columns, page):
    """The width and the height of a region, in pixels."""
    end = columns.count if region.removed is None else columns.column(region.removed)
    return (end - columns.column(region.pages[0])) * WIDTH / columns.count, len(region.pages) * page


def together(regions, sizes, least):
    """The bars of one place. Regions that have too few pixels, in one direction or in all, and follow each other, are
    one."""
    found, was_small = [], False
    for region, (width, height) in zip(regions, sizes):
        small = min(width, height) < VISIBLE or width * height < least
        if small and was_small:
            found[-1].append(region)
        else:
            found.append([region])
        was_small = small
    return found


def place_of(region):
    """Regions that were created for one name by one instruction have one place."""
    return region.place, region.function, region.name


def bars_of(regions, columns, page):
    """All bars, from the lowest one up: as many as can be distinguished."""
    by_place = collections.defaultdict(list)
    for region in regions:
        if region.pages:
            by_place[place_of(region)].append(region)
    places = [(some, [size_of(region, columns, page) for region in some]) for some in by_place.values()]
    least = VISIBLE * VISIBLE
    while True:
        found = [bar for some, sizes in places for bar in together(some, sizes, least)]
        if len(found) <= max(MOST_BARS, len(places)):
            return found
        least *= 2


# ---- outlines


def parts_of(bar, bases, columns):
    """The parts of a bar without a gap: each the columns in which its base or its top changes, with both, and the
    column where it ends. `bases` has the pages below the bar in each column, to which those of the bar are added."""
    part, found = [], list(heights(bar, columns))
    for (column, pages), (end, _) in zip(found, [*found[1:], (columns.count, 0)]):
        if pages:
            part += lifted(column, end, pages, bases)
        elif part:
            yield part, column
            part = []
    if part:
        yield part, columns.count


def lifted(column, end, pages, bases):
    """The bases and the tops of a bar with a number of pages from one column to another, where they change."""
    before = None
    for at in range(column, end):
        base = bases[at]
        bases[at] += pages
        if base != before:
            yield at, base, base + pages
        before = base


def levels(part, which):
    """The columns of a part in which its base or its top is another than before, each with that."""
    before = None
    for column, *found in part:
        if found[which] != before:
            yield column, found[which]
        before = found[which]


def outline(part, end, columns, y):
    """A path along the tops of a part of a bar to its end, and back along its bases."""
    x = lambda column: length(columns.pixel(column))
    bases, tops = list(levels(part, 0)), list(levels(part, 1))
    words = [f"M{x(bases[0][0])} {y(bases[0][1])}V{y(tops[0][1])}"]
    words += [f"H{x(column)}V{y(top)}" for column, top in tops[1:]]
    words.append(f"H{x(end)}")
    words += [f"V{y(base)}H{x(column)}" for column, base in reversed(bases)]
    return "".join(words) + "Z"


# ---- words


def name_of(region, source):
    """A place, as it is shown."""
    if region.place is None:
        return "package variables"
    return f"{source.line(region.place)}:{source.column(region.place)} {region.function} r{region.name}"


def pages_and_objects(regions):
    pages, objects = sum(len(region.pages) for region in regions), sum(region.objects for region in regions)
    return f"{counted(pages, 'page')}, {counted(objects, 'object')}"


def tooltip(bar, source):
    first, *others = bar
    what = pages_and_objects(bar)
    if first.place is None:
        return f"{name_of(first, source)}: {what}, never removed"
    if not others:
        end = "not removed" if first.removed is None else f"removed after step {number(first.removed)}"
        return f"{name_of(first, source)}: created after step {number(first.created)}, {end}, {what}"
    removed = sum(region.removed is not None for region in bar)
    steps = f"{number(first.created)} to {number(others[-1].created)}"
    return (
        f"{name_of(first, source)}: {counted(len(bar), 'region')}, created after steps {steps}, "
        f"{number(removed)} of them removed, {what}"
    )


def ending(ran, source):
    """How a run ended, if it has: a journal may end before."""
    steps = f"after {counted(ran.steps, 'step')}"
    if ran.end is None:
        return f"the journal ends {steps}"
    if ran.end.status == 0:
        return f"main returned {steps}"
    if ran.end.status == 8:
        return f"only the first {counted(ran.steps, 'step')} are drawn: the run was cut there"
    place = "" if ran.end.place is None else f" at {source.line(ran.end.place)}:{source.column(ran.end.place)}"
    return f"{ran.end.said}{place}, {steps}"


# ---- the picture


def ticks(most, count):
    """Round numbers up to a number: at most a given count, and 0."""
    step = 1
    while most // step > count:
        # 1, 2, 5, 10, 20, 50 ..
        step = step * 5 // 2 if str(step)[0] == "2" else step * 2
    return range(0, most + 1, step)


def text(x, y, words, more=""):
    return f'<text x="{length(x)}" y="{length(y)}"{more}>{escaped(words)}</text>'


def colours_of(regions):
    """The colours of the places that have pages."""
    pages = collections.Counter()
    for region in regions:
        if region.pages and region.place is not None:
            pages[place_of(region)] += len(region.pages)
    found = {place: OTHER_COLOUR for place in pages}
    found.update((place, colour) for (place, _), colour in zip(pages.most_common(), COLOURS))
    return found


def lighter(colour):
    return "#" + "".join(f"{(int(colour[at : at + 2], 16) * 2 + 255) // 3:02x}" for at in (1, 3, 5))


class Picture:
    """A picture of a run of the program in a file."""

    def __init__(self, name, ran, source):
        self.name, self.ran, self.source = name, ran, source
        self.regions = ([ran.package] if ran.package.pages else []) + ran.regions
        self.columns = Columns(self.regions, ran.steps)
        self.most = max(1, *self.columns.pages)
        self.height = min(HEIGHT, PAGE * self.most)
        self.bottom = TOP + self.height
        self.colours = colours_of(self.regions)

    def y(self, pages):
        return length(self.bottom - pages * self.height / self.most)

    def colour(self, region):
        return PACKAGE_COLOUR if region.place is None else self.colours[place_of(region)]

    def head(self):
        yield text(LEFT, 28, self.name, ' class="h"')
        yield text(LEFT, 48, f"{ending(self.ran, self.source)}; a page has {self.ran.limits.page_words} words")
        yield text(LEFT, 66, self.ran.counts())

    def axes(self):
        """Lines and numbers for pages and steps. A line is across the whole picture, and lies below the bars."""
        for pages in ticks(self.most, 6):
            y = float(self.y(pages))
            yield f'<path class="g" d="M{LEFT} {length(y)}H{LEFT + WIDTH}"/>'
            yield text(LEFT - 6, y + 4, number(pages), ' class="e"')
        for step in ticks(self.columns.steps, 8):
            x = LEFT + step * WIDTH / self.columns.steps
            yield f'<path class="g" d="M{length(x)} {TOP}V{self.bottom + 5}"/>'
            yield text(x, self.bottom + LINE, number(step), ' class="m"')
        yield text(LEFT, TOP - 14, "pages", ' class="e"')
        yield text(LEFT + WIDTH, self.bottom + 2 * LINE, "steps", ' class="e"')

    def bars(self):
        bases, drawn = [0] * self.columns.count, collections.Counter()
        for bar in bars_of(self.regions, self.columns, self.height / self.most):
            parts = list(parts_of(bar, bases, self.columns))
            if parts:
                colour = self.colour(bar[0])
                drawn[colour] += 1
                yield self.bar(bar, parts, colour if drawn[colour] % 2 else lighter(colour))

    def bar(self, bar, parts, colour):
        path = "".join(outline(part, end, self.columns, self.y) for part, end in parts)
        return f'<path fill="{colour}" d="{path}"><title>{escaped(tooltip(bar, self.source))}</title></path>'

    def legend(self):
        """A line for each colour: its place, and what there was of it in all."""
        by_colour = collections.defaultdict(list)
        for region in self.regions:
            if region.pages:
                by_colour[self.colour(region)].append(region)
        others = by_colour.pop(OTHER_COLOUR, [])
        lines = [(colour, name_of(regions[0], self.source), regions) for colour, regions in by_colour.items()]
        lines += [(OTHER_COLOUR, counted(len(set(map(place_of, others))), "other place"), others)] if others else []
        return lines

    def legend_lines(self, lines):
        for at, (colour, said, regions) in enumerate(lines):
            y = self.bottom + (at + 3) * LINE
            count = "" if regions[0].place is None else f"{counted(len(regions), 'region')}, "
            yield f'<rect x="{LEFT}" y="{length(y)}" width="12" height="12" fill="{colour}"/>'
            yield text(LEFT + LINE, y + 10, f"{said}: {count}{pages_and_objects(regions)}")

    def lines(self):
        legend = self.legend()
        width, height = LEFT + WIDTH + RIGHT, self.bottom + (len(legend) + 4) * LINE
        size = f'width="{width}" height="{height}" viewBox="0 0 {width} {height}"'
        yield f'<svg xmlns="http://www.w3.org/2000/svg" {size}>'
        yield f"<title>Regions of {escaped(self.name)}</title>"
        yield f"<style>{STYLE}</style>"
        yield f'<rect width="{width}" height="{height}" fill="#ffffff"/>'
        yield from self.head()
        yield from self.axes()
        yield '<g stroke="#ffffff" stroke-width="0.6">'
        yield from self.bars()
        yield "</g>"
        yield from self.legend_lines(legend)
        yield "</svg>"


STYLE = (
    "text{font:12px sans-serif;fill:#222222}.h{font-size:16px;font-weight:bold}"
    ".e{text-anchor:end}.m{text-anchor:middle}.g{stroke:#dddddd;fill:none}"
)


def picture(name, ran, source):
    """The text of a picture of a run. `source` is the `region_events.Source` of the program."""
    return "".join(f"{line}\n" for line in Picture(name, ran, source).lines())
