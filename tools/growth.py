"""Which region grew in a run that ended with status 4: what tools/rgor and tools/explain say after `pages spent`.

The run is repeated by region_runs, which runs code texts on one thread and notes where objects are made. It is
repeated with fewer pages if there were many, and ends after a few seconds: what grows has the most pages there, too.
"""

import collections
import subprocess

import code_text
import error_pages
import region_events
import region_runs

GUIDE = error_pages.TOP / "docs" / "REGIONS_GUIDE.md"
# The most pages, and the most steps, of the repeated run.
PAGES, STEPS = 512, 2_000_000
# The most bytes of a source for which it is repeated.
LONGEST = 200_000


def limits_of(words):
    """The limits that the options of a run name. Each is followed by its number, or joined with it by `=`."""
    found, words = {}, [part for word in words for part in word.split("=", 1)]
    for option, number in zip(words, words[1:]):
        if option.strip("-").replace("-", "_") in region_runs.RANGES:
            found[option] = number
    return region_runs.limits_of(found)


def repeated(program, text, words):
    """The run of a program with these options, up to the bounds; None if it cannot be repeated."""
    limits = limits_of(words)
    if limits is None or len(text) > LONGEST:
        return None
    limits.pages, limits.steps = min(limits.pages, PAGES), min(limits.steps, STEPS)
    try:
        emitted = subprocess.run([program, "emit"], input=text, capture_output=True, timeout=60, check=False)
    except (OSError, subprocess.TimeoutExpired):
        return None
    code = code_text.read(emitted.stdout) if not emitted.returncode else 0
    if isinstance(code, int):
        return None
    try:
        return region_runs.run(code, limits)
    except region_runs.Fault:
        return None


def place_of(region):
    """Regions that were created for one name by one instruction have one place."""
    return region.function, region.place, region.name


def said_of(ran, source, file):
    """The report about a run: the place whose live regions have the most pages, and which instruction made most of their
    objects. The empty list if no region has a page."""
    live = [region for region in [ran.package, *ran.regions] if region.removed is None and region.pages]
    if not live or not ran.made:
        return []
    total = sum(len(region.pages) for region in live)
    grown = place_of(max(live, key=lambda region: len(region.pages)))
    group = [region for region in live if place_of(region) == grown]
    pages, objects = (sum(found) for found in zip(*((len(region.pages), region.objects) for region in group)))
    where = lambda place: f"{source.line(place)}:{source.column(place)}"
    function, place, _ = grown
    if place is None:
        what = "the region of the package variables, which is never removed,"
    elif len(group) == 1:
        what = f"the region that {function} creates at {where(place)}"
    else:
        what = f"the {len(group)} live regions that {function} creates at {where(place)}"
    made = collections.Counter()
    for (region, maker, at), count in ran.made.items():
        if region.removed is None and place_of(region) == grown:
            made[maker, at] += count
    ((maker, at), count), = made.most_common(1)
    verb, guide = "has" if len(group) == 1 else "have", error_pages.where(GUIDE)
    why = f"Why they are there: regions --warn {file}; what to do: {guide}."
    if len(group) > 1:
        why = f"So many live regions come from a recursion, or from goroutines that do not end: {guide}."
    how = f"In a repeated run, after {ran.steps} steps, {what} {verb} {pages} of {total} pages, with {objects} objects."
    return [
        how,
        f"Most of these, {count}, are made at {where(at)} in {maker}.",
        why,
    ]


def lines(program, text, file, words=()):
    """What to say after `pages spent` of a file with this text and a run with these options. The empty list if it is not
    known."""
    ran = repeated(program, text, words)
    return said_of(ran, region_events.Source(text), file) if ran and ran.end.status in (4, 8) else []
