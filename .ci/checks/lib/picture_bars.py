"""Whether the bars of a picture are the parts of drives that its report tells.

    python3 picture_bars.py PICTURE REPORT FROM UNTIL
"""
import sys
import xml.etree.ElementTree as ElementTree

PARTS = {"beacon": "beacon", "commit": "commit", "leave": "frame", "quiet": None}


def told_bars(report, first, end):
    """Each bar as its node, its part, its first tick and the tick after its last one, as far as the window has it."""
    begun = {}
    bars = []

    def finish(node, tick):
        if node in begun:
            part, since = begun.pop(node)
            if max(since, first) < min(tick, end):
                bars.append((node, part, max(since, first), min(tick, end)))

    for line in open(report):
        fields = line.split()
        if len(fields) < 3 or fields[1] not in PARTS:
            continue
        tick, node = int(fields[0]), int(fields[2])
        finish(node, tick)
        if PARTS[fields[1]]:
            begun[node] = (PARTS[fields[1]], tick)
    for node in sorted(begun):
        finish(node, end)
    return sorted(bars)


def drawn_bars(picture, first):
    """The boxes that have a title: where each stands has to agree with it."""
    bars = []
    for box in ElementTree.parse(picture).getroot().iter("{http://www.w3.org/2000/svg}rect"):
        title = box.find("{http://www.w3.org/2000/svg}title")
        if title is None:
            continue
        part, start, _, stop = title.text.split()
        node, below = divmod(int(box.get("y")) - 66, 48)
        start, stop = int(start), int(stop)
        if (below, int(box.get("x")), int(box.get("width"))) != (0, 70 + start - first, stop - start):
            sys.exit(f"a box stands elsewhere than its title says: {title.text}")
        bars.append((node, part, start, stop))
    return sorted(bars)


picture, report, first, end = sys.argv[1], sys.argv[2], int(sys.argv[3]), int(sys.argv[4])
if told_bars(report, first, end) != drawn_bars(picture, first):
    sys.exit("the bars are not the drives that the report tells")
