"""Reads outlines that the archive writes with another program: shapely, which reads OGC Simple
Features text by GEOS. Standard input has a line for each survey, its points and after a tab the
text of their outline, as `compare --outlines N` prints them.

Of each text shapely has to say: it is of the right kind, valid and its own convex hull; its
coordinates are the corners of the hull that shapely makes of the points, anticlockwise from the
smallest y, then the smallest x; and it is what shapely writes. Coordinates are whole numbers up to
1,000,000,000, which binary64 holds exactly.

It prints the number of texts of each kind and ends with `N texts, 0 differences`; the exit status
is 1 where there is a difference or no text.
"""

import sys
from collections import Counter

from shapely import wkt
from shapely.errors import ShapelyError
from shapely.geometry import MultiPoint
from shapely.geometry.polygon import orient


def lowest_first(corners):
    """The corners in the same order round, begun at the smallest y, then the smallest x."""
    start = corners.index(min(corners, key=lambda corner: (corner[1], corner[0])))
    return corners[start:] + corners[:start]


def expected(points):
    """The kind of geometry and its coordinates, by shapely's hull of the points."""
    if not points:
        return "Polygon", []
    hull = MultiPoint(points).convex_hull
    if hull.geom_type != "Polygon":
        return hull.geom_type, lowest_first(list(hull.coords))
    corners = lowest_first(list(orient(hull).exterior.coords)[:-1])
    return "Polygon", corners + corners[:1]


def difference(points, text):
    """What is wrong with the text of these points' outline, if anything is."""
    try:
        geometry = wkt.loads(text)
    except ShapelyError as error:
        return f"it is not read: {error}"
    kind, corners = expected(points)
    if geometry.geom_type != kind:
        return f"it is a {geometry.geom_type}, not a {kind}"
    if geometry.has_z or not geometry.is_valid:
        return "it has heights or is not valid"
    if kind == "Polygon" and len(geometry.interiors) > 0:
        return "it has a hole"
    found = list((geometry.exterior if kind == "Polygon" else geometry).coords)
    if found != corners:
        return f"its corners are {found}, not {corners}"
    if not geometry.is_empty and not geometry.equals(geometry.convex_hull):
        return "it is not its own convex hull"
    again = wkt.dumps(geometry, trim=True, rounding_precision=0)
    if again != text:
        return f"shapely writes {again}"
    return None


def main():
    kinds = Counter()
    differences = 0
    for line in sys.stdin:
        marks, text = line.rstrip("\n").split("\t")
        points = [tuple(map(int, mark.split(" "))) for mark in marks.split(", ") if mark]
        found = difference(points, text)
        if found:
            differences += 1
            print(f"{text}\n  of the points {marks}\n  {found}")
        kinds[text.split(" (")[0]] += 1
    for kind, number in sorted(kinds.items()):
        print(f"{kind} {number}")
    texts = sum(kinds.values())
    print(f"{texts} texts, {differences} differences")
    return differences > 0 or texts == 0


if __name__ == "__main__":
    sys.exit(main())
