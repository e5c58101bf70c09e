"""Shapes of QuickDraw as the pixels that they cover: rectangles, ovals, arcs, lines, polygons, regions.

A shape has a rectangle around it and, for each row, a list of columns in rising order: it begins to cover at the first,
ends before the second, begins again at the third. Coordinates lie between pixels: the pixel (3, 2) lies right of the
column 3 and below the row 2. A pixel belongs to an oval, an arc or a polygon if its middle does.

Source: Inside Macintosh: Imaging With QuickDraw, chapter 2 'Basic QuickDraw' (points, rectangles, regions) and chapter 3
'QuickDraw Drawing' (the pen, lines, ovals, arcs, polygons, and how a region is kept).
"""
import array
import bisect
import collections
import math
import struct

from .errors import Damaged

FAR = 1 << 20  # a column that lies right of each other; -FAR lies left of each
EVERYWHERE = [-FAR, FAR]
END_OF_LINE = 0x7FFF
ROW = 200  # steps of work that a row of a simple shape takes, where a pixel that is drawn takes one
TINY = 1e-9  # of a pixel: what the sine of an angle may be wrong by


class Rect(collections.namedtuple("Rect", "top left bottom right")):
    """A rectangle. Its right column and its bottom row don't belong to it."""

    @property
    def width(self):
        return self.right - self.left

    @property
    def height(self):
        return self.bottom - self.top

    def is_empty(self):
        return self.width <= 0 or self.height <= 0

    def common(self, other):
        """What belongs to both, which may be empty."""
        return Rect(max(self.top, other.top), max(self.left, other.left), min(self.bottom, other.bottom), min(self.right, other.right))

    def moved(self, across, down):
        return Rect(self.top + down, self.left + across, self.bottom + down, self.right + across)

    def inset(self, across, down):
        return Rect(self.top + down, self.left + across, self.bottom - down, self.right - across)


def read_rect(reader):
    """The four numbers of a rectangle: top, left, bottom, right."""
    return Rect(reader.integer(), reader.integer(), reader.integer(), reader.integer())


class Shape:
    """What a drawing covers. `around` is a rectangle beyond which it covers nothing, `columns` a function of a row.

    `steps` is the work that one row takes. `is_rectangle` says that it covers all that lies in the rectangle. `changes` are,
    of a region, the rows that may cover other columns than the row above them.
    """

    def __init__(self, around, columns, steps=ROW, is_rectangle=False, changes=()):
        self.around, self.columns, self.steps, self.is_rectangle, self.changes = around, columns, steps, is_rectangle, changes

    def at(self, row):
        """The columns of a row at which it begins and ends to cover."""
        return self.columns(row) if self.around.top <= row < self.around.bottom else []


# Lists of columns.

def in_both(first, second):
    """The columns that both lists cover."""
    found, at, other = [], 0, 0
    while at < len(first) and other < len(second):
        left, right = max(first[at], second[other]), min(first[at + 1], second[other + 1])
        if left < right:
            found += (left, right)
        if first[at + 1] < second[other + 1]:
            at += 2
        else:
            other += 2
    return found


def outside(columns):
    """The columns that a list doesn't cover."""
    return [-FAR] + columns + [FAR]


def both(first, second):
    """The shape that covers what both cover."""
    if first.is_rectangle and second.is_rectangle:
        return rectangle(first.around.common(second.around))
    return Shape(first.around.common(second.around), lambda row: in_both(first.at(row), second.at(row)),
                 first.steps + second.steps)


def hollow(outer, inner):
    """The shape that covers what `outer` covers and `inner` doesn't."""
    return Shape(outer.around, lambda row: in_both(outer.at(row), outside(inner.at(row))), outer.steps + inner.steps)


# Rectangles and ovals.

def rectangle(rect):
    columns = [rect.left, rect.right] if not rect.is_empty() else []
    return Shape(rect, lambda row: columns, is_rectangle=True)


def oval(rect):
    return rounded(rect, rect.width, rect.height)


def rounded(rect, width, height):
    """A rectangle whose corners are quarters of an oval of a width and a height."""
    width, height = max(0, min(width, rect.width)), max(0, min(height, rect.height))

    def columns(row):
        inset = oval_inset(min(row - rect.top, rect.bottom - 1 - row), width, height)
        return [rect.left + inset, rect.right - inset]

    return Shape(rect, columns if not rect.is_empty() else lambda row: [])


def oval_inset(row, width, height):
    """How many pixels of an oval's row, counted from its top, lie outside of it at each side."""
    down = height - 2 * row - 1  # twice the distance of the row's middle from the oval's
    if down <= 0:
        return 0
    half = math.isqrt(width * width * (height * height - down * down) // (height * height))
    return (width - half) // 2


# Arcs.

def arc(rect, start, extent):
    """The piece of an oval from an angle on, over an extent.

    Angles are degrees, clockwise from the top; 45 leads through the right upper corner of the rectangle, square or not. A
    middle on the first ray belongs to it, one on the last doesn't.
    """
    if extent < 0:
        start, extent = start + extent, -extent
    if extent >= 360:
        return oval(rect)
    begin, end = clockwise_of(rect, start), clockwise_of(rect, start + extent)

    def columns(row):
        if extent <= 180:
            return in_both(begin(row), outside(end(row)))
        return outside(in_both(outside(begin(row)), end(row)))

    return both(oval(rect), Shape(rect, columns, 3 * ROW))


def clockwise_of(rect, angle):
    """A function that gives the columns of a row that lie in the half of the plane clockwise of the ray with an angle."""
    across, down = round(math.sin(math.radians(angle)), 12), round(-math.cos(math.radians(angle)), 12)

    def columns(row):
        height = (2 * (row - rect.top) + 1 - rect.height) / rect.height
        if down == 0:
            return EVERYWHERE if across * height >= 0 else []
        edge = rect.left + (across * height / down * rect.width + rect.width - 1) / 2
        edge = max(-FAR, min(FAR, edge))
        return [math.ceil(edge - TINY), FAR] if down < 0 else [-FAR, math.floor(edge + TINY) + 1]

    return columns


# Lines.

def line(first, last, width, height):
    """A line between two points (across, down), drawn with a pen that hangs right of and below the points."""
    (left, top), (right, bottom) = sorted((first, last), key=lambda point: point[1])
    down = bottom - top
    around = Rect(top, min(left, right), bottom + height, max(left, right) + width)

    def columns(row):
        upper, lower = max(0, row - top - height + 1), min(down, row - top)
        ends = line_columns(left, right, down, upper)
        if lower > upper:
            ends += line_columns(left, right, down, lower)
        return [min(ends), max(ends) + width]

    return Shape(around, columns if width > 0 and height > 0 else lambda row: [])


def line_columns(left, right, down, row):
    """The first and the last column of a row, counted from the line's top, that a pen of one pixel draws."""
    across, sign = abs(right - left), 1 if right >= left else -1
    if down == 0:
        return left, right
    if across <= down:
        column = left + sign * ((2 * row * across + down) // (2 * down))
        return column, column
    begin = max(0, -(-(2 * row - 1) * across // (2 * down)))
    end = min(across, -(-(2 * row + 1) * across // (2 * down)) - 1)
    return left + sign * begin, left + sign * end


# Polygons.

def read_polygon(reader, work, origin=(0, 0)):
    """The corners (across, down) of a polygon as it stands in a picture: its length, the rectangle around it, its corners."""
    place = reader.place
    length = reader.word()
    work.spend(1000 + 10 * length)
    if length < 10 or length % 4 != 2:
        raise Damaged(place, "a polygon has %d bytes" % length)
    read_rect(reader)
    numbers = struct.unpack(">%dh" % (length // 2 - 5), reader.take(length - 10))
    return [(across - origin[0], down - origin[1]) for down, across in zip(numbers[::2], numbers[1::2])]


def polygon(corners, visible, work):
    """What lies within a polygon, of the rows of a rectangle; its last corner is tied to its first."""
    if not corners:
        return Shape(Rect(0, 0, 0, 0), lambda row: [])
    around = Rect(min(down for _, down in corners), min(across for across, _ in corners),
                  max(down for _, down in corners), max(across for across, _ in corners))
    crossed = collections.defaultdict(lambda: array.array("i"))
    for first, last in zip(corners, corners[1:] + corners[:1]):
        (left, top), (right, bottom) = sorted((first, last), key=lambda point: point[1])
        rows = range(max(top, visible.top), min(bottom, visible.bottom))
        work.spend(100 * (len(rows) + 2))
        for row in rows:
            crossed[row].append(crossing(left, right, bottom - top, row - top))
    return Shape(around, lambda row: sorted(crossed.get(row, ())))


def crossing(left, right, down, row):
    """The first column whose middle doesn't lie left of an edge, where it crosses the middle of a row."""
    return left - (down - (2 * row + 1) * (right - left)) // (2 * down)


# Regions.

def read_region(reader, work, origin=(0, 0)):
    """A region as it stands in a picture, with coordinates from an origin.

    It has its length, the rectangle around it, and, unless it is that rectangle, scan lines: a row, the columns at which it
    begins or ends to cover from this row on, and a mark. Refused are rows and columns that don't rise.
    """
    work.spend(1000)
    place = reader.place
    length = reader.word()
    if length < 10 or length % 2:
        raise Damaged(place, "a region has %d bytes" % length)
    around = read_rect(reader).moved(-origin[0], -origin[1])
    if length == 10:
        return rectangle(around)
    numbers = struct.unpack(">%dh" % (length // 2 - 5), reader.take(length - 10))
    rows, lists = scan_lines(numbers, place + 10, work, origin)
    sides = [around.left, around.right]
    return Shape(around, lambda row: in_both(sides, columns_from(rows, lists, row)), changes=rows)


def scan_lines(numbers, place, work, origin):
    """The rows of a region at which it changes, and for each the columns from there on."""
    rows, lists, covered, at = [], [], set(), 0
    if numbers[-1] != END_OF_LINE:
        raise Damaged(place + 2 * len(numbers), "a region has no end")
    while at < len(numbers) and numbers[at] != END_OF_LINE:
        end = numbers.index(END_OF_LINE, at)
        row, changes = numbers[at] - origin[1], numbers[at + 1:end]
        if (rows and row <= rows[-1]) or not are_pairs(changes):
            raise Damaged(place + 2 * at, "the scan lines of a region don't rise")
        covered ^= {column - origin[0] for column in changes}
        work.spend(40 * (len(covered) + len(changes) + 10))
        rows.append(row)
        lists.append(sorted(covered))
        at = end + 1
    return rows, lists


def are_pairs(columns):
    """Whether columns rise, and are an even number."""
    return len(columns) % 2 == 0 and all(first < second for first, second in zip(columns, columns[1:]))


def columns_from(rows, lists, row):
    """The columns of the last scan line up to a row."""
    found = bisect.bisect_right(rows, row)
    return lists[found - 1] if found else []


def outline(region, width, height, work):
    """The border of a region, as wide and high as the pen, within it."""
    def inner(row):
        """What stays covered however far the pen reaches."""
        found = EVERYWHERE
        for other in reach(region.changes, row, height):
            columns = region.at(other)
            work.spend(300 + 40 * (len(columns) + len(found)))
            found = in_both(found, narrowed(columns, width))
            if not found:
                break
        return found

    return hollow(region, Shape(region.around, inner))


def reach(changes, row, height):
    """The rows that a pen reaches from a row, but those that cover the same as the one above them."""
    first, last = bisect.bisect_right(changes, row - height), bisect.bisect_right(changes, row + height)
    return [row - height, row + height] + list(changes[first:last])


def narrowed(columns, width):
    """Columns without so many at each end of what is covered."""
    found = []
    for left, right in zip(columns[::2], columns[1::2]):
        if left + width < right - width:
            found += (left + width, right - width)
    return found
