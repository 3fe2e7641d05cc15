"""Lines at right angles round what stands between: the cheapest way over a grid, where a bend, a crossing and a line on a line cost."""
import bisect
import heapq
from dataclasses import dataclass

MARGIN = 9
BEND, CROSSING, ALONG = 6, 3, 60
PATIENCE, EFFORT = 15000, 250000
SIDES = {"right": (1, 0), "foot": (0, 1), "left": (-1, 0), "top": (0, -1)}


@dataclass(frozen=True)
class Box:
    x: float
    y: float
    w: float
    h: float
    form: str = "box"

    @property
    def middle(self):
        return self.x + self.w / 2, self.y + self.h / 2

    def moved(self, dx, dy):
        return Box(self.x + dx, self.y + dy, self.w, self.h, self.form)

    def holds(self, point, margin=0.0):
        return -margin < point[0] - self.x < self.w + margin and -margin < point[1] - self.y < self.h + margin

    def depth(self, off, across):
        """How far the outline is from the middle, in one direction, `off` beside the middle."""
        half, wide = (self.h / 2, self.w / 2) if across else (self.w / 2, self.h / 2)
        part = min(1.0, abs(off) / wide) if wide else 0.0
        if self.form == "diamond":
            return half * (1 - part)
        if self.form == "round":
            return half * (1 - part * part) ** 0.5
        return half


@dataclass(frozen=True)
class Port:
    point: tuple
    cell: tuple
    way: tuple
    cost: float


def lines_of(low, high, through, pitch=10):
    """The lines of a grid from low to high: those wanted, and others about as far apart as the pitch."""
    wanted = sorted({value for value in through if low <= value <= high})
    found = list(wanted)
    value = low
    while value <= high:
        at = bisect.bisect_left(wanted, value)
        if all(abs(value - other) >= pitch * 0.6 for other in wanted[max(0, at - 1):at + 1]):
            found.append(value)
        value += pitch
    return sorted(found)


def elbow(begin, end):
    """A line of three pieces, where no better way was found."""
    level = (begin[1] + end[1]) / 2
    return straightened([begin, (begin[0], level), (end[0], level), end])


def straightened(points):
    """Without the points that are no corner."""
    kept = []
    for point in points:
        if kept and point == kept[-1]:
            continue
        while len(kept) > 1 and any(kept[-2][k] == kept[-1][k] == point[k] for k in (0, 1)):
            kept.pop()
        kept.append(point)
    return kept


class Goals:
    """The ports where a way may end, and how far it is at least to the nearest."""

    def __init__(self, router, ports):
        self.router, self.at = router, {}
        for port in ports:
            self.at.setdefault(port.cell, []).append(port)
        places = [router.point(cell) for cell in self.at]
        self.low, self.high = [min(place[k] for place in places) for k in (0, 1)], [max(place[k] for place in places) for k in (0, 1)]

    def rest(self, cell):
        point = self.router.point(cell)
        return sum(max(self.low[k] - point[k], 0, point[k] - self.high[k]) for k in (0, 1)) / 10


class Router:
    def __init__(self, xs, ys):
        self.xs, self.ys = xs, ys
        self.blocked, self.soft, self.used, self.effort = set(), {}, {}, EFFORT

    def cells(self, box, margin=0.0):
        columns = range(bisect.bisect_right(self.xs, box.x - margin), bisect.bisect_left(self.xs, box.x + box.w + margin))
        rows = range(bisect.bisect_right(self.ys, box.y - margin), bisect.bisect_left(self.ys, box.y + box.h + margin))
        return [(i, j) for i in columns for j in rows]

    def block(self, box, margin=MARGIN):
        self.blocked.update(self.cells(box, margin))

    def soften(self, box, cost, margin=0.0):
        for cell in self.cells(box, margin):
            self.soft[cell] = self.soft.get(cell, 0) + cost

    def claim(self, points, near=0.4):
        """A line is drawn here: another may cross it, and had better not lie on it or close beside it."""
        for (x1, y1), (x2, y2) in zip(points, points[1:]):
            across = y1 == y2
            box = Box(min(x1, x2), min(y1, y2), abs(x2 - x1), abs(y2 - y1))
            for cell in self.cells(box, 0.5):
                self.used[cell] = self.used.get(cell, 0) | (1 if across else 2)
            if near:
                self.soften(box, near, 10.5)

    def port(self, box, side, off=0.0, cost=0.0, straight=MARGIN):
        """A place on the outline, and the cell before it, as far out as a line is to be straight."""
        (mx, my), way = box.middle, SIDES[side]
        across = way[0] == 0
        far = box.depth(off, across)
        point = (mx + off, my + way[1] * far) if across else (mx + way[0] * far, my + off)
        edge = box.h / 2 if across else box.w / 2
        i, j = self.beyond(self.xs, mx, way[0], edge + straight, off), self.beyond(self.ys, my, way[1], edge + straight, off)
        return Port(point, (i, j), way, cost)

    @staticmethod
    def beyond(lines, middle, way, edge, off):
        if way > 0:
            return min(bisect.bisect_left(lines, middle + edge), len(lines) - 1)
        if way < 0:
            return max(bisect.bisect_right(lines, middle - edge) - 1, 0)
        return min(range(len(lines)), key=lambda k: abs(lines[k] - middle - off))

    def entry_cost(self, cell, way):
        bits = self.used.get(cell, 0)
        along = 1 if way[0] else 2
        return self.soft.get(cell, 0) + (ALONG if bits & along else CROSSING if bits else 0)

    def route(self, starts, ends):
        """The points of the cheapest way from one of some ports to one of others; nothing where there is none, or where it is not found soon enough."""
        goals, heap, best, count = Goals(self, ends), [], {}, 0
        for port in starts:
            if port.cell not in self.blocked:
                cost = port.cost + self.entry_cost(port.cell, port.way)
                heapq.heappush(heap, (cost + goals.rest(port.cell), count, cost, port.cell, port.way, (port, None)))
                count += 1
        while heap and count < min(PATIENCE, self.effort):
            _, _, cost, cell, way, trail = heapq.heappop(heap)
            if cell is None:
                self.effort -= count
                return self.traced(trail)
            if best.get((cell, way), cost) < cost:
                continue
            for guess, total, *step in self.steps(cell, way, cost, trail, goals):
                if step[0] is None or total < best.get((step[0], step[1]), total + 1):
                    count += 1
                    best[step[0], step[1]] = total
                    heapq.heappush(heap, (guess, count, total, *step))
        self.effort -= count
        return []

    def steps(self, cell, way, cost, trail, goals):
        """What can be done from a cell: go in at a port, or on to the next cell, straight or round a corner."""
        for port in goals.at.get(cell, ()):
            if way != port.way:
                total = cost + port.cost + (0 if way == (-port.way[0], -port.way[1]) else BEND)
                yield total, total, None, port, (port, trail)
        for turn in SIDES.values():
            i, j = cell[0] + turn[0], cell[1] + turn[1]
            if turn == (-way[0], -way[1]) or not (0 <= i < len(self.xs) and 0 <= j < len(self.ys)) or (i, j) in self.blocked:
                continue
            bend = 0 if turn == way else BEND + (ALONG if self.used.get(cell) else 0)
            length = abs(self.xs[i] - self.xs[cell[0]]) + abs(self.ys[j] - self.ys[cell[1]])
            total = cost + bend + length / 10 + self.entry_cost((i, j), turn)
            yield total + goals.rest((i, j)), total, (i, j), turn, ((i, j), trail)

    def traced(self, trail):
        last, trail = trail
        points = [last.point, self.point(last.cell)]
        while trail:
            step, trail = trail
            points.append(step.point if isinstance(step, Port) else self.point(step))
            if isinstance(step, Port):
                points.insert(-1, self.point(step.cell))
        return straightened(points[::-1])

    def point(self, cell):
        return self.xs[cell[0]], self.ys[cell[1]]
