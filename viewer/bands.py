"""The automatic layout of the whole: bands one below the other, outsiders in a row above or below by whom they talk to, queues' signs in the channels between."""
from collections import defaultdict

import layers
from layout import CHANNEL, HEADER, OUTSIDER, SIGN, Placing, Plan, label_boxes
from measure import width
from routes import Box, Router, elbow, lines_of

SIDE, TOP = 24, 20


class Stacking:
    def __init__(self, sketch):
        self.sketch, self.plan = sketch, Plan()
        self.rank = {pool.number: at for at, pool in enumerate(sketch.pools)}
        self.above = self.outsiders_above()
        downward = self.downward()
        self.placings = {pool.number: Placing(sketch, pool.number, downward) for pool in sketch.pools}
        self.channel = {message: self.channel_of(flow) for message, flow in sketch.flows.items()}
        self.stack()
        self.place_stations()
        self.route_messages()

    def pool_of(self, key):
        return self.rank[self.sketch.nodes[key].pool]

    def partners(self, at):
        """The pools that an outsider talks to, by their rank, once for each message flow."""
        found = []
        for flow in self.sketch.flows.values():
            if at in flow.senders or at in flow.receivers:
                found += [self.pool_of(key) for key in flow.senders + flow.receivers if isinstance(key, str)]
        return found

    def outsiders_above(self):
        """With one pool every second outsider stands below; with more, those that talk to the lower half."""
        last, above = len(self.rank) - 1, set()
        for at in range(len(self.sketch.outside)):
            ranks = self.partners(at)
            if last == 0 and at % 2 == 0 or last and (not ranks or sum(ranks) / len(ranks) <= last / 2):
                above.add(at)
        return above

    def rank_of(self, end):
        """Where one end of a message flow stands: a pool by its rank, an outsider before the first or behind the last."""
        if isinstance(end, str):
            return self.pool_of(end)
        return None if end is None else -1 if end in self.above else len(self.rank)

    def channel_of(self, flow):
        """The channel that a queue's sign stands in; channel k is above the pool of rank k."""
        sender, receiver = self.rank_of(flow.senders[0]), self.rank_of(flow.receivers[0])
        if sender is None:
            return receiver
        if receiver is None:
            return sender + 1
        return receiver if sender < receiver else receiver + 1

    def downward(self):
        """The nodes whose message flow leaves or comes below."""
        found = set()
        for flow in self.sketch.flows.values():
            channel = self.channel_of(flow)
            for end in flow.senders + flow.receivers:
                if isinstance(end, str) and self.pool_of(end) < channel:
                    found.add(end)
        return found

    def stack(self):
        extents = {number: placing.extent() for number, placing in self.placings.items()}
        inner = max([extent.w for extent in extents.values()] + [200 * len(row) for row in self.rows_outside()] + [320])
        self.width = round((inner + HEADER + 2 * SIDE) / 10 + 0.5) * 10
        y = OUTSIDER if self.above else 0
        for at, (number, extent) in enumerate(extents.items()):
            y += self.height_of(at)
            self.set_down(number, extent, y)
            y = self.plan.bands[number].y + self.plan.bands[number].h
        self.bottom = y + self.height_of(len(extents))
        self.set_outsiders()

    def rows_outside(self):
        every = range(len(self.sketch.outside))
        return [[at for at in every if at in self.above], [at for at in every if at not in self.above]]

    def height_of(self, channel):
        """A channel without a sign is narrow, and one with many has room for their lines."""
        count = sum(1 for other in self.channel.values() if other == channel)
        edge = channel == 0 and not self.above or channel == len(self.rank) and not self.rows_outside()[1]
        return (50 if edge else CHANNEL + 10 * max(0, count - 2)) if count else 0 if edge else 40

    def set_down(self, number, extent, y):
        placing = self.placings[number]
        dx = round((HEADER + SIDE - extent.x) / 10 + 0.4) * 10
        dy = round((y + TOP - extent.y) / 10 + 0.4) * 10
        self.plan.bands[number] = Box(0, y, self.width, round((extent.y + extent.h + dy + TOP - y) / 10 + 0.5) * 10)
        for key, box in placing.boxes.items():
            self.plan.nodes[key] = box.moved(dx, dy)
            if placing.labels[key]:
                placing.labels[key].x += dx
                placing.labels[key].y += dy
                self.plan.labels[key] = placing.labels[key]
        for (sort, key), points in placing.points.items():
            kept = self.plan.subs if sort == "sub" else self.plan.lines
            kept[key] = [(x + dx, y + dy) for x, y in points]

    def set_outsiders(self):
        self.plan.outside = [None] * len(self.sketch.outside)
        for row, y in zip(self.rows_outside(), (0, self.bottom)):
            middles = {at: self.middle_of(at) for at in row}
            row = sorted(row, key=lambda at: (middles[at], at))
            edges = [0.0]
            for one, other in zip(row, row[1:]):
                edges.append(max(edges[-1] + 190, min((middles[one] + middles[other]) / 2, self.width - 190 * (len(row) - len(edges)))))
            edges.append(self.width + 20)
            for at, left, right in zip(row, edges, edges[1:]):
                self.plan.outside[at] = Box(round(left / 10) * 10, y, round((right - left) / 10) * 10 - 20, OUTSIDER)

    def middle_of(self, outsider):
        found = [self.plan.nodes[key].middle[0] for flow in self.sketch.flows.values() if outsider in flow.senders + flow.receivers
                 for key in flow.senders + flow.receivers if isinstance(key, str)]
        return sum(found) / len(found) if found else self.width / 2

    def place_stations(self):
        rows = defaultdict(list)
        for message, flow in self.sketch.flows.items():
            rows[self.channel[message]].append((self.wanted(flow), message))
        for channel, row in rows.items():
            row.sort()
            half = [SIGN[0] / 2 + 8, SIGN[0] / 2 + 22]
            gaps = [half[0] + half[1] + width(self.sign_name(one)) for (_, one) in row[:-1]]
            found = layers.apart([want for want, _ in row], [1.0] * len(row), gaps)
            beyond = max(0.0, found[-1] + half[1] + width(self.sign_name(row[-1][1])) - self.width)
            # where they take more room than the bands, they stand out on the right
            left = max(0.0, 30 - found[0] + beyond)
            for (_, message), x in zip(row, found):
                self.plan.stations[message] = (round((x - beyond + left) / 10) * 10, self.middle_of_channel(channel))

    def sign_name(self, message):
        flow = self.sketch.flows[message]
        return flow.name[:30] if flow.tag else ""

    def middle_of_channel(self, channel):
        numbers = list(self.rank)
        below = self.plan.bands[numbers[channel]].y if channel < len(numbers) else self.bottom
        last = self.plan.bands[numbers[channel - 1]] if channel else Box(0, OUTSIDER if self.above else 0, 0, 0)
        return round((last.y + last.h + below) / 20) * 10

    def wanted(self, flow):
        """Over or under the node where only one end is a node, else between the two."""
        ends = [self.plan.nodes[key].middle[0] for key in flow.receivers + flow.senders if isinstance(key, str)]
        if not ends:
            boxes = [self.plan.outside[end] for end in flow.senders + flow.receivers if end is not None]
            return sum(box.middle[0] for box in boxes) / len(boxes)
        return ends[0] if max(ends) - min(ends) <= 70 else sum(ends) / len(ends)

    def router(self):
        left, right = -60, self.width + 60
        router = Router(lines_of(left, right, []), lines_of(-20, self.bottom + OUTSIDER + 20, []))
        for key, box in self.plan.nodes.items():
            router.block(box)
            for part in label_boxes(self.plan.labels.get(key)):
                router.soften(part, 9, 3)
        for box in self.plan.bands.values():
            router.soften(box, 1)
            router.soften(Box(box.x + box.w / 2 - 14, box.y + box.h - 20, 28, 20), 12)
            router.block(Box(box.x, box.y, HEADER, box.h), 4)
            for y in (box.y, box.y + box.h):
                router.claim([(box.x, y), (box.x + box.w, y)], 0)
        for box in self.plan.outside:
            router.block(box, 4)
        for message, (x, y) in self.plan.stations.items():
            router.block(station_box(x, y), 8)
            router.soften(Box(x + SIGN[0] / 2, y - 8, width(self.sign_name(message)) + 8, 16), 5)
        for points in [*self.plan.lines.values(), *self.plan.subs.values()]:
            router.claim(points)
        return router

    def route_messages(self):
        router = self.router()
        for message in sorted(self.plan.stations, key=self.easiest):
            flow, at = self.sketch.flows[message], self.plan.stations[message]
            self.plan.sending[message] = {end: self.drawn(router, end, at, True) for end in flow.senders}
            self.plan.receiving[message] = {end: self.drawn(router, end, at, False) for end in flow.receivers}

    def easiest(self, message):
        flow, (x, _) = self.sketch.flows[message], self.plan.stations[message]
        ends = [self.plan.nodes[key].middle[0] for key in flow.receivers + flow.senders if isinstance(key, str)]
        return sum(abs(end - x) for end in ends), message

    def drawn(self, router, end, at, sending):
        if end is None:
            return []
        box = station_box(*at)
        there = [router.port(box, "top"), router.port(box, "foot"), router.port(box, "left", 0, 2), router.port(box, "right", 0, 4)]
        here = node_ports(router, self.plan.nodes[end]) if isinstance(end, str) else outsider_ports(router, self.plan.outside[end], at)
        points = router.route(here, there) if sending else router.route(there, here)
        points = points or (elbow(here[0].point, at) if sending else elbow(at, here[0].point))
        router.claim(points)
        return points


def station_box(x, y):
    return Box(x - SIGN[0] / 2, y - SIGN[1] / 2, *SIGN)


def node_ports(router, box):
    offs = (0, -20, 20, -40, 40) if box.form == "box" else (0,)
    return [router.port(box, side, off, abs(off) / 10) for side in ("top", "foot") for off in offs]


def outsider_ports(router, box, at):
    """Towards the sign, straight below or above it where the outsider reaches so far."""
    side = "foot" if at[1] > box.y else "top"
    low, high = box.x + 20, box.x + box.w - 20
    wanted = [value for value in range(round(low / 10) * 10, int(high), 10)]
    return [router.port(box, side, value - box.middle[0], abs(value - at[0]) / 20) for value in wanted]
