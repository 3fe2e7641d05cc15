"""Where the nodes of one pool stand: layers from left to right by the longest path, an order within each, and middles aligned."""
from collections import defaultdict

WEIGHT_OF_BEND = 0.02


def backward_edges(nodes, edges):
    """The edges that lead back to a node on the way to them, depth first from the nodes that nothing enters."""
    out, entered = defaultdict(list), {target for _, source, target in edges if source != target}
    for key, source, target in edges:
        out[source].append((key, target))
    found, state = set(), {}
    for root in sorted(nodes, key=lambda node: node in entered):
        if root in state:
            continue
        state[root], stack = 1, [(root, iter(out[root]))]
        while stack:
            node, rest = stack[-1]
            step = next(rest, None)
            if step is None:
                state[node] = 2
                stack.pop()
            elif state.get(step[1]) == 1:
                found.add(step[0])
            elif step[1] not in state:
                state[step[1]] = 1
                stack.append((step[1], iter(out[step[1]])))
    return found


def lengths_of(forward):
    """Two edges between the same two nodes need a layer between, to be drawn apart."""
    pairs = defaultdict(int)
    for _, source, target in forward:
        pairs[source, target] += 1
    return {key: 2 if pairs[source, target] > 1 else 1 for key, source, target in forward}


def layers_of(nodes, forward):
    lengths = lengths_of(forward)
    layer = {node: 0 for node in nodes}
    for _ in nodes:
        before = dict(layer)
        for key, source, target in forward:
            layer[target] = max(layer[target], layer[source] + lengths[key])
        if layer == before:
            break
    return layer


def with_bends(nodes, forward, layer):
    """Each layer's nodes, in the order of a walk, with a bend for each edge that passes a layer; and the pieces of the edges between neighbouring layers."""
    walk = {node: (place,) for place, node in enumerate(walked(nodes, forward))}
    rows, pieces = defaultdict(list), []
    for node in nodes:
        rows[layer[node]].append((walk[node], node))
    for key, source, target in forward:
        last = source
        for at in range(layer[source] + 1, layer[target]):
            bend = ("bend", key, at)
            rows[at].append((walk[source] + (walk[target][0], str(key)), bend))
            pieces.append((last, bend))
            last = bend
        pieces.append((last, target))
    return [[node for _, node in sorted(rows[at], key=lambda row: row[0])] for at in sorted(rows)], pieces


def walked(nodes, forward):
    out = defaultdict(list)
    for _, source, target in forward:
        out[source].append(target)
    entered = {target for _, _, target in forward}
    order, seen = [], set()
    stack = sorted(nodes, key=lambda node: node in entered)[::-1]
    while stack:
        node = stack.pop()
        if node not in seen:
            seen.add(node)
            order.append(node)
            stack += out[node][::-1]
    return order


def neighbours(pieces):
    left, right = defaultdict(list), defaultdict(list)
    for source, target in pieces:
        right[source].append(target)
        left[target].append(source)
    return left, right


def crossings(rows, pieces):
    place = {node: at for row in rows for at, node in enumerate(row)}
    layer = {node: at for at, row in enumerate(rows) for node in row}
    between = defaultdict(list)
    for source, target in pieces:
        between[layer[source]].append((place[source], place[target]))
    return sum((a - c) * (b - d) < 0 for ends in between.values() for at, (a, b) in enumerate(ends) for c, d in ends[:at])


def ordered(rows, pieces):
    """The barycentre order: each node at the mean place of its neighbours, to and fro, and the best that was met."""
    left, right = neighbours(pieces)
    best, fewest = [list(row) for row in rows], crossings(rows, pieces)
    rows = [list(row) for row in rows]
    for sweep in range(8):
        near, sequence = (left, rows) if sweep % 2 == 0 else (right, rows[::-1])
        place = {node: at for row in rows for at, node in enumerate(row)}
        for row in sequence:
            row.sort(key=lambda node: sum(place[other] for other in near[node]) / len(near[node]) if near[node] else place[node])
            place.update({node: at for at, node in enumerate(row)})
        found = crossings(rows, pieces)
        if found < fewest:
            best, fewest = [list(row) for row in rows], found
    return best


def apart(wanted, weights, gaps):
    """The places nearest to those wanted that keep their order and the gaps between them, by joining neighbours that are too near."""
    offsets = [0.0]
    for gap in gaps:
        offsets.append(offsets[-1] + gap)
    blocks = []
    for want, weight, offset in zip(wanted, weights, offsets):
        blocks.append([want - offset, weight, 1])
        while len(blocks) > 1 and blocks[-2][0] > blocks[-1][0]:
            value, weight, count = blocks.pop()
            other = blocks[-1]
            other[0] = (other[0] * other[1] + value * weight) / (other[1] + weight)
            other[1] += weight
            other[2] += count
    values = [value for value, _, count in blocks for _ in range(count)]
    return [value + offset for value, offset in zip(values, offsets)]


def pulls(pieces):
    """How strongly the two ends of a piece want one height: much where it is the only way on from the one and the only way into the other."""
    left, right = neighbours(pieces)
    strength = {}
    for source, target in pieces:
        strength[source, target] = strength[target, source] = 100.0 if len(right[source]) == len(left[target]) == 1 else 1.0
    return left, right, strength


def levels(rows, pieces, reach):
    """The height of each node: at the mean of its neighbours, as far as `reach`, what a node takes above and below its middle, lets it."""
    left, right, strength = pulls(pieces)
    gaps = [[reach(a)[1] + reach(b)[0] for a, b in zip(row, row[1:])] for row in rows]
    level = {}
    for row, between in zip(rows, gaps):
        level.update(zip(row, apart([0.0] * len(row), [1.0] * len(row), between)))
    for sweep in range(32):
        sequence = list(zip(rows, gaps))
        for row, between in sequence if sweep % 2 == 0 else sequence[::-1]:
            weights = [WEIGHT_OF_BEND if node[0] == "bend" else 1.0 for node in row]
            level.update(zip(row, apart([wanted_level(node, level, near(node, left, right, sweep), strength) for node in row], weights, between)))
    return snapped({node: round(value / 10) * 10 for node, value in level.items()}, rows, gaps, left)


def snapped(level, rows, gaps, left):
    """A node that stands nearly at the height of one before it is moved to it, where its row has room."""
    for row, between in zip(rows, gaps):
        for at, node in enumerate(row):
            low = level[row[at - 1]] + between[at - 1] - 10 if at else -1e9
            high = level[row[at + 1]] - between[at] + 10 if at + 1 < len(row) else 1e9
            close = [level[other] for other in left[node] if abs(level[other] - level[node]) <= 20 and low <= level[other] <= high]
            if close:
                level[node] = min(close, key=lambda value: abs(value - level[node]))
    return level


def near(node, left, right, sweep):
    """The first sweeps look back along their own way, the last ones to both sides."""
    if sweep >= 12:
        return left[node] + right[node]
    return left[node] if sweep % 2 == 0 else right[node]


def wanted_level(node, level, others, strength):
    whole = sum(strength[node, other] for other in others)
    return sum(level[other] * strength[node, other] for other in others) / whole if others else level[node]
