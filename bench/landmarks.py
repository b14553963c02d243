# bench/landmarks.py: distances on the roads and what landmarks say of them, by the definitions, for bench/agree.
#
# It holds the distances from a place by exploring everything that can be reached, the least weight of a walk, the preparation of a
# profile (landmarks by the farthest rule, grain, labels in grains), and the potential of a query.
import heapq
from functools import cached_property

from roads import Tower, pieces_between, pieces_in, pieces_out

MOST_ACTIVE = 4
MOST_GRAINS = 65534
GREATEST_POTENTIAL = 2 ** 62
GREATEST_MEASURED = 2 ** 60

# the distance of each tower from the nearest of some towers, which are opened with a distance, or none; weights are cut to grains.
# `ends` has towers and what is still to go from there: a tower further than the nearest end, with that, need not be told
def spread(hops, opened, grain=1, ends=()):
    size, found, left, most = len(hops), [None] * len(hops), dict(ends), None
    opened = [distance * size + node for distance, node in opened]
    heapq.heapify(opened)
    while opened:
        distance, node = divmod(heapq.heappop(opened), size)
        if found[node] is not None:
            continue
        if most is not None and distance > most:
            break
        found[node] = distance
        if node in left and (most is None or distance + left[node] < most):
            most = distance + left[node]
        for weight, other in hops[node]:
            if found[other] is None:
                heapq.heappush(opened, (distance + weight - weight % grain) * size + other)
    return found

# the towers from which a walk goes on to a place, with what it weighs from there
def ends_at(weights, target):
    if isinstance(target, Tower):
        return [(target.node, 0)]
    pairs = [(piece.tail, weights.weight(piece)) for piece in pieces_in(weights.roads, target)]
    return [pair for pair in pairs if pair[1] is not None]

# the distance of each tower from a place, or none; those that are further than the target need not be told
def distances(weights, start, target):
    ends = ends_at(weights, target)
    if isinstance(start, Tower):
        return spread(weights.hops[0], [(0, start.node)], ends=ends)
    out = [(weights.weight(piece), piece.head) for piece in pieces_out(weights.roads, start)]
    return spread(weights.hops[0], [pair for pair in out if pair[0] is not None], ends=ends)

# the least weight of a walk between two places, or none; `found` has the distances from the start
def least_weight(weights, start, target, found):
    walks = [weights.weight(piece) for piece in pieces_between(start, target)]
    walks += [found[node] + weight for node, weight in ends_at(weights, target) if found[node] is not None]
    return min((weight for weight in walks if weight is not None), default=None)

# the least tower of the part with most towers; in a part all are joined by hops, whatever their direction
def largest_part(leaving):
    part_of = list(range(len(leaving)))  # of each tower one with a number not greater, at last the least of its part

    def least_of(node):
        while part_of[node] != node:
            part_of[node] = part_of[part_of[node]]
            node = part_of[node]
        return node

    for node, hops in enumerate(leaving):
        for _, head in hops:
            low, high = sorted((least_of(node), least_of(head)))
            part_of[high] = low
    sizes = [0] * len(leaving)
    for node in range(len(leaving)):
        sizes[least_of(node)] += 1
    return sizes.index(max(sizes))

class Preparation:
    """landmarks, grain and labels of a profile at the limits of a snapshot; there are no landmarks where no hop has a weight"""

    def __init__(self, weights, count):
        self.leaving, self.coming = weights.hops
        self.landmarks = self.farthest(count) if any(self.leaving) else []

    @cached_property
    def from_start(self):
        return spread(self.leaving, [(0, largest_part(self.leaving))])

    # the landmarks: the farthest from the start, then again and again the farthest from those before
    def farthest(self, count):
        landmarks, found = [], self.from_start
        while len(landmarks) < count:
            distance, node = max((distance, -node) for node, distance in enumerate(found) if distance is not None)
            if landmarks and distance == 0:
                break
            landmarks.append(-node)
            found = spread(self.leaving, [(0, landmark) for landmark in landmarks])
        return landmarks

    @cached_property
    def grain(self):
        return min(GREATEST_MEASURED, max(distance for distance in self.from_start if distance is not None)) // 32767 + 1

    # of each landmark the labels from it and the labels to it
    @cached_property
    def labels(self):
        return [[[distance and min(distance, MOST_GRAINS * self.grain) for distance in spread(hops, [(0, landmark)], self.grain)]
                 for hops in (self.leaving, self.coming)] for landmark in self.landmarks]

    # what the active landmarks say at least of the distance between two towers, or none where one says that there is no way
    def bound(self, active, node, target):
        least = 0
        for landmark in active:
            away, back = self.labels[landmark]
            if away[target] is not None and away[node] is not None:
                least = max(least, away[target] - away[node])
            elif away[node] is not None:
                return None
            if back[node] is not None and back[target] is not None:
                least = max(least, back[node] - back[target])
            elif back[target] is not None:
                return None
        return least

    # the landmarks that say most of the distance between two towers, those that say that there is no way before all others
    def active(self, node, target):
        bounds = [self.bound([landmark], node, target) for landmark in range(len(self.landmarks))]
        order = sorted(range(len(bounds)), key=lambda landmark: (bounds[landmark] is not None, -(bounds[landmark] or 0), landmark))
        return order[:MOST_ACTIVE]

# the potential of a tower for a query, as a function that has none where it is unreachable; 0 everywhere without a preparation
def potential_of(weights, preparation, start, target):
    if preparation is None:
        return lambda node: 0
    ends = ends_at(weights, target)
    first, last = (place.node if isinstance(place, Tower) else weights.roads.edges[place.edge].base for place in (start, target))
    active = preparation.active(first, last)

    def potential(node):
        bounds = [(preparation.bound(active, node, end), weight) for end, weight in ends]
        return min((min(bound + weight, GREATEST_POTENTIAL) for bound, weight in bounds if bound is not None), default=None)
    return potential
