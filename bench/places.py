# bench/places.py: random places and models on a map, for the scripts that bench/pairs and bench/traffic make.
#
# It holds the nodes and junctions of a map in plain form, points near its junctions as the words of a script, and two models that
# slow roads: some classes of them by conditions, and those in an area in the middle of the junctions.
import json
from collections import Counter
from decimal import Decimal

# the nodes of a map and its junctions, which ways name more than once, as pairs of latitude and longitude in 1e-7 degree
def read_points(map_name):
    nodes, count = {}, Counter()
    with open(map_name, encoding="utf-8", newline="\n") as lines:
        for line in lines:
            head, *words = line.split() or ["#"]
            fields = {word[0]: word[1:] for word in words}
            if head[0] == "n":
                nodes[head] = tuple(int(Decimal(fields[axis]).scaleb(7)) for axis in "yx")
            elif head[0] == "w":
                count.update(fields.get("N", "").split(","))
    junctions = [node for name, node in nodes.items() if count[name] > 1]
    return list(nodes.values()), junctions or list(nodes.values())

# a whole number of 1e-7 degree as a decimal
def degrees(number):
    return "%s%d.%07d" % ("-" if number < 0 else "", abs(number) // 10 ** 7, abs(number) % 10 ** 7)

# the bounds of some points, of latitude and of longitude
def bounds_of(nodes):
    return [(min(axis), max(axis)) for axis in zip(*nodes)]

# a random point within the bounds as the word of a script, nine times of ten near a junction
def random_point(chance, junctions, bounds):
    point = [chance.randint(least, greatest) for least, greatest in bounds]
    if chance.random() < 0.9:
        near = [number + chance.randint(-20000, 20000) for number in chance.choice(junctions)]
        point = [min(max(number, least), greatest) for number, (least, greatest) in zip(near, bounds)]
    return ",".join(degrees(number) for number in point)

# the text of a model that slows some classes of roads
def slow_classes():
    return json.dumps({"speed": [{"if": "road_class == RESIDENTIAL || road_class == SERVICE", "multiply_by": "0.5"},
                                 {"else_if": "max_speed > 50 && !roundabout", "limit_to": "max_speed * 0.8"}],
                       "priority": [{"if": "road_class_link", "multiply_by": "0.7"}], "distance_influence": 30})

# the text of a model that slows the roads in a triangle round the middle of the junctions
def slow_area(junctions):
    quarter = len(junctions) // 4
    (south, north), (west, east) = ((sorted(axis)[quarter], sorted(axis)[-1 - quarter]) for axis in zip(*junctions))
    corners = [(west, south), (east, south), ((west + east) // 2, north), (west, south)]
    ring = "[%s]" % ",".join("[%s,%s]" % (degrees(longitude), degrees(latitude)) for longitude, latitude in corners)
    model = {"speed": [{"if": "in_middle", "multiply_by": "0.6"}, {"else": "", "limit_to": 45.5}],
             "priority": [{"if": "in_middle && lanes < 2", "multiply_by": "0.85"}],
             "areas": {"type": "FeatureCollection", "features": [
                 {"type": "Feature", "id": "middle", "geometry": {"type": "Polygon", "coordinates": ["RING"]}}]}}
    return json.dumps(model).replace('"RING"', ring)
