# bench/roads.py: the roads of a map as the definitions say, for bench/agree and bench/traffic.
#
# It holds the map in plain form, towers, edges, lengths and values; models and the rules that they make with a profile; what a
# directed edge or a piece of one weighs at given limits; and the places of queries and the pieces that lead from and to them. What
# changes with the journal stands in bench/agree, distances and landmarks stand in bench/landmarks.py.
import json
import re
from collections import Counter, namedtuple
from decimal import Decimal
from functools import cached_property, partial
from math import isqrt

from math import isqrt

VEHICLES = ("car", "bike", "foot")
GREATEST_WEIGHT = 9007199254740991
MISSING_SPEED = 255
NUMBER = "(0|[1-9][0-9]*)"
SURFACES = ("missing paved asphalt concrete paving_stones cobblestone unpaved compacted gravel ground dirt grass sand other").split()
# of each kind of road the speeds of cars, of cars on its links (none where it has no links), of bikes, and on foot
SPEEDS = {
    "motorway": (100, 70, 0, 0), "trunk": (70, 65, 18, 5), "primary": (65, 60, 18, 5), "secondary": (60, 50, 18, 5),
    "tertiary": (50, 40, 18, 5), "unclassified": (30, None, 16, 5), "residential": (30, None, 18, 5),
    "living_street": (5, None, 6, 5), "service": (20, None, 12, 5), "track": (15, None, 12, 5), "path": (0, None, 10, 5),
    "footway": (0, None, 6, 5), "cycleway": (0, None, 18, 5), "pedestrian": (0, None, 6, 5), "steps": (0, None, 0, 2),
    "road": (20, None, 12, 5)}
ACCESS_KEYS = {"car": ("motorcar", "motor_vehicle", "vehicle", "access"), "bike": ("bicycle", "vehicle", "access"),
               "foot": ("foot", "access")}
# what a condition may name: words, truths, and numbers with the greatest value that is stored of each
WORDS = {"road_class": ["OTHER"] + [kind.upper() for kind in SPEEDS if kind != "road"],
         "surface": [surface.upper() for surface in SURFACES], "toll": ["MISSING", "ALL", "NO"]}
TRUTHS = ("road_class_link", "roundabout", "car_access", "bike_access", "foot_access")
GREATEST = {"lanes": 7, "max_speed": 254, "car_speed": 255, "bike_speed": 255, "foot_speed": 255}
COMPARISONS = {"==": (0,), "!=": (-1, 1), "<": (-1,), "<=": (-1, 0), ">": (1,), ">=": (0, 1)}

Edge = namedtuple("Edge", "base adjacent mm shape segments values")  # values forward and in reverse
Roads = namedtuple("Roads", "ids towers edges pieces")  # ids by tower number, tower numbers by id; pieces: all directed edges
Model = namedtuple("Model", "speed priority influence areas")
Statement = namedtuple("Statement", "branch test word name amount")  # amount: a constant, or the factor of the named number
Tower = namedtuple("Tower", "node")
Inside = namedtuple("Inside", "edge offset")
Piece = namedtuple("Piece", "edge reverse mm tail head")  # a tail or head of None is a place inside an edge

# input that this program doesn't judge; the first word of the reply to a model that isn't taken; what is wrong with a reply
Unjudged, Refused, Wrong = (type(name, (Exception,), {}) for name in ("Unjudged", "Refused", "Wrong"))

# raises the refusal unless the fact holds
def need(fact, refusal):
    if not fact:
        raise refusal

# the same for what has to be so in a text of JSON, and in a model
need_json, need_model = (partial(need, refusal=Refused(word)) for word in ("badjson", "badmodel"))

# the number of a decimal times 10 to `places`, or none where the text isn't one
def decimal(text, places, sign="-?"):
    found = re.fullmatch("(%s)([0-9]{1,9})(?:[.]([0-9]{1,%d}))?" % (sign, places), text)
    return found and (-1 if found[1] == "-" else 1) * int(found[2] + (found[3] or "").ljust(places, "0"))

# ---- the map and its roads

# the tags of a field, with escapes undone; of a repeated key the first counts
def read_tags(field):
    tags = {}
    for tag in field.split(",") if field else ():
        key, value = (re.sub("%([0-9a-fA-F]{1,6})%", lambda found: chr(int(found[1], 16)), part) for part in tag.split("="))
        tags.setdefault(key, value)
    return tags

# the places of nodes by id, and the ways as pairs of tags and node ids
def read_map(text):
    nodes, ways = {}, []
    for line in text.split("\n"):
        if not line or line[0] in "#r":
            continue
        head, *words = line.split(" ")
        fields = {word[0]: word[1:] for word in words}
        if head[0] == "n":
            point = tuple(decimal(fields[letter], 7) for letter in "yx")
            need(int(head[1:]) not in nodes and None not in point, Unjudged("map line: " + line))
            nodes[int(head[1:])] = point
        else:
            need(head[0] == "w", Unjudged("map line: " + line))
            ways.append((read_tags(fields.get("T")), [int(ref[1:]) for ref in fields.get("N", "").split(",") if ref]))
    return nodes, ways

# the greatest speed that a way allows in km/h, or that it is missing
def max_speed_of(tags):
    found = re.fullmatch("([0-9]{1,3})( mph)?", tags.get("maxspeed", ""))
    speed = int(found[1]) * (1609344 if found[2] else 1000000) // 1000000 if found else 0
    return min(speed, 254) or MISSING_SPEED

# whether the tags bar a vehicle from a direction, by access or because the way is one-way
def is_barred(tags, vehicle, reverse):
    access = [tags[key] for key in ACCESS_KEYS[vehicle] if key in tags]
    if access and access[0] in ("no", "private"):
        return True
    if vehicle == "foot" or vehicle == "bike" and tags.get("oneway:bicycle") == "no":
        return False
    if "oneway" in tags:
        return tags["oneway"] in (("yes", "true", "1") if reverse else ("-1", "reverse"))
    return reverse and (tags["highway"] in ("motorway", "motorway_link") or tags.get("junction") == "roundabout")

# the values of a way forward and in reverse, or none where no vehicle may use it
def values_of(tags):
    kind, link = re.fullmatch("(.*?)(_link)?", tags.get("highway", ""), re.DOTALL).groups()
    if kind not in SPEEDS or link and SPEEDS[kind][1] is None:
        return None
    car, car_on_link, bike, foot = SPEEDS[kind]
    max_speed, car = max_speed_of(tags), car_on_link if link else car
    if max_speed != MISSING_SPEED and car:
        car = max(1, 9 * max_speed // 10)
    surface, toll, lanes = tags.get("surface"), tags.get("toll"), tags.get("lanes", "")
    values = {"road_class": "OTHER" if kind == "road" else kind.upper(), "road_class_link": bool(link),
              "roundabout": tags.get("junction") == "roundabout", "lanes": int(lanes) if re.fullmatch("[1-7]", lanes) else 1,
              "surface": "MISSING" if surface is None else surface.upper() if surface in SURFACES else "OTHER",
              "toll": "MISSING" if toll is None else "ALL" if toll == "yes" else "NO", "max_speed": max_speed}
    both = []
    for reverse in (False, True):
        speeds = {vehicle: 0 if is_barred(tags, vehicle, reverse) else speed
                  for vehicle, speed in zip(VEHICLES, (car, bike, foot))}
        both.append({**values, **{vehicle + "_speed": speed for vehicle, speed in speeds.items()},
                     **{vehicle + "_access": speed > 0 for vehicle, speed in speeds.items()}})
    return both if any(direction[vehicle + "_access"] for direction in both for vehicle in VEHICLES) else None

# a difference of longitudes, scaled to a latitude
def scaled(difference, latitude):
    whole = 3240000000000000000
    size = abs(difference) * (whole - 4 * latitude * latitude) // (whole + latitude * latitude)
    return size if difference >= 0 else -size

# the length of a segment in mm
def segment_mm(a, b):
    dx, dy = scaled(b[1] - a[1], (a[0] + b[0]) // 2), b[0] - a[0]
    return isqrt((dx * dx + dy * dy) * 1000000) * 111194927 // 10000000000

# the towers and edges of a map
def roads_of(nodes, ways):
    used = []
    for tags, refs in ways:
        merged = [ref for place, ref in enumerate(refs) if place == 0 or refs[place - 1] != ref]
        values = values_of(tags)
        if values and len(merged) >= 2:
            used.append((values, merged))
    count = Counter(ref for _, refs in used for ref in refs)
    is_tower = {ref for ref in count if count[ref] > 1} | {refs[end] for _, refs in used for end in (0, -1)}
    roads = Roads([], {}, [], [])
    for values, refs in used:
        cuts = [place for place, ref in enumerate(refs) if ref in is_tower]
        for first, last in zip(cuts, cuts[1:]):
            add_edge(roads, nodes, refs[first:last + 1], values)
    return roads

# puts an edge behind the others, and its towers where they are new
def add_edge(roads, nodes, refs, values):
    for ref in (refs[0], refs[-1]):
        if ref not in roads.towers:
            roads.towers[ref] = len(roads.ids)
            roads.ids.append(ref)
    shape = [nodes[ref] for ref in refs]
    segments = [segment_mm(a, b) for a, b in zip(shape, shape[1:])]
    number = len(roads.edges)
    roads.edges.append(Edge(roads.towers[refs[0]], roads.towers[refs[-1]], sum(segments), shape, segments, values))
    roads.pieces.extend(whole_pieces(roads, number))

# ---- models

# a number of JSON, with no exponent above 0
def json_number(text):
    exponent = re.search("[eE][+-]?([0-9]+)", text)
    need_json(not exponent or len(exponent[1]) <= 4)
    _, digits, power = Decimal(text).as_tuple()
    digits, places = int("".join(map(str, digits))) * 10 ** max(power, 0), max(-power, 0)
    need_json(digits < 10 ** 18 and places <= 18)
    return Decimal((int(text[0] == "-" and digits > 0), tuple(map(int, str(digits))), -places))

# an object of JSON, whose keys have to differ
def json_object(pairs):
    need_json(len(dict(pairs)) == len(pairs))
    return dict(pairs)

# how deep the brackets of a value of JSON stand in each other
def depth_of(value):
    inner = value.values() if isinstance(value, dict) else value if isinstance(value, list) else None
    return 0 if inner is None else 1 + max(map(depth_of, inner), default=0)

# the value of a text of JSON
def read_json(text):
    try:
        value = json.loads(text, parse_float=json_number, parse_int=json_number, object_pairs_hook=json_object,
                           parse_constant=lambda word: need_json(False))
        need_json(depth_of(value) <= 64)
        json.dumps(value, ensure_ascii=False, default=str).encode()  # half a surrogate pair has no bytes
        return value
    except (ValueError, RecursionError):
        raise Refused("badjson") from None

# a value of JSON that has to be of a kind
def of_kind(value, kind):
    need_model(isinstance(value, kind))
    return value

# the text of a number or of a text that says one
def number_text(value):
    return format(of_kind(value, (str, Decimal)), "f" if isinstance(value, Decimal) else "")

# the tokens of a condition or an expression
def tokens_of(text):
    return re.findall("[A-Za-z_][A-Za-z0-9_]*|[0-9.]+|==|!=|<=|>=|&&|[|][|]|[^ ]", text)

# takes the next token: this one, or any where none is named
def take(tokens, token=None):
    need_model(tokens and (token is None or tokens[0] == token))
    return tokens.pop(0)

# a test of values and areas, as a function, from the text of a condition
def read_condition(text, areas):
    need_model(len(of_kind(text, str).encode()) <= 1000 and text.count("(") <= 32)
    tokens = tokens_of(text)
    test = read_joined(tokens, areas)
    need_model(not tokens)
    return test

# tests of which one has to hold, each of tests which all have to hold
def read_joined(tokens, areas):
    choices = [[read_test(tokens, areas)]]
    while tokens[:1] in (["||"], ["&&"]):
        if take(tokens) == "||":
            choices.append([])
        choices[-1].append(read_test(tokens, areas))
    return lambda values, lies_in: any(all(test(values, lies_in) for test in tests) for tests in choices)

# a test that is turned round, in brackets, or a name with what belongs to it
def read_test(tokens, areas):
    name = take(tokens)
    if name == "!":
        inner = read_test(tokens, areas)
        return lambda values, lies_in: not inner(values, lies_in)
    if name == "(":
        inner = read_joined(tokens, areas)
        take(tokens, ")")
        return inner
    if name in ("true", "false"):
        return lambda values, lies_in: name == "true"
    if name in TRUTHS:
        return lambda values, lies_in: values[name]
    if name.startswith("in_"):
        need_model(name[3:] in areas)
        return lambda values, lies_in: name[3:] in lies_in
    operator, constant = take(tokens), take(tokens)
    need_model(operator in COMPARISONS)
    if name in WORDS:
        need_model(operator in ("==", "!=") and constant in WORDS[name])
        return lambda values, lies_in: (values[name] == constant) == (operator == "==")
    number = decimal(constant, 3, sign="")
    need_model(name in GREATEST and number is not None)
    return lambda values, lies_in: (1000 * values[name] > number) - (1000 * values[name] < number) in COMPARISONS[operator]

# the name (or none) and the amount of an action's value, for a constant of at most so many places and not above a greatest
def read_amount(value, places, greatest):
    if isinstance(value, str) and re.search("[A-Za-z_*]", value):
        tokens = tokens_of(value)
        name, times, factor = tokens if len(tokens) == 3 else tokens + ["*", "1"] if len(tokens) == 1 else ("", "", "")
        name, factor = (name, factor) if name in GREATEST else (factor, name)
        amount = decimal(factor, 6, sign="")
        need_model(name in GREATEST and times == "*" and amount is not None and amount <= 10000000)
        return name, amount
    amount = decimal(number_text(value), places)
    need_model(amount is not None and 0 <= amount <= greatest * 10 ** places)
    return None, amount

# the statements of a list of a model
def read_statements(items, part, areas):
    need_model(len(of_kind(items, list)) <= 100)
    statements = []
    for item in items:
        need_model(len(of_kind(item, dict)) == 2)
        branch, word = sorted(item, key=("if", "else_if", "else").__contains__, reverse=True)
        need_model(branch in ("if", "else_if", "else") and word in ("multiply_by", "limit_to"))
        need_model(branch == "if" or statements and statements[-1].branch != "else")
        need_model(branch != "else" or item[branch] in ("", None))
        test = read_condition("true" if branch == "else" else item[branch], areas)
        places, greatest = (3, 1000) if part == "speed" and word == "limit_to" else (6, 10)
        statements.append(Statement(branch, test, word, *read_amount(item[word], places, greatest)))
    return statements

# the rings of each area by its id
def read_areas(value):
    areas = {}
    need_model(of_kind(value, dict).get("type") == "FeatureCollection" and len(of_kind(value.get("features"), list)) <= 50)
    for feature in value["features"]:
        need_model(of_kind(feature, dict).get("type") == "Feature")
        name, geometry = of_kind(feature.get("id"), str), of_kind(feature.get("geometry"), dict)
        need_model(re.fullmatch("[A-Za-z_][A-Za-z0-9_]*", name) and name not in areas)
        need_model(geometry.get("type") in ("Polygon", "MultiPolygon"))
        polygons = geometry.get("coordinates") if geometry["type"] == "MultiPolygon" else [geometry.get("coordinates")]
        need_model(all(of_kind(polygon, list) for polygon in of_kind(polygons, list)))
        areas[name] = [read_ring(ring) for polygon in polygons for ring in polygon]
    need_model(sum(len(ring) for rings in areas.values() for ring in rings) <= 10000)
    return areas

# the points of a ring, each rounded down
def read_ring(ring):
    points = []
    for position in of_kind(ring, list):
        need_model(len(of_kind(position, list)) >= 2)
        longitude, latitude = (int(of_kind(number, Decimal).scaleb(7).to_integral_value("ROUND_FLOOR")) for number in position[:2])
        need_model(abs(latitude) <= 900000000 and abs(longitude) <= 1800000000)
        points.append((latitude, longitude))
    need_model(len(points) >= 4 and points[0] == points[-1])
    return points

# the model that a text is, or the refusal
def read_model(text):
    value = of_kind(read_json(text), dict)
    need_model(set(value) <= {"speed", "priority", "distance_influence", "areas"})
    areas = read_areas(value["areas"]) if "areas" in value else {}
    speed, priority = (read_statements(value.get(part, []), part, areas) for part in ("speed", "priority"))
    influence = value.get("distance_influence")
    if "distance_influence" in value:
        zeros = "([.]0+)?" if isinstance(influence, Decimal) else ""
        need_model(re.fullmatch("-?[0-9]{1,9}" + zeros, number_text(influence)) and 0 <= int(influence) <= 100000)
        influence = int(influence)
    return Model(speed, priority, influence, areas)

# the first thing by which a query's model may speed a profile's up, as a reply says it, or none
def speeding_of(profile_model, model):
    for part in ("speed", "priority"):
        for item, statement in enumerate(getattr(model, part), 1):
            greatest = statement.amount * GREATEST.get(statement.name, 1)
            if statement.word == "multiply_by" and greatest > 1000000:
                return "speeding %s %d %d" % (part, item, greatest)
    if model.influence is not None and model.influence < (profile_model.influence or 0):
        return "speeding distance_influence 0 %d" % model.influence
    return None

# whether a point lies in an area or on its border
def is_inside(rings, point):
    latitude, longitude = point
    is_odd = False
    for a, b in (pair for ring in rings for pair in zip(ring, ring[1:])):
        side = (b[0] - a[0]) * (longitude - a[1]) - (b[1] - a[1]) * (latitude - a[0])
        if side == 0 and all(min(a[axis], b[axis]) <= point[axis] <= max(a[axis], b[axis]) for axis in (0, 1)):
            return True
        if (a[0] > latitude) != (b[0] > latitude):
            is_odd ^= (side < 0) == (b[0] > a[0])  # the crossing lies beyond the point
    return is_odd

# what the statements of one list make of a number: of each block the first that is true acts
def run_statements(statements, part, values, lies_in, number):
    is_settled = False
    for statement in statements:
        is_settled = is_settled and statement.branch != "if"
        if not is_settled and statement.test(values, lies_in):
            is_settled = True
            number = act(statement, part, values, number)
    return number

# what the action of a statement makes of a number
def act(statement, part, values, number):
    amount = statement.amount
    if statement.name:
        if statement.name == "max_speed" and values["max_speed"] == MISSING_SPEED:
            return number
        amount *= values[statement.name]
        if statement.word == "limit_to" and part == "speed":
            amount //= 1000
    return min(number, amount) if statement.word == "limit_to" else min(number * amount // 1000000, 1000000000)

# ---- weights, places and walks

# both directions of a whole edge
def whole_pieces(roads, number):
    edge = roads.edges[number]
    return [Piece(number, False, edge.mm, edge.base, edge.adjacent), Piece(number, True, edge.mm, edge.adjacent, edge.base)]

# the pieces that lead from a place inside an edge to its ends
def pieces_out(roads, place):
    forward, reverse = whole_pieces(roads, place.edge)
    return [forward._replace(mm=forward.mm - place.offset, tail=None), reverse._replace(mm=place.offset, tail=None)]

# the pieces that lead to a place inside an edge from its ends
def pieces_in(roads, place):
    forward, reverse = whole_pieces(roads, place.edge)
    return [forward._replace(mm=place.offset, head=None), reverse._replace(mm=reverse.mm - place.offset, head=None)]

# the pieces that lead from a place inside an edge to another inside the same
def pieces_between(start, target):
    if isinstance(start, Tower) or isinstance(target, Tower) or start.edge != target.edge:
        return []
    further = target.offset - start.offset
    return [Piece(start.edge, reverse, abs(further), None, None) for reverse in (False, True)
            if (further <= 0 if reverse else further >= 0)]

# the limits that stand before the first change, by directed edge: forward and then in reverse of each edge in order
def opening_limits(roads):
    return [1000 * max(values[vehicle + "_speed"] for vehicle in VEHICLES) for edge in roads.edges for values in edge.values]

class Rule:
    """a profile, with or without a query's model, over the roads: how a directed edge is driven under a limit"""

    def __init__(self, roads, vehicle, models):
        self.roads, self.vehicle, self.models = roads, vehicle, models
        self.influence = next((model.influence for model in reversed(models) if model.influence is not None), 0)
        self.lies_in = [[{name for name, rings in model.areas.items() if any(is_inside(rings, point) for point in edge.shape)}
                         for model in models] for edge in roads.edges]
        self.paces = {}
        self.pieces_from, self.pieces_to = [[] for _ in roads.ids], [[] for _ in roads.ids]
        for piece in roads.pieces:
            self.pieces_from[piece.tail].append(piece)
            self.pieces_to[piece.head].append(piece)

    # speed times priority as the statements of the models make them, one model after the other; 0 where there is no weight
    def pace(self, number, reverse, limit):
        values = self.roads.edges[number].values[reverse]
        start = min(1000 * values[self.vehicle + "_speed"], limit)
        if start == 0:
            return 0
        if (number, reverse, start) not in self.paces:
            speed, priority = start, 1000000
            for model, names in zip(self.models, self.lies_in[number]):
                speed = run_statements(model.speed, "speed", values, names, speed)
                priority = run_statements(model.priority, "priority", values, names, priority)
            self.paces[number, reverse, start] = speed * priority
        return self.paces[number, reverse, start]

class Weights:
    """a rule at given limits: what each piece weighs, and the hops of each tower"""

    def __init__(self, rule, limits):
        self.roads, self.rule, self.limits = rule.roads, rule, limits

    # the weight of a piece, or none
    def weight(self, piece):
        pace = self.rule.pace(piece.edge, piece.reverse, self.limits[2 * piece.edge + piece.reverse])
        return -(-3600 * piece.mm * 1000000 // pace) - (-piece.mm * self.rule.influence // 1000) if pace else None

    # of each tower the hops that have a weight, as weight and tower: to where they lead, and from where they come
    @cached_property
    def hops(self):
        nodes = range(len(self.roads.ids))
        return [self.leaving(node) for node in nodes], [self.coming(node) for node in nodes]

    # the hops that leave a tower
    def leaving(self, node):
        pairs = ((self.weight(piece), piece.head) for piece in self.rule.pieces_from[node])
        return [pair for pair in pairs if pair[0] is not None]

    # the hops that come to a tower
    def coming(self, node):
        pairs = ((self.weight(piece), piece.tail) for piece in self.rule.pieces_to[node])
        return [pair for pair in pairs if pair[0] is not None]

    # the same rule where some directed edges have other limits
    def with_limits(self, others):
        weights = Weights(self.rule, list(self.limits))
        leaving, coming = (list(hops) for hops in self.hops)
        for directed, limit in others:
            weights.limits[directed] = limit
        for piece in [self.roads.pieces[directed] for directed, _ in others]:
            leaving[piece.tail], coming[piece.head] = weights.leaving(piece.tail), weights.coming(piece.head)
        weights.hops = leaving, coming
        return weights

# the square of the distance from a point to an edge, and the offset of the foot
def foot_on(edge, point):
    latitude, longitude = point
    seen = [(scaled(each[1] - longitude, latitude), each[0] - latitude) for each in edge.shape]
    least, before = None, 0
    for (ax, ay), (bx, by), mm in zip(seen, seen[1:], edge.segments):
        dx, dy = bx - ax, by - ay
        along, square = -(ax * dx + ay * dy), dx * dx + dy * dy
        if along <= 0 or square == 0:
            foot = (ax * ax + ay * ay, before)
        elif along >= square:
            foot = (bx * bx + by * by, before + mm)
        else:
            foot = ((ax * by - ay * bx) ** 2 // square, before + mm * along // square)
        if least is None or foot[0] < least[0]:
            least = foot
        before += mm
    return least

# the edges of which some direction has a weight
def usable_edges(weights):
    return sorted({piece.edge for piece in weights.roads.pieces if weights.weight(piece) is not None})

# the place of a point on the nearest of some edges, or none
def snap(roads, usable, point):
    feet = ((foot_on(roads.edges[number], point), number) for number in usable)
    least = min(((square, number, offset) for (square, offset), number in feet), default=None)
    if least is None:
        return None
    _, number, offset = least
    edge = roads.edges[number]
    if offset == 0:
        return Tower(edge.base)
    return Tower(edge.adjacent) if offset == edge.mm else Inside(number, offset)

# the pieces of which a printed list of directed edges is the walk
def pieces_of(roads, start, target, hops):
    is_inside_start, is_inside_target = isinstance(start, Inside), isinstance(target, Inside)
    need(not hops or start != target or is_inside_start, Wrong("the walk from a tower to itself has to be empty"))
    at, pieces = None if is_inside_start else start.node, []
    for place, (number, reverse) in enumerate(hops):
        need(number < len(roads.edges), Wrong("there is no edge %d" % number))
        is_first, is_last = place == 0 and is_inside_start, place == len(hops) - 1 and is_inside_target
        fitting = (pieces_between(start, target) if is_first and is_last else pieces_out(roads, start) if is_first
                   else pieces_in(roads, target) if is_last else whole_pieces(roads, number))
        fitting = [piece for piece in fitting if (piece.edge, piece.reverse, piece.tail) == (number, reverse, at)]
        need(fitting, Wrong("the walk can't go on with %d%s" % (number, "-" if reverse else "+")))
        pieces += fitting
        at = fitting[0].head
    is_at_target = bool(hops) if is_inside_target else at == target.node
    need(is_at_target, Wrong("the walk doesn't end at the target"))
    return pieces
