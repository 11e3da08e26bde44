"""GeoJSON geometries and bounding boxes as well-known text (WKT)."""
from .errors import BadInput
from .reading import Number

# How deep a type's positions lie in its coordinates: a Point is a position, a Polygon a list of lists of them.
DEPTH = {'Point': 0, 'LineString': 1, 'MultiPoint': 1, 'Polygon': 2, 'MultiLineString': 2, 'MultiPolygon': 3}


class Writer:
    """Writes coordinates to a number of digits after the point, closing zeros dropped."""

    def __init__(self, precision):
        self.precision = precision

    def geometry(self, value, place, sizes=None):
        """The text; `sizes` takes up how many numbers its positions have."""
        sizes = set() if sizes is None else sizes
        kind = value.get('type')
        if kind == 'GeometryCollection':
            return self.collection(value, place)
        if not isinstance(kind, str) or kind not in DEPTH:
            raise BadInput('unknown geometry type %s; known: %s, GeometryCollection' % (shown(kind), ', '.join(DEPTH)), place)
        only(value, ('type', 'coordinates', 'bbox'), place)
        at = place + '.coordinates'
        coordinates = value.get('coordinates')
        text = self.lists(coordinates, DEPTH[kind], at, sizes)
        if len(sizes) != 1:
            raise BadInput('positions of two and of three numbers are mixed' if sizes else 'there are no positions', at)
        check_shape(kind, coordinates, at)
        if kind == 'MultiPoint':
            text = '(%s)' % ', '.join('(%s)' % self.position(p, at, sizes) for p in coordinates)
        if kind == 'Point':
            text = '(%s)' % text
        return '%s %s%s' % (kind.upper(), 'Z ' if sizes == {3} else '', text)

    def collection(self, value, place):
        only(value, ('type', 'geometries', 'bbox'), place)
        items = value.get('geometries')
        if not isinstance(items, list) or not items:
            raise BadInput('a GeometryCollection has a list of geometries', place)
        texts, sizes = [], set()
        for k, item in enumerate(items):
            at = '%s.geometries[%d]' % (place, k)
            if not isinstance(item, dict) or item.get('type') == 'GeometryCollection':
                raise BadInput('a GeometryCollection holds simple geometries', at)
            texts.append(self.geometry(item, at, sizes))
        return 'GEOMETRYCOLLECTION %s(%s)' % ('Z ' if sizes == {3} else '', ', '.join(texts))

    def lists(self, value, depth, place, sizes):
        if depth == 0:
            return self.position(value, place, sizes)
        if not isinstance(value, list) or not value:
            raise BadInput('a list of %s is due' % ('positions' if depth == 1 else 'lists of positions'), place)
        return '(%s)' % ', '.join(self.lists(v, depth - 1, '%s[%d]' % (place, k), sizes) for k, v in enumerate(value))

    def position(self, value, place, sizes):
        if not isinstance(value, list) or len(value) not in (2, 3) or not all(isinstance(x, Number) for x in value):
            raise BadInput('a position is a list of two or three numbers', place)
        sizes.add(len(value))
        return ' '.join(self.coordinate(x, place) for x in value)

    def coordinate(self, number, place):
        point, places = number.point(), self.precision
        if point > 15:
            raise BadInput('the coordinate %r has more than 15 digits before the point' % number, place)
        if not number.digits or point < -places:
            return '0'
        whole = number.digits[:max(point, 0)].ljust(max(point, 0), '0') or '0'
        part = '0' * -point + number.digits[max(point, 0):]
        scaled = int(whole + part[:places].ljust(places, '0'))
        # with no digits after the point the Rust shows the whole part alone, without rounding
        if places and part[places:places + 1] >= '5':
            scaled += 1
        text = str(scaled).rjust(places + 1, '0')
        whole, part = text[:len(text) - places], text[len(text) - places:].rstrip('0')
        return ('-' if number.negative and scaled else '') + whole + ('.' + part if part else '')

    def box(self, value, place):
        """A bounding box as the polygon of its corners; two where it crosses the meridian of 180 degrees."""
        at = place + '.bbox'
        numbers = value['bbox']
        only(value, ('bbox',), place)
        if not isinstance(numbers, list) or len(numbers) not in (4, 6) or not all(isinstance(x, Number) for x in numbers):
            raise BadInput('a bbox has four or six numbers', at)
        half = len(numbers) // 2
        west, south, east, north = (self.coordinate(x, at) for x in numbers[:2] + numbers[half:half + 2])
        if float(south) > float(north):
            raise BadInput('a bbox has its southern edge before its northern', at)
        if float(west) > float(east) and not -180 <= float(east) < float(west) <= 180:
            raise BadInput('a bbox has its western edge first, unless it crosses the meridian of 180 degrees', at)
        ring = '((%s %s, %s %s, %s %s, %s %s, %s %s))'
        corners = lambda w, e: ring % (w, south, e, south, e, north, w, north, w, south)
        if float(west) <= float(east):
            return 'POLYGON ' + corners(west, east)
        return 'MULTIPOLYGON (%s, %s)' % (corners(west, '180'), corners('-180', east))


def only(value, names, place):
    """Nothing is passed over in silence: a `crs`, say, would change what the numbers mean."""
    for name in value:
        if name not in names:
            raise BadInput('unexpected member "%s"' % name[:40], place)


def shown(value):
    return '"%s"' % value[:40] if isinstance(value, str) else 'of another kind than a text'


def check_shape(kind, value, place):
    lines = {'LineString': [value], 'MultiLineString': value}.get(kind, [])
    rings = {'Polygon': value}.get(kind, [r for p in value for r in p] if kind == 'MultiPolygon' else [])
    if any(len(line) < 2 for line in lines):
        raise BadInput('a line has at least two positions', place)
    same = lambda p, q: [(x.digits, x.power, x.negative) for x in p] == [(x.digits, x.power, x.negative) for x in q]
    if any(len(ring) < 4 or not same(ring[0], ring[-1]) for ring in rings):
        raise BadInput('a ring has at least four positions and ends where it starts', place)
