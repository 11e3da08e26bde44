"""What is known of a table's columns: the family of values that each is declared for, the forms of its instants, whether it may be NULL, and its
reference system."""
import functools
import re

from .writing import RUST

NUMBER, TEXT, DATE, DATETIME, TIMESTAMP, BOOLEAN, GEOMETRY, UNKNOWN = 'number', 'text', 'date', 'DATETIME', 'timestamp', 'boolean', 'geometry', 'unknown'
TEXTS = {TEXT, DATE, DATETIME, TIMESTAMP}    # SQLite holds and compares all of these as texts
NUMBERS = {NUMBER, BOOLEAN}
GEOMETRIES = ('GEOMETRY', 'POINT', 'LINESTRING', 'POLYGON', 'MULTIPOINT', 'MULTILINESTRING', 'MULTIPOLYGON', 'GEOMETRYCOLLECTION')


def family(declared):
    """By GeoPackage's names of types, and for others by the rules that SQLite takes a column's affinity from."""
    name = re.sub(r'\(.*', '', declared or '').strip().upper()
    if name in ('DATETIME', 'TIMESTAMP'):
        return DATETIME
    for words, found in ((('DATE',), DATE), (('BOOLEAN', 'BOOL'), BOOLEAN), (GEOMETRIES, GEOMETRY)):
        if name in words:
            return found
    if 'INT' in name:
        return NUMBER
    if any(word in name for word in ('CHAR', 'CLOB', 'TEXT')):
        return TEXT
    return NUMBER if any(word in name for word in ('REAL', 'FLOA', 'DOUB', 'NUMERIC', 'DECIMAL')) else UNKNOWN


class Column:
    def __init__(self, declared='', nullable=True, srid=None):
        self.family, self.nullable, self.srid = family(declared), nullable, srid
        self.whole = 'INT' in (declared or '').upper()
        self.fraction = any(word in (declared or '').upper() for word in ('REAL', 'FLOA', 'DOUB'))


STORED = '2026-03-01T12:00:00.000Z'    # an instant of a DATETIME column, as GeoPackage has it


def form(text):
    """The form of an instant: 0 for each digit."""
    return re.sub('[0-9]', '0', text)


def declared_form(column):
    """Of the instants that a column is declared for, where it is known: an example, by its form."""
    return {form(STORED): STORED} if column.family == DATETIME else {}


class NoTable:
    """Where there is no GeoPackage at hand: any column may hold anything. `srid` is that of written geometries, `writing` that of timestamps."""
    open, spatialite = False, False

    def __init__(self, srid, writing=RUST):
        self.srid, self.writing = srid, writing

    def column(self, name):
        return Column()

    def held(self, name):
        return {}

    def forms(self, name):
        return {}

    def has_null(self, name):
        return True

    def is_geometry(self, name):
        return True

    def collation(self, name):
        return 'BINARY'

    def encoding(self):
        return 'UTF-8'


class Table:
    """A GeoPackage's table; `srid` and `writing` as above."""
    open = True

    def __init__(self, package, name, spatialite, srid, writing):
        self.package, self.name, self.spatialite, self.srid, self.writing = package, name, spatialite, srid, writing
        self.held = functools.lru_cache(None)(self.held)    # asked for each place of a filter
        systems = package.geometries(name)
        self.columns = {column.lower(): Column(declared, nullable, systems.get(column.lower())) for column, declared, nullable in package.declared(name)}

    def column(self, name):
        return self.columns.get(name.lower(), Column())

    def held(self, name):
        """Of the instants that the column holds an example of each form."""
        return self.package.forms(self.name, name)

    def forms(self, name):
        """The same; where it holds none, of those that it is declared for."""
        return self.held(name) or declared_form(self.column(name))

    def has_null(self, name):
        return self.column(name).nullable and self.package.has_null(self.name, name)

    def is_geometry(self, name):
        return self.column(name).srid is not None

    def collation(self, name):
        return self.package.collation(self.name, name)

    def encoding(self):
        return self.package.encoding()
