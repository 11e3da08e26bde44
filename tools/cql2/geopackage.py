"""A GeoPackage, opened to be read: its tables, the rows that a condition selects, the collations and spatial functions that a text may name."""
import os
import sqlite3
import sys
import time
import unicodedata
from urllib.parse import quote

from .errors import BadInput, some

APPLICATION_IDS = (0x47504B47, 0x47503130, 0x47503131)    # GPKG; GP10 and GP11 of versions 1.0 and 1.1


def is_mark(c):
    return unicodedata.category(c).startswith('M')


def without_accents(text):
    """As in the Rust's cmp_ai: decomposed, marks left out, composed again."""
    return unicodedata.normalize('NFC', ''.join(c for c in unicodedata.normalize('NFD', text) if not is_mark(c)))


def collation(key):
    """Compares by the code points of what `key` makes of a text."""
    def compare(a, b):
        a, b = key(a), key(b)
        return (a > b) - (a < b)
    return compare


class GeoPackage:
    def __init__(self, path, collations, spatialite=False):
        """Opens the file; `collations` are the names for: letter case, accents, both ignored."""
        self.path = path
        try:
            with open(path, 'rb') as f:
                start = f.read(16)
        except OSError as e:
            raise BadInput('cannot read %s: %s' % (path, e.strerror))
        if start != b'SQLite format 3\0':
            raise BadInput('%s is no GeoPackage: it is no SQLite file' % path)
        try:
            self.open(collations, spatialite)
        except sqlite3.Error as e:
            raise BadInput('cannot open %s: %s' % (path, e))

    def open(self, collations, spatialite):
        self.connection = sqlite3.connect('file:%s?mode=ro' % quote(os.fsencode(os.path.abspath(self.path))), uri=True)
        self.connection.text_factory = lambda data: data.decode('utf-8', 'replace')
        if self.connection.execute('PRAGMA application_id').fetchone()[0] not in APPLICATION_IDS:
            raise BadInput('%s is no GeoPackage: its application_id is another' % self.path)
        if not self.connection.execute("SELECT 1 FROM sqlite_master WHERE name = 'gpkg_contents'").fetchone():
            raise BadInput('%s is no GeoPackage: it has no table gpkg_contents' % self.path)
        for name, key in zip(collations, (str.lower, without_accents, lambda text: without_accents(text.lower()))):
            self.connection.create_collation(name, collation(key))
        if spatialite:
            self.load_spatialite()

    def load_spatialite(self):
        if not hasattr(self.connection, 'enable_load_extension'):
            raise BadInput('this Python cannot load SQLite extensions; Debian\'s can: /usr/bin/python3 %s ..' % sys.argv[0])
        try:
            self.connection.enable_load_extension(True)
            self.connection.load_extension('mod_spatialite')
        except sqlite3.Error:
            raise BadInput('SpatiaLite is not there: apt-get install -y libsqlite3-mod-spatialite')
        self.connection.execute('SELECT EnableGpkgAmphibiousMode()')    # its functions then take a GeoPackage's geometries

    def table(self, name):
        """The table of that name, or the only one with rows of features or attributes."""
        found = [row[0] for row in self.ask(
            "SELECT table_name FROM gpkg_contents WHERE typeof(table_name) = 'text' AND data_type IN ('features', 'attributes') ORDER BY 1")]
        if name is None and len(found) == 1:
            name = found[0]
        if name is None:
            has = 'the tables ' + some(found) if found else 'no table of features or attributes'
            raise BadInput('%s has %s; name one with --table' % (self.path, has))
        if name not in found:
            raise BadInput('%s has no table "%s"; it has %s' % (self.path, name, some(found) or 'none'))
        if not self.columns(name):
            raise BadInput('%s lists a table "%s" that is not there' % (self.path, name))
        return name

    def columns(self, table):
        """As SELECT * has them: generated ones too, hidden ones of virtual tables not."""
        return [row[1] for row in self.ask('PRAGMA table_xinfo(%s)' % quoted(table)) if row[6] != 1]

    def declared(self, table):
        """For each column its name, its declared type, and whether it may be NULL."""
        for _, name, kind, not_null, _, key, hidden in self.ask('PRAGMA table_xinfo(%s)' % quoted(table)):
            if hidden != 1:
                yield name, kind, not not_null and not (key and kind.upper() == 'INTEGER')

    def geometries(self, table):
        """The reference system of each column that the GeoPackage lists as a geometry."""
        try:
            return {name.lower(): srid for name, srid in self.connection.execute(
                "SELECT column_name, srs_id FROM gpkg_geometry_columns WHERE lower(table_name) = lower(?) AND typeof(column_name) = 'text' "
                "AND typeof(srs_id) = 'integer'", [table])}
        except sqlite3.Error:
            return {}    # a GeoPackage of attributes alone has no such list

    def has_null(self, table, column):
        return bool(self.ask('SELECT 1 FROM %s WHERE %s IS NULL LIMIT 1' % (quoted(table), quoted(column))))

    def forms(self, table, column):
        """Of the values that begin as a date does: the forms that they have, some if there are many, each with the least value of it."""
        form, day = 'c', '-'.join('[0-9]' * n for n in (4, 2, 2))
        for digit in '123456789':
            form = "replace(%s, '%s', '0')" % (form, digit)
        return dict(self.ask("SELECT %s, min(c) FROM (SELECT %s AS c FROM %s) WHERE typeof(c) = 'text' AND c GLOB '%s*' GROUP BY 1 LIMIT 100"
                             % (form, quoted(column), quoted(table), day)))

    def collation(self, table, column):
        """The name of the collation by which SQLite compares the column: the program that it makes of a comparison has it."""
        for _, code, _, _, _, told, *_ in self.ask("EXPLAIN SELECT 1 FROM %s WHERE +%s = 'x'" % (quoted(table), quoted(column))):
            if code in ('Eq', 'Ne') and told:
                return told.rsplit('-', 1)[0]
        return 'BINARY'

    def encoding(self):
        """UTF-8, UTF-16le or UTF-16be: how the file holds texts."""
        return self.ask('PRAGMA encoding')[0][0]

    def count(self, table):
        return self.ask('SELECT count(*) FROM %s' % quoted(table))[0][0]

    def ask(self, sql):
        """All rows of a question of this command's own."""
        self.watch()
        try:
            return self.connection.execute(sql).fetchall()
        except sqlite3.Error as e:
            raise BadInput('cannot read %s: %s' % (self.path, e))

    def select(self, table, sql):
        """A cursor over the rows that the text selects."""
        return self.execute('SELECT * FROM %s WHERE %s' % (quoted(table), sql))

    def truths(self, table, key, sql):
        """For every row its key and what SQLite makes of the text: 1, 0 or None."""
        return self.execute('SELECT %s, (%s) FROM %s' % (quoted(key), sql, quoted(table))).fetchall()

    def watch(self):
        """Says on a terminal that a search goes on, where it takes long."""
        started = time.monotonic()

        def tick():
            if sys.stderr.isatty() and time.monotonic() - started > 1:
                print('\rsearching, %d s ' % (time.monotonic() - started), end='', file=sys.stderr, flush=True)
            return 0

        self.connection.set_progress_handler(tick, 1000000)

    def execute(self, sql):
        self.watch()
        try:
            return self.connection.execute(sql)
        except sqlite3.Error as e:
            if not isinstance(e, sqlite3.OperationalError) or str(e).startswith(OF_THE_FILE):
                raise BadInput('cannot read %s: %s' % (self.path, e))
            raise BadInput(explained(str(e)))


OF_THE_FILE = ('database is locked', 'disk I/O error', 'unable to open')    # what SQLite says of the file, not of the text


def quoted(name):
    return '"%s"' % name.replace('"', '""')


def explained(error):
    """What SQLite says, with what would help."""
    if error.startswith('no such function: ST_ReducePrecision'):
        return 'SQLite cannot run this text: ST_ReducePrecision needs SpatiaLite 5.1 or newer (--spatialite)'
    if error.startswith('no such function: ST_'):
        return 'SQLite cannot run this text: spatial functions need SpatiaLite (--spatialite)'
    return 'SQLite cannot run this text: %s' % error
