"""A log of stays on a bench as a GeoPackage: which object came to which tray, when it came, when it left, where it lay and when the camera first saw
it."""
import datetime
import os
import random
import sqlite3
import struct

UNDEFINED = 'undefined'
WGS84 = ('GEOGCS["WGS 84",DATUM["WGS_1984",SPHEROID["WGS 84",6378137,298.257223563,AUTHORITY["EPSG","7030"]],AUTHORITY["EPSG","6326"]],'
         'PRIMEM["Greenwich",0,AUTHORITY["EPSG","8901"]],UNIT["degree",0.0174532925199433,AUTHORITY["EPSG","9122"]],AUTHORITY["EPSG","4326"]]')

# The tables that GeoPackage 1.3 asks for, and the log itself as a table of features.
TABLES = '''
PRAGMA application_id = 0x47504B47;
PRAGMA user_version = 10300;
CREATE TABLE gpkg_spatial_ref_sys (
  srs_name TEXT NOT NULL, srs_id INTEGER PRIMARY KEY, organization TEXT NOT NULL, organization_coordsys_id INTEGER NOT NULL,
  definition TEXT NOT NULL, description TEXT);
CREATE TABLE gpkg_contents (
  table_name TEXT NOT NULL PRIMARY KEY, data_type TEXT NOT NULL, identifier TEXT UNIQUE, description TEXT DEFAULT '',
  last_change DATETIME NOT NULL DEFAULT (strftime('%Y-%m-%dT%H:%M:%fZ', 'now')), min_x DOUBLE, min_y DOUBLE, max_x DOUBLE, max_y DOUBLE,
  srs_id INTEGER, CONSTRAINT fk_gc_r_srs_id FOREIGN KEY (srs_id) REFERENCES gpkg_spatial_ref_sys (srs_id));
CREATE TABLE gpkg_geometry_columns (
  table_name TEXT NOT NULL, column_name TEXT NOT NULL, geometry_type_name TEXT NOT NULL, srs_id INTEGER NOT NULL, z TINYINT NOT NULL,
  m TINYINT NOT NULL, CONSTRAINT pk_geom_cols PRIMARY KEY (table_name, column_name), CONSTRAINT uk_gc_table_name UNIQUE (table_name),
  CONSTRAINT fk_gc_tn FOREIGN KEY (table_name) REFERENCES gpkg_contents (table_name),
  CONSTRAINT fk_gc_srs FOREIGN KEY (srs_id) REFERENCES gpkg_spatial_ref_sys (srs_id));
CREATE TABLE stays (
  fid INTEGER PRIMARY KEY AUTOINCREMENT NOT NULL, label TEXT(16) NOT NULL, tray TEXT(16), entry DATE, exit DATE, place POINT,
  seen DATETIME);
'''
SYSTEMS = [('Undefined Cartesian SRS', -1, 'NONE', -1, UNDEFINED, 'undefined Cartesian coordinate reference system'),
           ('Undefined geographic SRS', 0, 'NONE', 0, UNDEFINED, 'undefined geographic coordinate reference system'),
           ('WGS 84 geodetic', 4326, 'EPSG', 4326, WGS84, 'longitude/latitude coordinates in decimal degrees on the WGS 84 spheroid')]


LABELS = ('bolt', 'bowl', 'cup', "O'Ring 5 mm", 'Flügel')
BENCH = -1    # metres on the bench: the Cartesian system that has no further definition
WIDTH, DEPTH = 1.2, 0.6


def point(x, y):
    """A GeoPackage geometry: its header, then well-known binary, little-endian."""
    return b'GP\0\1' + struct.pack('<i', BENCH) + struct.pack('<BIdd', 1, 1, x, y)


def clock(pick):
    """A time of day to the millisecond, in two shifts from 6 to 22. At 14:00, when they change, the camera starts anew, and sees at that instant what came
    meanwhile."""
    if pick.random() < 0.2:
        return '14:00:00.000'
    hour, minute, second = pick.randrange(6, 22), pick.randrange(60), pick.randrange(60)
    return '%02d:%02d:%02d.%03d' % (hour, minute, second, pick.choice((0, 1, 999, pick.randrange(1000))))


def stays(count, seed):
    """The rows of a log, the same each time. A stay that is still open has no exit; one that began unseen has no entry, and was not seen."""
    pick, times = random.Random(seed), random.Random('%d, times of day' % seed)
    first = datetime.date(2026, 3, 1)
    rows = []
    for _ in range(count):
        came = first + datetime.timedelta(days=pick.randrange(31))
        left = came + datetime.timedelta(days=pick.choice((0, 1, 1, 2, 3, 5, 8)))
        unseen, still_open = pick.random() < 0.04, pick.random() < 0.12
        rows.append((pick.choice(LABELS), pick.choice(('left', 'middle', 'right', None)),
                     None if unseen else came.isoformat(), None if still_open else left.isoformat(),
                     point(round(pick.uniform(0, WIDTH), 2), round(pick.uniform(0, DEPTH), 2)),
                     None if unseen else '%sT%sZ' % (came.isoformat(), clock(times))))
    return rows


def make(path, count=200, seed=2026):
    """Writes the GeoPackage anew: beside its place, and then there in one step, so that another who reads it has a whole one."""
    os.makedirs(os.path.dirname(path), exist_ok=True)
    beside = '%s.%d' % (path, os.getpid())
    if os.path.exists(beside):
        os.remove(beside)
    try:
        write(beside, count, seed)
        os.replace(beside, path)
    finally:
        if os.path.exists(beside):
            os.remove(beside)


def write(path, count, seed):
    connection = sqlite3.connect(path)
    with connection:
        connection.executescript(TABLES)
        connection.executemany('INSERT INTO gpkg_spatial_ref_sys VALUES (?, ?, ?, ?, ?, ?)', SYSTEMS)
        connection.execute('INSERT INTO gpkg_contents (table_name, data_type, identifier, description, min_x, min_y, max_x, max_y, srs_id) '
                           'VALUES (?, ?, ?, ?, ?, ?, ?, ?, ?)',
                           ('stays', 'features', 'stays', 'Stays of objects on the bench', 0, 0, WIDTH, DEPTH, BENCH))
        connection.execute('INSERT INTO gpkg_geometry_columns VALUES (?, ?, ?, ?, 0, 0)', ('stays', 'place', 'POINT', BENCH))
        connection.executemany('INSERT INTO stays (label, tray, entry, exit, place, seen) VALUES (?, ?, ?, ?, ?, ?)', stays(count, seed))
    connection.close()
