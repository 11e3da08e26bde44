"""The command ./filter: a CQL2-JSON filter to SQL, and with a GeoPackage the rows that it picks."""
import argparse
import sqlite3
import sys

from . import differences, lowering, prepare, proved, records, reducing, table
from .callers import CONTROLLER, LIMITS, PLANNER
from .columns import NoTable, Table
from .encode import KNOWN, Encoder
from .errors import BadInput, Parted, guarded, some, told
from .geopackage import GeoPackage
from .reading import is_text_encoding, read_filter
from .writing import GEOPACKAGE, LINES, RUST

ABOUT = 'Shows the SQL text of a CQL2-JSON filter, lowered by the proved program, and with a GeoPackage the rows that it picks.'
MORE = '''examples:
  ./filter '{"op": "=", "args": [{"property": "label"}, "cup"]}'
  ./filter filters/during.json
  ./filter filters/during.json --geopackage target/demo/stays.gpkg
  ./filter filters/late_shift.json --geopackage target/demo/stays.gpkg --writing rust
  ./filter filters/not_ended.json --writing geopackage
  ./filter filters/not_ended.json --writing geopackage --length
  ./filter filters/during.json --controller
  ./filter filters/unreduced.json --reduce
  cat filters/during.json | ./filter - --geopackage target/demo/stays.gpkg --table stays

timestamps:
  With --geopackage they are written as GeoPackage defines DATETIME, 2026-03-16T14:00:00.000Z, else as ogc-cql2 does, 2026-03-16T14:00:00;
  --writing takes the other. They are compared as texts, so that what is written must have the form of what the column holds.

open ends:
  An interval that has not ended, as ["2026-03-16T14:00:00Z", ".."]: with --geopackage, or --writing geopackage, its end lies above every instant, as CQL2
  has it; ogc-cql2, and --writing rust, put it below every instant.

reducing:
  With --reduce the filter is reduced first, as ogc-cql2 does it: what can be told without a row, of null, true and false and of dates and timestamps
  against each other, is put in its place; a date stands for its midnight. Any other operator of two written values is refused (14), as 1 = 1 and 1 + 2.

operators:
  and or not  = <> < > <= >=  isNull like between in  casei accenti  + - * / div % ^
  s_contains s_crosses s_disjoint s_equals s_intersects s_overlaps s_touches s_within
  t_after t_before t_contains t_disjoint t_during t_equals t_finishedBy t_finishes
  t_intersects t_meets t_metBy t_overlappedBy t_overlaps t_startedBy t_starts
  a_containedBy a_contains a_equals a_overlaps

warnings:
  Where the text is known to do something else than the filter says, or SQLite cannot run it, a line on standard error names the place
  in the filter, what will happen and the way out (docs/DIFFERENCES.md has each). With a GeoPackage its columns' types are looked at too, and
  how they hold instants.

exit status:
  0  done
  1  the filter is refused: the line names document 01's rule, and the place in the filter; or --strict, and there is a warning
  2  bad JSON, an unknown operator, a missing file, a text that SQLite cannot run: one line says which
'''


def whole(least, most):
    def read(text):
        if not text.isascii() or not text.isdigit() or len(text) > 12 or not least <= int(text) <= most:
            raise argparse.ArgumentTypeError('a whole number from %d to %d is due' % (least, most))
        return int(text)
    return read


def collation_name(text):
    if not 1 <= len(text.encode('utf-8', 'surrogateescape')) <= 64:
        raise argparse.ArgumentTypeError('a name of 1 to 64 letters is due')
    return text


def function_name(text):
    if text in KNOWN:
        raise argparse.ArgumentTypeError('%s is an operator' % text)
    return text


def writing_name(text):
    if text not in LINES:
        raise argparse.ArgumentTypeError('%s or %s is due' % (RUST, GEOPACKAGE))
    return text


class Parser(argparse.ArgumentParser):
    def error(self, message):
        """One line, as for every other error."""
        raise BadInput('%s (see ./filter --help)' % message)


def parser():
    p = Parser(prog='filter', usage='./filter FILTER [options]', description=ABOUT, epilog=MORE,
               formatter_class=argparse.RawDescriptionHelpFormatter, allow_abbrev=False)
    p.add_argument('filter', metavar='FILTER', help='a file, the JSON itself, or - for standard input')
    p.add_argument('-g', '--geopackage', metavar='FILE', help='run the text on this GeoPackage and show the rows')
    p.add_argument('-t', '--table', metavar='NAME', help='its table (may be left out if there is only one)')
    p.add_argument('--writing', metavar='{%s,%s}' % (RUST, GEOPACKAGE), type=writing_name,
                   help='how timestamps and open ends are written: as ogc-cql2 does, or as GeoPackage and CQL2 have them (default: geopackage with '
                        '--geopackage, else rust)')
    p.add_argument('--length', action='store_true', help="show the text's length in bytes in the place of the text, and no rows")
    p.add_argument('--controller', action='store_true', help="lower it within the limits of the camera's controller: {0.tree:,} bytes as records, {0.depth} levels, "
                   'a text of {0.text:,} bytes'.format(LIMITS[CONTROLLER]))
    p.add_argument('--reduce', action='store_true', help='reduce the filter first: what can be told without a row is not in the text then')
    p.add_argument('--rows', metavar='N', type=whole(0, 10 ** 9), default=40, help='show at most N rows (default 40; 0: all)')
    p.add_argument('--spatialite', action='store_true', help='load SpatiaLite, for the s_ operators')
    p.add_argument('--strict', action='store_true', help='refuse a filter that has a warning')
    p.add_argument('--function', metavar='NAME', type=function_name, action='append', default=[],
                   help='take NAME for a function of the database; may be repeated')
    p.add_argument('--srid', metavar='N', type=whole(0, 2 ** 32 - 1), default=4326, help='reference system of written geometries (default 4326)')
    p.add_argument('--precision', metavar='N', type=whole(0, 15), default=7, help='digits after the point of coordinates (default 7)')
    p.add_argument('--ci', metavar='NAME', type=collation_name, default='CQL2_CI', help='collation that ignores letter case (default CQL2_CI)')
    p.add_argument('--ai', metavar='NAME', type=collation_name, default='CQL2_AI', help='collation that ignores accents (default CQL2_AI)')
    p.add_argument('--cai', metavar='NAME', type=collation_name, default='CQL2_CI_AI', help='collation that ignores both (default CQL2_CI_AI)')
    return p


def filter_bytes(source):
    """What the argument names: standard input, the JSON itself, or a file; and a name for it in errors."""
    if source == '-':
        return sys.stdin.buffer.read(), 'the filter'
    if source.lstrip('\ufeff \t\r\n')[:1] in ('{', '[', '"') or source.strip() in ('true', 'false', 'null'):
        return source.encode('utf-8', 'surrogateescape'), 'the filter'
    try:
        with open(source, 'rb') as f:
            return f.read(), 'the filter %s' % source
    except (OSError, ValueError) as e:
        if is_text_encoding(source):
            raise BadInput('the filter is CQL2-Text, and CQL2-JSON is due, as {"op": "=", "args": [{"property": "label"}, "cup"]}')
        raise BadInput('cannot read the filter %s: %s' % (source, getattr(e, 'strerror', None) or e))


def check_columns(tree, package, name):
    """SQLite would take a quoted name that is no column for a text, in silence."""
    columns = package.columns(name)
    known = {column.lower() for column in columns}
    for node in (node for node, _ in tree.walk() if node.kind == records.ID):
        if node.head.decode().lower() not in known:
            raise BadInput('the table "%s" has no column %s; it has %s' % (name, node.head.decode(), some(columns)), node.place)


def show_rows(package, name, sql, most):
    cursor = package.select(name, sql)
    try:
        shown = cursor.fetchmany(most) if most else cursor.fetchall()
        count = len(shown) + sum(1 for _ in cursor)
    except sqlite3.Error as e:
        raise BadInput('SQLite stopped in %s: %s' % (package.path, e))
    if sys.stderr.isatty():
        print('\r\033[K', end='', file=sys.stderr, flush=True)
    for line in table.lines([d[0] for d in cursor.description], shown):
        print(line)
    if count > len(shown):
        print('… %d more (--rows 0 shows all)' % (count - len(shown)))
    print('%d of %d rows' % (count, package.count(name)))


def warnings_of(value, tree, sql, settings, scratch, where):
    """What is known to part between the filter and its text; what SQLite cannot run for a reason of its own comes last."""
    found = differences.find(value, where)
    other = None if any(one.cannot for one in found) else prepare.found(scratch, settings, tree, sql)
    return found + [other] if other else found


def tell(found, strict):
    """A line for each warning; with --strict they are refusals."""
    for one in found:
        told('filter', differences.line(one), 0)
    if strict and found:
        raise Parted('refused (--strict): %d warning%s' % (len(found), '' if len(found) == 1 else 's'))


def run(arguments):
    options = parser().parse_args(arguments)
    if options.geopackage is None and (options.table is not None or options.spatialite):
        raise BadInput('--table and --spatialite go with --geopackage (see ./filter --help)')
    value = read_filter(*filter_bytes(options.filter))
    tree = Encoder(options.precision, options.srid, options.function).filter(value)
    collations = (options.ci, options.ai, options.cai)
    package = GeoPackage(options.geopackage, collations, options.spatialite) if options.geopackage is not None else None
    name = package.table(options.table) if package else None
    proved.build(['lower', *['lower_reduced'] * options.reduce])
    settings = records.settings(options.precision, *collations)
    writing = options.writing or (GEOPACKAGE if package else RUST)
    sql = lowering.lower(settings, tree, writing, CONTROLLER if options.controller else PLANNER, options.reduce)
    if package:
        check_columns(tree, package, name)
    scratch = prepare.Scratch(tree, collations)
    where = Table(package, name, options.spatialite, options.srid, writing) if package else NoTable(options.srid, writing)
    found = warnings_of(value, tree, sql, settings, scratch, where)
    if options.reduce:
        gone = reducing.told_beforehand(settings, tree)
        found = [one for one in found if not reducing.lies_in(one.place, gone)]
    runs = package is not None and not options.length
    # on a GeoPackage what SQLite cannot run ends the command, and is said once
    ending = [one for one in found if one.cannot] if runs and scratch.error(sql) and not options.strict else []
    tell([one for one in found if one not in ending], options.strict)
    print(len(sql.encode()) if options.length else sql)
    if ending:
        raise BadInput('SQLite cannot run this text: %s; %s' % (scratch.error(sql), ending[0].instead), ending[0].place)
    if runs:
        print(LINES[writing], end='\n\n')
        show_rows(package, name, sql, options.rows)


def main(arguments):
    return guarded('filter', lambda: run(arguments))
