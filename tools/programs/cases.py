"""What the gate runs the programs `lower`, `lower_reduced` and `read` on, with answers written by hand from document 01.

The long parts are there because a program must answer, and go on with the next case, also where a part passes every limit and its own buffer."""
from answers.stored import framed
from model.operators import NUMBER
from model.records import SHEET_SETTINGS, boolean, date, dyadic, ident, interval, monadic, null, num, row, settings_record, string, timestamp, unbounded

SETTINGS, NULL = settings_record(SHEET_SETTINGS), null()
A, B, C = map(ident, (b'a', b'b', b'c'))
SHEET_J = dyadic(NUMBER['TDisjoint'], A, interval(B, C))
TEXT_J = b'("c" IS NOT NULL AND (a < b)) OR ("b" IS NOT NULL AND (a > c))'
ROW_N = row([(b'a', b'2024-01-02'), (b'b', None), (b'c', b'2024-01-01')])

LOWER = [
    ((SETTINGS, SHEET_J), TEXT_J.decode()),
    ((SETTINGS, bytes(32769)), 'refused 2'),
    ((SETTINGS, bytes(70000)), 'refused 2'),
    ((bytes(70000), NULL), 'refused 1'),
    ((SETTINGS, b''), 'refused 3'),
    ((SETTINGS, interval(A, B)), 'refused 7'),
    ((SETTINGS, NULL), 'NULL'),
    ((SETTINGS, dyadic(NUMBER['Eq'], A, string(b"O'Ring 5 mm"))), "a = 'O''Ring 5 mm'"),
    ((SETTINGS, string('Flügel'.encode(), 3)), "'Flügel' COLLATE NCA"),
    ((SETTINGS, string('Flügel'.encode('latin-1'))), 'refused 6'),
]
STAMP = timestamp(2024, 2, 29, 12, 0, 0)
STAMPED = [    # with the texts of both writing calls
    ((SETTINGS, dyadic(NUMBER['TAfter'], A, STAMP)), "a > '2024-02-29T12:00:00'", "a > '2024-02-29T12:00:00.000Z'"),
    ((SETTINGS, dyadic(NUMBER['TIntersects'], A, interval(STAMP, date(2024, 3, 1)))),
     "NOT((a < '2024-02-29T12:00:00') OR (a > '2024-03-01'))", "NOT((a < '2024-02-29T12:00:00.000Z') OR (a > '2024-03-01'))"),
    ((SETTINGS, string(b'2024-02-29T12:00:00')), "'2024-02-29T12:00:00'", "'2024-02-29T12:00:00'"),
    ((SETTINGS, timestamp(2023, 2, 29, 12, 0, 0)), 'refused 6', 'refused 6'),
    ((SETTINGS, dyadic(NUMBER['TIntersects'], interval(A, unbounded()), STAMP)),
     "NOT(('-2021-01-01' < '2024-02-29T12:00:00') OR (a > '2024-02-29T12:00:00'))",
     "NOT(('A' < '2024-02-29T12:00:00.000Z') OR (a > '2024-02-29T12:00:00.000Z'))"),
    ((SETTINGS, dyadic(NUMBER['TEquals'], unbounded(), interval(unbounded(), unbounded()))),
     "('-2021-01-01' = '-2021-01-01') AND ('-2021-01-01' = '-2021-01-01')", "('-2021-01-01' = '-2021-01-01') AND ('-2021-01-01' = 'A')"),
    ((SETTINGS, interval(A, unbounded())), 'refused 7', 'refused 7'),
]
REDUCED = LOWER + [    # what `lower_reduced` answers; refusals of reducing come before the 1
    ((SETTINGS, dyadic(NUMBER['Or'], NULL, boolean(1))), 'TRUE'),
    ((SETTINGS, dyadic(NUMBER['And'], A, monadic(NUMBER['Neg'], boolean(1)))), 'a AND FALSE'),
    ((SETTINGS, dyadic(NUMBER['Eq'], A, monadic(NUMBER['Minus'], num(150, 1)))), 'a = -15'),
    ((SETTINGS, monadic(NUMBER['CaseI'], monadic(NUMBER['AccentI'], string(b"O'Ring")))), "'O''Ring' COLLATE NCA"),
    ((SETTINGS, dyadic(NUMBER['TEquals'], date(2024, 2, 29), timestamp(2024, 2, 29, 0, 0, 0))), 'TRUE'),
    ((SETTINGS, dyadic(NUMBER['TEquals'], date(2024, 2, 29), STAMP)), 'FALSE'),
    ((SETTINGS, dyadic(NUMBER['Eq'], num(1), num(1))), 'refused 14'),
    ((b'', dyadic(NUMBER['Eq'], num(1), num(1))), 'refused 14'),
    ((b'', interval(A, B)), 'refused 7'),
    ((b'', NULL), 'refused 1'),
]
READ = [
    ((TEXT_J, ROW_N), 'unknown'),
    ((TEXT_J, ROW_N.replace(b'2024-01-02', b'2023-12-31')), 'unknown'),
    ((b"a > '2024-01-01'", ROW_N), 'true'),
    ((b"a < c OR b IS NOT NULL", ROW_N), 'false'),
    ((b"TRUE", b''), 'true'),
    ((b' ' * 65535 + b' ', ROW_N), 'refused 10'),
    ((b'TRUE', bytes(32769)), 'refused 10'),
    ((b'TRUE', bytes(70000)), 'refused 10'),
    ((b' ' * 65531 + b'TRUE', b''), 'true'),
    ((b'TRUE', ROW_N[:-1]), 'refused 11'),
    ((b'1 = 1', ROW_N), 'refused 12'),
    ((b'd IS NULL', ROW_N), 'refused 13'),
    ((b"a = 'O''Ring 5 mm'", row([(b'a', b"O'Ring 5 mm")])), 'true'),
    (("a < 'Flügel'".encode(), row([(b'a', b'Flz')])), 'true'),
    ((b"a = 'O'Ring 5 mm'", row([(b'a', b"O'Ring 5 mm")])), 'refused 12'),
    ((b'TRUE', row([(b'a', 'Flügel'.encode('latin-1'))])), 'refused 11'),
]

# the last case of each: input that ends inside a part, which is answered by the line `incomplete`
LOWER_CUT = framed(SETTINGS, SHEET_J)[:-1]
READ_CUT = framed(b'TRUE')[:-1]
