"""The two writings: the Rust's text; and timestamps as a GeoPackage stores them in a DATETIME column, with an interval's open end above every instant."""

RUST, GEOPACKAGE = 'rust', 'geopackage'
ARGUMENTS = {RUST: (), GEOPACKAGE: ('geopackage',)}    # of the program `lower`
AFTER = {RUST: '', GEOPACKAGE: '.000Z'}    # what stands behind the seconds
LINES = {RUST: 'writing rust: timestamps end with their seconds, and an open end lies below every instant (--writing geopackage: .000Z, and above)',
         GEOPACKAGE: 'writing geopackage: timestamps end in .000Z, as GeoPackage defines DATETIME, and an open end lies above every instant '
                     '(--writing rust: neither)'}
