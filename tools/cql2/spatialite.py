"""A Python that can load SpatiaLite: for tests alone, as the first on the PATH may have been built without extensions."""
import functools
import os
import subprocess
import sys

LOAD = "import sqlite3; c = sqlite3.connect(':memory:'); c.enable_load_extension(True); c.load_extension('mod_spatialite')"
MISSING = 'no Python here loads SpatiaLite: apt-get install -y libsqlite3-mod-spatialite'


@functools.lru_cache(None)
def python():
    """This one first; None if there is none."""
    for program in (sys.executable, '/usr/bin/python3'):
        if os.path.exists(program) and subprocess.run([program, '-c', LOAD], capture_output=True).returncode == 0:
            return program
    return None
