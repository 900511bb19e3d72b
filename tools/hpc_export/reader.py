"""Where databases are read, of each version of the format (docs/FORMATS.md).

Each is read as a Database, so that a format that is written, and the page, need not know of versions.
"""
from . import rules
from .database import Malformed

# By the first 8 bytes.
VERSIONS = {b"HPCPROF1": 1, b"HPCPROF2": 2, b"HPCPROF3": 3}


def begin(data):
    """The database that these bytes are, or Malformed: rule 1 where no version begins so. Its planes may still be looked
    at: what comes with it waits for that, and raises Malformed where they break a rule."""
    version = VERSIONS.get(data[:8])
    if version is None:
        raise Malformed(1, 0)
    return rules.begin(data, version)


def read(data):
    """The database that these bytes are, or Malformed."""
    database, finish = begin(data)
    finish()
    return database
