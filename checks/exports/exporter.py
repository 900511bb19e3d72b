"""The exporter as a command, and complaints about what it makes."""
import pathlib
import re
import subprocess

TOP = pathlib.Path(__file__).resolve().parents[2]
EXPORT = TOP / "tools" / "hpc-export"

failures = []


def complain(line):
    print(f"look: {line}")
    failures.append(line)


def same(name, found, wanted):
    if found != wanted:
        complain(f"{name}: found {str(found)[:600]}, not {str(wanted)[:600]}")


def export(database, *words, at=None):
    """Status, output and errors of the exporter, called in a folder."""
    done = subprocess.run([EXPORT, database, *words], capture_output=True, cwd=at)
    return done.returncode, done.stdout, done.stderr.decode()


def exported(database, *words, at=None):
    status, out, errors = export(database, *words, at=at)
    if status != 0 or errors:
        complain(f"{database.name} {words}: status {status}, {errors}")
    return out


def printed(name):
    """A name as tables print it."""
    return re.sub(r"[\x00-\x1f\x7f]", "?", name)
