"""Names of procedures as the linker knows them, by the program's file: pyelftools reads its debug information.

The database knows a procedure by the offset of its entry in .debug_info, or by the address of its symbol. An entry's
linkage name is its own, or that of the entry which it refers to (DWARF 5 sections 3.3 and 2.22). `c++filt` makes a
mangled name readable, where it is there. An entry whose name isn't the procedure's is of another program.
"""
import dataclasses
import importlib
import shutil
import subprocess
import sys

from .database import DIE, SYMBOL

FILTERS = ("c++filt", "riscv64-unknown-elf-c++filt", "llvm-cxxfilt")
LINKS = ("DW_AT_specification", "DW_AT_abstract_origin")
MOST_LINKS = 8
# Debian's Python modules, which another Python than Debian's may use where they are Python alone.
DEBIAN = "/usr/lib/python3/dist-packages"


class NoNames(Exception):
    """The program's file is another one, or what reads it isn't there."""


def with_linkage_names(database, program):
    """The database with the readable linkage names of procedures that have one."""
    names = {}
    with open(program, "rb") as file:
        try:
            elf = _module("elftools.elf.elffile").ELFFile(file)
            information = elf.get_dwarf_info() if elf.has_dwarf_info() else None
        except (ValueError, _module("elftools.common.exceptions").ELFError) as error:
            raise NoNames(f"{program}: {error or 'not an ELF file'}") from error
        for place, procedure in enumerate(database.procedures):
            name, own = _names(information, procedure.number) if procedure.kind == DIE and information else (None, None)
            if procedure.kind == DIE and own not in (None, procedure.name):
                raise NoNames(f"{program}: not the program of this database")
            if procedure.kind == SYMBOL and procedure.name.startswith(b"_Z"):
                name = procedure.name
            if name:
                names[place] = name
    readable = dict(zip(names, _demangled(list(names.values()))))
    procedures = [
        dataclasses.replace(procedure, name=readable.get(place, procedure.name))
        for place, procedure in enumerate(database.procedures)
    ]
    return dataclasses.replace(database, procedures=procedures)


def _module(name):
    try:
        return importlib.import_module(name)
    except ImportError:
        sys.path.append(DEBIAN)
        try:
            return importlib.import_module(name)
        except ImportError as error:
            raise NoNames("--elf wants pyelftools (Debian's python3-pyelftools)") from error
        finally:
            sys.path.remove(DEBIAN)


def _names(information, offset):
    """The linkage name and the name of an entry, or of what it refers to: None where there is none. Where no entry is,
    the name is empty."""
    found = {"DW_AT_linkage_name": None, "DW_AT_name": None}
    try:
        entry = information.get_DIE_from_refaddr(offset)
        for _ in range(MOST_LINKS):
            for attribute, before in found.items():
                if before is None and attribute in entry.attributes:
                    found[attribute] = entry.attributes[attribute].value
            link = next((link for link in LINKS if link in entry.attributes), None)
            if link is None:
                break
            entry = entry.get_DIE_from_attribute(link)
    except (_module("elftools.common.exceptions").DWARFError, KeyError, ValueError, AttributeError):
        return None, b""
    return tuple(found.values())


def _demangled(names):
    tool = next(filter(None, map(shutil.which, FILTERS)), None)
    if not tool or not names:
        return names
    done = subprocess.run([tool], input=b"\n".join(names) + b"\n", capture_output=True, check=False)
    found = done.stdout.split(b"\n")[: len(names)]
    return found if done.returncode == 0 and len(found) == len(names) else names
