"""Exports random images and reads the files back. `tests/interop/run` calls it:

    interop.py EXPORT FOLDER READER..

EXPORT is the program of export.c, FOLDER takes the files, a READER is one of those that the modules
of the formats name. A reader must find each number of the image at its address, and nothing
elsewhere.
"""

import os
import random
import sys

import c_array
import intel_hex
import logisim
import mif
import readmem
from common import call

SEED = 0x5249434553484F41
# Differences that are printed for a format; the others are only counted.
PRINTED = 10

FORMATS = {
    "intelhex": intel_hex,
    "mif": mif,
    "readmem": readmem,
    "c_array": c_array,
    "logisim": logisim,
}


def difference(found, expected):
    for at in sorted(found.keys() | expected.keys()):
        if found.get(at) != expected.get(at):
            return f"at {at:#x}: expected {expected.get(at)}, found {found.get(at)}"
    return None


def try_case(case, path, export, readers):
    """What differs, for the export and for each reader: its name and the words for it, or None."""
    try:
        text = call(export, *case.arguments, input=case.job)
    except Exception as error:
        return [("export", str(error))]
    with open(path, "wb") as file:
        file.write(text)
    said = []
    for name, reader in readers.items():
        try:
            said.append((name, difference(reader(path, case), case.expected)))
        except Exception as error:
            said.append((name, str(error)))
    return said


def try_format(name, rng, folder, export, readers):
    """The number of differences."""
    differences = 0
    files = FORMATS[name].FILES
    for number in range(files):
        case = FORMATS[name].make_case(rng, number)
        path = os.path.join(folder, f"{number}.{name}")
        for reader, what in try_case(case, path, export, readers):
            if what is not None:
                differences += 1
                if differences <= PRINTED:
                    options = " ".join(case.arguments[1:])
                    print(f"difference: {number}.{name} {options}, {reader}: {what}")
    print(f"interop: {name}: {files} files, {' '.join(readers)}, {differences} differences")
    return differences


def main(export, folder, *names):
    try:
        seed = int(os.environ.get("RICESHOAL_SEED", SEED))
    except ValueError:
        return "interop: RICESHOAL_SEED is not a number"
    differences = 0
    for name, module in FORMATS.items():
        readers = {reader: module.READERS[reader] for reader in names if reader in module.READERS}
        if readers:
            differences += try_format(name, random.Random(seed), folder, export, readers)
    return differences > 0


sys.exit(main(*sys.argv[1:]))
